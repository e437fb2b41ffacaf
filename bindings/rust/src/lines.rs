//! Lines of a script, and requests, which stand for lines.
use crate::call::call;
use crate::error::{Error, Refusal};
use crate::scene::Scene;
use scene_sys as raw;

/// What a line came to.
///
/// ```
/// use scene::{Error, Outcome, Scene};
///
/// let mut scene = Scene::new()?;
/// assert_eq!(scene.play(b"spawn")?.outcome, Outcome::Done);
/// assert_eq!(scene.play(b"jump")?.outcome, Outcome::Bad("no command is named jump".to_owned()));
/// # Ok::<(), Error>(())
/// ```
#[derive(Clone, Debug, PartialEq, Eq)]
pub enum Outcome {
    /// It was done, or a question was answered.
    Done,
    /// It was refused.
    Refused(Refusal),
    /// It is a bad line, and this is why, in words.
    Bad(String),
}

/// The answer to a line.
///
/// ```
/// use scene::{Error, Scene};
///
/// let mut scene = Scene::new()?;
/// assert_eq!(scene.play(b"spawn")?.text, "done 0v1\n");
/// assert_eq!(scene.play(b"# a comment")?.text, "");
/// # Ok::<(), Error>(())
/// ```
#[derive(Clone, Debug, PartialEq, Eq)]
pub struct Answer {
    /// Its text, byte for byte as a script prints it.
    pub text: String,
    /// What the line came to.
    pub outcome: Outcome,
}

/// Lines and requests.
impl Scene {
    /// Plays a line of a script (docs/SCRIPTS.md), and gives the text of its answer without the last line break. With
    /// it all that has no call here can be had, as sessions. In a frame that the line `begin`
    /// opened, commands go by lines alone until `commit`.
    ///
    /// ```
    /// use scene::{Error, Scene};
    ///
    /// let mut scene = Scene::new()?;
    /// scene.line("kind Health Int")?;
    /// assert_eq!(scene.line("spawn Health=9")?, "done 0v1");
    /// scene.line("system hurt need=Health addint:Health:-1")?;
    /// scene.line("advance")?;
    /// assert_eq!(scene.line("get 0v1")?, "row 0v1 Health=8@1/2");
    /// assert_eq!(scene.line("jump").unwrap_err().to_string(), "no command is named jump");
    /// # Ok::<(), Error>(())
    /// ```
    ///
    /// # Errors
    ///
    /// [`Error::Refused`]; [`Error::Bad`] for a bad line.
    pub fn line(&mut self, line: &str) -> Result<String, Error> {
        self.play(line.as_bytes())?.into_text()
    }

    /// Plays a line that is given as bytes without its line break, and gives its answer also where it is refused or
    /// bad.
    ///
    /// ```
    /// use scene::{Error, Scene};
    ///
    /// let mut scene = Scene::new()?;
    /// assert_eq!(scene.play(b"undo")?.text, "refused 15 NothingToUndo\n");
    /// assert_eq!(scene.play(b"\xff")?.text, "bad line\n");
    /// # Ok::<(), Error>(())
    /// ```
    ///
    /// # Errors
    ///
    /// [`Error::NoMemory`], [`Error::Untold`] and [`Error::Lost`].
    pub fn play(&mut self, line: &[u8]) -> Result<Answer, Error> {
        // SAFETY: as in `call!`; pointer and length are those of one slice, which is lent for the call.
        let code = unsafe { raw::scene_line(self.handle(), line.as_ptr(), line.len()) };
        self.has_frame = self.is_in_frame();
        // Why a line is bad comes in the place of its text.
        let text = self.text();
        let outcome = outcome_of(self.came(code))?;
        Ok(Answer { text, outcome })
    }

    /// Plays a request: a JSON object in place of a line, whose texts have any characters (docs/SHELL.md, "Requests").
    /// Gives the text of the answer to that line, without the last line break. That of a question, which no line asks,
    /// is JSON, also where it says `refused`.
    ///
    /// ```
    /// use scene::{Error, Scene};
    ///
    /// let mut scene = Scene::new()?;
    /// let put = r#"{"do":"put","name":"motto","shape":"Text","value":"Big \"House\""}"#;
    /// assert_eq!(scene.request(put)?, "done");
    /// assert_eq!(scene.resource::<String>("motto")?, "Big \"House\"");
    /// let step = scene.request(r#"{"do":"past","from":0,"count":9}"#)?;
    /// assert_eq!(step, r#"{"answer":"steps","length":1,"steps":[{"tick":0,"deltas":1}]}"#);
    /// println!("{}", scene.request(r#"{"do":"jump"}"#).unwrap_err());
    /// # Ok::<(), Error>(())
    /// ```
    ///
    /// # Errors
    ///
    /// [`Error::Refused`]; [`Error::Bad`] for a bad request, which changes nothing, with the words that say why, and
    /// where in it. [`Error::NoMemory`], [`Error::Untold`] and [`Error::Lost`].
    pub fn request(&mut self, request: &str) -> Result<String, Error> {
        self.play_request(request.as_bytes())?.into_text()
    }

    /// Plays a request that is given as bytes, and gives its answer also where it is refused or bad.
    ///
    /// ```
    /// use scene::{Error, Scene};
    ///
    /// let mut scene = Scene::new()?;
    /// let answer = scene.play_request(br#"{"do":"undo"}"#)?;
    /// assert_eq!(answer.text, "refused 15 NothingToUndo\n");
    /// # Ok::<(), Error>(())
    /// ```
    ///
    /// # Errors
    ///
    /// As those of [`play`](Scene::play).
    pub fn play_request(&mut self, request: &[u8]) -> Result<Answer, Error> {
        // SAFETY: as in `call!`; pointer and length are those of one slice, which is lent for the call.
        let code = unsafe { raw::scene_request(self.handle(), request.as_ptr(), request.len()) };
        self.has_frame = self.is_in_frame();
        let text = self.text();
        let outcome = outcome_of(self.came_of_request(code, &text))?;
        Ok(Answer { text, outcome })
    }

    /// The last answer as one line of JSON (docs/SHELL.md, "JSON"), without a line break; also of a call that isn't a
    /// line, and where it was refused or bad.
    ///
    /// ```
    /// use scene::{Error, Scene};
    ///
    /// let mut scene = Scene::new()?;
    /// scene.line("spawn")?;
    /// assert_eq!(scene.answer_json()?, r#"{"answer":"done","entities":["0v1"]}"#);
    /// # Ok::<(), Error>(())
    /// ```
    ///
    /// # Errors
    ///
    /// [`Error::NoMemory`].
    pub fn answer_json(&mut self) -> Result<String, Error> {
        call!(self, scene_answer_json)?;
        Ok(without_break(self.text()))
    }

    /// What the code of a request says: where no bad line is behind it, its text tells why it is bad.
    fn came_of_request(&mut self, code: u32, text: &str) -> Result<(), Error> {
        match self.came(code) {
            Err(Error::Bad(reason)) if reason.is_empty() => Err(Error::Bad(without_break(text.to_owned()))),
            came => came,
        }
    }

    /// Whether a frame is open. It ends no setup.
    fn is_in_frame(&self) -> bool {
        let mut info = raw::scene_info::default();
        // SAFETY: as in `call!`; `info` is lent for the call.
        let code = unsafe { raw::scene_status(self.handle(), &mut info) };
        code == raw::SCENE_DONE && info.in_frame != 0
    }
}

impl Answer {
    /// The text without its last line break, where it was done.
    fn into_text(self) -> Result<String, Error> {
        match self.outcome {
            Outcome::Done => Ok(without_break(self.text)),
            Outcome::Refused(refusal) => Err(Error::Refused(refusal)),
            Outcome::Bad(reason) => Err(Error::Bad(reason)),
        }
    }
}

/// What a call that was answered came to; else why it wasn't.
fn outcome_of(came: Result<(), Error>) -> Result<Outcome, Error> {
    match came {
        Ok(()) => Ok(Outcome::Done),
        Err(Error::Refused(refusal)) => Ok(Outcome::Refused(refusal)),
        Err(Error::Bad(reason)) => Ok(Outcome::Bad(reason)),
        Err(error) => Err(error),
    }
}

/// A text without the line break that ends it.
pub(crate) fn without_break(mut text: String) -> String {
    if text.ends_with('\n') {
        text.pop();
    }
    text
}
