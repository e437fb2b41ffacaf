//! Why a call wasn't done.
use crate::fault::Fault;
use scene_sys as raw;
use std::fmt;

/// Why a call wasn't done, or not told. But for `Untold` and `Lost`, and where a step of several frames was begun, the
/// scene is as it was.
///
/// ```
/// use scene::{Error, Fault, Scene};
///
/// let mut scene = Scene::new()?;
/// match scene.undo() {
///     Err(Error::Refused(refusal)) => assert_eq!(refusal.fault, Fault::NothingToUndo),
///     other => panic!("{other:?}"),
/// }
/// # Ok::<(), Error>(())
/// ```
#[derive(Clone, Debug, PartialEq, Eq)]
#[non_exhaustive]
pub enum Error {
    /// The rules of the world refused it.
    Refused(Refusal),
    /// There is no such call here, as an undo in an open frame; or a line is bad, as docs/SCRIPTS.md says. The words
    /// are the library's, where it has some.
    Bad(String),
    /// Memory was wanting. Where the call would have ended the setup, the setup may be over.
    NoMemory,
    /// The scene is closed. No call of this crate leaves it so.
    Closed,
    /// The call was done, and memory was wanting for the text of its answer.
    Untold,
    /// Memory was wanting, and the kinds or the scene that the setup had are lost.
    Lost,
    /// The scene is shared, so that it isn't changed. No call of this crate would change a
    /// [`SharedScene`](crate::SharedScene).
    Shared,
}

impl Error {
    /// The refusal, where it is one.
    ///
    /// ```
    /// use scene::{Error, Fault, Scene};
    ///
    /// let error = Scene::new()?.redo().unwrap_err();
    /// assert_eq!(error.refusal().map(|refusal| refusal.fault), Some(Fault::NothingToRedo));
    /// assert_eq!(Error::Lost.refusal(), None);
    /// # Ok::<(), Error>(())
    /// ```
    #[must_use]
    pub fn refusal(&self) -> Option<&Refusal> {
        match self {
            Error::Refused(refusal) => Some(refusal),
            _ => None,
        }
    }
}

impl fmt::Display for Error {
    fn fmt(&self, f: &mut fmt::Formatter<'_>) -> fmt::Result {
        match self {
            Error::Refused(refusal) => refusal.fmt(f),
            Error::Bad(reason) if reason.is_empty() => f.write_str("there is no such call here, or the line is bad"),
            Error::Bad(reason) => f.write_str(reason),
            Error::NoMemory => f.write_str("memory was wanting, and nothing was done"),
            Error::Closed => f.write_str("the scene is closed"),
            Error::Untold => f.write_str("it was done, and memory was wanting for its answer"),
            Error::Lost => f.write_str("memory was wanting, and what the setup had is lost"),
            Error::Shared => f.write_str("the scene is shared, and only read"),
        }
    }
}

impl std::error::Error for Error {
    fn source(&self) -> Option<&(dyn std::error::Error + 'static)> {
        match self {
            Error::Refused(refusal) => Some(refusal),
            _ => None,
        }
    }
}

impl From<Refusal> for Error {
    fn from(refusal: Refusal) -> Error {
        Error::Refused(refusal)
    }
}

/// The place of a command: the phase of an advance, 0 else, the queue in it, and the command in that, each from 0.
///
/// ```
/// # use scene::{Error, Place, Scene, Shape};
/// let mut scene = Scene::new()?;
/// let health = scene.declare("Health", Shape::Int)?;
/// let mut frame = scene.frame();
/// let cat = frame.spawn(&[]);
/// frame.remove(cat, health);
/// let error = frame.commit().unwrap_err();
/// assert_eq!(error.refusal().unwrap().place, Some(Place { phase: 0, queue: 0, command: 1 }));
/// # Ok::<(), Error>(())
/// ```
#[derive(Clone, Copy, Debug, PartialEq, Eq, Hash)]
pub struct Place {
    /// The phase.
    pub phase: u32,
    /// The queue in the phase.
    pub queue: u32,
    /// The command in the queue.
    pub command: u32,
}

impl fmt::Display for Place {
    fn fmt(&self, f: &mut fmt::Formatter<'_>) -> fmt::Result {
        write!(f, "{}.{}.{}", self.phase, self.queue, self.command)
    }
}

/// A refusal by the rules of the world: a fault of docs/MODEL.md, and the place of the command that has it.
///
/// ```
/// # use scene::{Entity, Error, Fault, Scene};
/// let mut scene = Scene::new()?;
/// let error = scene.despawn(Entity { index: 7, generation: 9 }).unwrap_err();
/// let refusal = error.refusal().unwrap();
/// assert_eq!(refusal.fault, Fault::NoSuchEntity);
/// assert_eq!(refusal.to_string(), "refused 1 NoSuchEntity at 0.0.0");
/// # Ok::<(), Error>(())
/// ```
#[derive(Clone, Debug, PartialEq, Eq)]
pub struct Refusal {
    /// The fault.
    pub fault: Fault,
    /// What follows the name where the refusal was told as a text, which lines, requests and `load` do, and an
    /// `advance` with a BadRule or a Conflict: as the path of a BadField, or the length of a HistoryFull.
    pub fields: String,
    /// The place, where the fault is one of a command.
    pub place: Option<Place>,
    /// Whether a scene text has the fault, which is then told by another word.
    pub(crate) is_of_text: bool,
}

impl fmt::Display for Refusal {
    fn fmt(&self, f: &mut fmt::Formatter<'_>) -> fmt::Result {
        let word = if self.is_of_text { "fault" } else { "refused" };
        write!(f, "{word} {}", self.fault)?;
        if !self.fields.is_empty() {
            write!(f, " {}", self.fields)?;
        }
        match self.place {
            Some(place) => write!(f, " at {place}"),
            None => Ok(()),
        }
    }
}

impl std::error::Error for Refusal {}

impl Refusal {
    /// A refusal that has no fields and no place.
    pub(crate) fn of_fault(fault: Fault) -> Refusal {
        Refusal { fault, fields: String::new(), place: None, is_of_text: false }
    }

    /// What `scene_refused` tells; its fields are told by the text of the answer alone, where that has one.
    pub(crate) fn of_raw(raw: raw::scene_refusal, text: &str) -> Refusal {
        let raw::scene_refusal { fault, has_place, phase, queue, command } = raw;
        let place = (has_place != 0).then_some(Place { phase, queue, command });
        let mut refusal = Refusal { place, ..Refusal::of_fault(Fault::of_number(fault)) };
        let before = format!("refused {} ", refusal.fault);
        let behind = place.map(|place| format!(" at {place}")).unwrap_or_default();
        let told = text.strip_suffix('\n').unwrap_or(text).strip_suffix(&behind);
        if let Some(fields) = told.and_then(|told| told.strip_prefix(&before)) {
            refusal.fields = fields.to_owned();
        }
        refusal
    }

    /// The fault of a scene text, which the text of the answer tells, and no call does: its number is the second word,
    /// and behind that are its name and its fields.
    pub(crate) fn of_answer(text: &str) -> Option<Refusal> {
        let told = text.strip_prefix("fault ")?;
        let digits = told.find(|character: char| !character.is_ascii_digit()).unwrap_or(told.len());
        let (number, behind) = told.split_at(digits);
        let fault = Fault::of_number(number.parse().ok()?);
        let fields = behind.strip_suffix('\n').unwrap_or(behind).strip_prefix(&format!(" {} ", fault.name()));
        Some(Refusal { fields: fields.unwrap_or("").to_owned(), is_of_text: true, ..Refusal::of_fault(fault) })
    }
}

impl From<Fault> for Error {
    fn from(fault: Fault) -> Error {
        Error::Refused(Refusal::of_fault(fault))
    }
}
