//! A scene: the safe side of the library's pointer.
use crate::call::{call, text_of, told};
use crate::error::{Error, Refusal};
use crate::fault::Fault;
use crate::kind::Kind;
use crate::lines::without_break;
use crate::value::Shape;
use scene_sys as raw;
use std::cell::{Cell, UnsafeCell};
use std::fmt;
use std::ptr;

/// How many bytes the name of a kind has at most.
const NAME_ROOM: usize = 32;

/// How many bytes a saved text is given room for, before one was made.
const SAVE_ROOM: usize = 16_384;

/// The versions of saved texts: a world alone, and with all that can be undone and redone.
const WORLD: u32 = 1;
const WHOLE: u32 = 2;

/// Why a depth isn't set.
const NO_DEPTH: &str = "a record is kept of 1 to 1,048,576 frames";

/// The version of the library: its three numbers.
///
/// ```
/// assert!(scene::version() >= (0, 1, 0));
/// ```
#[must_use]
pub fn version() -> (u32, u32, u32) {
    // SAFETY: the declaration fits the header's.
    let number = unsafe { raw::scene_version() };
    (number / 10_000, number / 100 % 100, number % 100)
}

/// A scene: a world, and what of it can be undone and redone. It begins in its setup, in which limits are set; the
/// first call that isn't a `declare`, `kind`, `kinds`, `set_depth`, `check_systems` or a setup line ends it, also one
/// that reads. Kinds are declared at any time. When it is let go, all of it is freed.
///
/// What reads, takes `&self`: it changes neither the world nor, but where it ends the setup, the last answer. A scene
/// goes to another thread with all that it has. Two threads can't have one at a time, not even to read, as it isn't
/// `Sync`; what [`share`](Scene::share) makes of it they read at once.
///
/// ```
/// use scene::{Error, Scene, Shape};
///
/// let mut scene = Scene::new()?;
/// let health = scene.declare("Health", Shape::Int)?;
/// let cat = scene.spawn(&[health.of(9)])?;
/// scene.insert(cat, health, 5)?;
/// scene.undo()?;
/// let there = std::thread::spawn(move || scene.get::<i64>(cat, health));
/// assert_eq!(there.join().unwrap()?, 9);
/// # Ok::<(), Error>(())
/// ```
///
/// ```compile_fail,E0277
/// fn is_lent_to_another_thread<T: Sync>(_: &T) {}
/// is_lent_to_another_thread(&scene::Scene::new().unwrap());
/// ```
pub struct Scene {
    /// What `scene_open` or `scene_reader` put here, and never null. Each call may write it, also one that reads.
    pub(crate) at: UnsafeCell<*mut raw::scene>,
    /// Whether a frame is open that a line or a request opened.
    pub(crate) has_frame: bool,
    /// How much room a saved text is given at first, so that the library makes it once.
    save_room: Cell<usize>,
}

// SAFETY: what the pointer points to is on the heap and the scene's alone, or it is shared by scenes that each have a
// pointer of their own: then no call changes it, so that several threads read it at once (scene.h, "several readers of
// one scene"). The library has no state besides, neither of a thread nor of the program, so a call doesn't depend on
// the thread it comes from. By one pointer calls come one at a time, as a scene isn't `Sync`.
unsafe impl Send for Scene {}

/// The numbers of a scene.
///
/// ```
/// # use scene::{Error, Scene, Shape, Status};
/// let mut scene = Scene::new()?;
/// scene.declare("Health", Shape::Int)?;
/// scene.spawn(&[])?;
/// scene.undo()?;
/// let status: Status = scene.status()?;
/// assert_eq!((status.undo, status.redo, status.rewinds, status.kinds), (0, 1, 1, 1));
/// # Ok::<(), Error>(())
/// ```
#[derive(Clone, Copy, Debug, PartialEq, Eq)]
pub struct Status {
    /// How many frames there were, as the last one's number.
    pub tick: u64,
    /// How many undos there were. With the tick it tells whether something was done or undone.
    pub rewinds: u64,
    /// How many frames can be undone.
    pub undo: u64,
    /// How many frames can be redone.
    pub redo: u64,
    /// How many indices of entities were used.
    pub slots: u32,
    /// How many can be.
    pub limit: u32,
    /// How many kinds there are.
    pub kinds: u32,
    /// Of how many frames a record is kept.
    pub depth: u32,
    /// Whether a frame is open, which a line or a request opened.
    pub in_frame: bool,
}

impl fmt::Debug for Scene {
    fn fmt(&self, f: &mut fmt::Formatter<'_>) -> fmt::Result {
        let kinds: Vec<_> = self.kinds().collect();
        f.debug_struct("Scene").field("kinds", &kinds).finish_non_exhaustive()
    }
}

impl Drop for Scene {
    fn drop(&mut self) {
        // SAFETY: `at` is what `scene_open` or `scene_reader` put there, and isn't used again.
        unsafe { raw::scene_close(self.handle()) };
    }
}

impl Scene {
    /// A new scene, without kinds, in its setup.
    ///
    /// ```
    /// use scene::{Error, Scene};
    ///
    /// let mut scene = Scene::new()?;
    /// assert_eq!(scene.spawn(&[])?.to_string(), "0v1");
    /// # Ok::<(), Error>(())
    /// ```
    ///
    /// # Errors
    ///
    /// [`Error::NoMemory`].
    pub fn new() -> Result<Scene, Error> {
        let mut at = ptr::null_mut();
        // SAFETY: the declaration fits the header's, and the library only writes to `at`.
        match unsafe { raw::scene_open(&mut at) } {
            raw::SCENE_DONE => Ok(Scene::of_raw(at, false)),
            _ => Err(Error::NoMemory),
        }
    }

    /// The scene of what `scene_open` or `scene_reader` gave, and whether a line has opened a frame that is open.
    pub(crate) fn of_raw(at: *mut raw::scene, has_frame: bool) -> Scene {
        Scene { at: UnsafeCell::new(at), has_frame, save_room: Cell::new(SAVE_ROOM) }
    }

    /// A scene from the text that [`save`](Scene::save) gave, or from one of a world alone, as
    /// [`save_world`](Scene::save_world) gives. The lines `calls` and `depth` may follow.
    ///
    /// ```
    /// use scene::{Error, Scene, Shape};
    ///
    /// let mut scene = Scene::new()?;
    /// let name = scene.declare("Name", Shape::Text)?;
    /// let cat = scene.spawn(&[name.of("cat")])?;
    /// let saved = scene.save()?;
    ///
    /// let mut other = Scene::load(&saved)?;
    /// let name = other.kind("Name").unwrap();
    /// assert_eq!(other.get::<String>(cat, name)?, "cat");
    /// other.undo()?;
    /// assert_eq!(other.rows()?.len(), 0);
    ///
    /// assert_eq!(Scene::load("no scene").unwrap_err().to_string(), "fault 50 NotJson");
    /// # Ok::<(), Error>(())
    /// ```
    ///
    /// # Errors
    ///
    /// [`Error::Refused`] where the text is no scene.
    pub fn load(text: &str) -> Result<Scene, Error> {
        let mut scene = Scene::new()?;
        call!(scene, scene_load, text.as_ptr(), text.len())?;
        Ok(scene)
    }

    /// The scene, with all that can be undone and redone, as a text of one line, which [`load`](Scene::load) reads. The
    /// last answer stays. In a frame that a line opened it is the scene before that.
    ///
    /// ```
    /// # use scene::{Error, Scene};
    /// let mut scene = Scene::new()?;
    /// scene.spawn(&[])?;
    /// let saved = scene.save()?;
    /// assert_eq!(Scene::load(&saved)?.save()?, saved);
    /// # Ok::<(), Error>(())
    /// ```
    ///
    /// # Errors
    ///
    /// [`Error::Refused`] with TooLong above 67,108,864 bytes; [`Error::NoMemory`], as the library makes the whole
    /// text.
    pub fn save(&self) -> Result<String, Error> {
        self.saved_by(WHOLE)
    }

    /// The world alone, as a text of one line, which [`load`](Scene::load) reads: what is loaded has nothing to undo or
    /// redo. The last answer stays.
    ///
    /// ```
    /// # use scene::{Error, Scene};
    /// let mut scene = Scene::new()?;
    /// scene.spawn(&[])?;
    /// let mut other = Scene::load(&scene.save_world()?)?;
    /// assert_eq!(other.rows()?.len(), 1);
    /// assert_eq!(other.undo().unwrap_err().to_string(), "refused 15 NothingToUndo");
    /// # Ok::<(), Error>(())
    /// ```
    ///
    /// # Errors
    ///
    /// As those of [`save`](Scene::save).
    pub fn save_world(&self) -> Result<String, Error> {
        self.saved_by(WORLD)
    }

    /// The text of a version.
    fn saved_by(&self, version: u32) -> Result<String, Error> {
        // SAFETY: as in `list`.
        let saved = self.list_in(self.save_room.get(), 0, |handle, at, room, total| unsafe {
            raw::scene_save_into(handle, version, 0, at, room, total)
        })?;
        let Some(saved) = saved else {
            return Err(Refusal { is_of_text: true, ..Refusal::of_fault(Fault::TooLong) }.into());
        };
        // The next text is mostly a little longer.
        self.save_room.set(saved.len() + saved.len() / 8);
        Ok(without_break(text_of(saved)))
    }

    /// Declares a kind, at any time, and gives it. Kinds are numbered in the order in which they are declared. It is no
    /// frame, and no undo takes it: each scene that an undo or a redo leads to has the kind. It ends no setup; behind
    /// it the line `history` counts from 0 again.
    ///
    /// ```
    /// use scene::{Error, Scene, Shape};
    ///
    /// let mut scene = Scene::new()?;
    /// scene.declare("Health", Shape::Int)?;
    /// let error = scene.declare("Health", Shape::Text).unwrap_err();
    /// assert_eq!(error.to_string(), "refused 31 KindTaken");
    /// let cat = scene.spawn(&[])?;
    /// let late = scene.declare("Late", Shape::Int)?;
    /// scene.insert(cat, late, 7)?;
    /// scene.undo_by(2)?;
    /// assert_eq!(scene.kind("Late"), Some(late));
    /// # Ok::<(), Error>(())
    /// ```
    ///
    /// # Errors
    ///
    /// [`Error::Refused`] with BadName for a name that isn't 1 to 32 ASCII letters, digits and `_`, a letter in front,
    /// with KindTaken where a kind has it, and with KindsFull for a 65th kind; [`Error::NoMemory`]. The scene is as it
    /// was then.
    pub fn declare(&mut self, name: &str, shape: Shape) -> Result<Kind, Error> {
        let mut number = 0;
        call!(self, scene_declare, name.as_ptr(), name.len(), shape as u32, &mut number)?;
        Ok(Kind(number as u8))
    }

    /// Sets of how many frames a record is kept, 1 to 1,048,576, so that as many can be undone: at any time, also in an
    /// open frame. Those beyond it are forgotten at once, the oldest first. The last answer stays.
    ///
    /// ```
    /// # use scene::{Error, Scene};
    /// let mut scene = Scene::new()?;
    /// for _ in 0..5 {
    ///     scene.spawn(&[])?;
    /// }
    /// scene.set_depth(2)?;
    /// assert_eq!((scene.status()?.undo, scene.status()?.depth), (2, 2));
    /// assert!(scene.set_depth(0).is_err());
    /// # Ok::<(), Error>(())
    /// ```
    ///
    /// # Errors
    ///
    /// [`Error::Bad`] for another number, which changes nothing.
    pub fn set_depth(&mut self, depth: u32) -> Result<(), Error> {
        // SAFETY: as in `call!`.
        let code = unsafe { raw::scene_set_depth(self.handle(), depth) };
        self.came_unless_bad(code, NO_DEPTH)
    }

    /// The kind of a name.
    ///
    /// ```
    /// # use scene::{Error, Scene, Shape};
    /// # let mut scene = Scene::new()?;
    /// scene.line("kind Health Int")?;
    /// let health = scene.kind("Health").unwrap();
    /// scene.spawn(&[health.of(9)])?;
    /// assert_eq!(scene.kind("Name"), None);
    /// # Ok::<(), Error>(())
    /// ```
    #[must_use]
    pub fn kind(&self, name: &str) -> Option<Kind> {
        let mut number = 0;
        // SAFETY: as in `call!`; `number` is lent for the call.
        let code = unsafe { raw::scene_kind_named(self.handle(), name.as_ptr(), name.len(), &mut number) };
        (code == raw::SCENE_DONE).then_some(Kind(number as u8))
    }

    /// The kinds with their names and shapes, by number.
    ///
    /// ```
    /// # use scene::{Error, Scene, Shape};
    /// # let mut scene = Scene::new()?;
    /// let name = scene.declare("Name", Shape::Text)?;
    /// assert_eq!(scene.kinds().collect::<Vec<_>>(), [(name, "Name".to_owned(), Shape::Text)]);
    /// # Ok::<(), Error>(())
    /// ```
    pub fn kinds(&self) -> impl Iterator<Item = (Kind, String, Shape)> {
        (0..).map(Kind).map_while(|kind| self.kind_told(kind).map(|(name, shape)| (kind, name, shape)))
    }

    /// The name and the shape of a kind; `None` where there is no such kind. It ends no setup.
    pub(crate) fn kind_told(&self, kind: Kind) -> Option<(String, Shape)> {
        let mut name = [0; NAME_ROOM];
        let (mut shape, mut length) = (0, 0);
        let room = name.as_mut_ptr();
        // SAFETY: as in `call!`; the shape, the room and the length are lent for the call, and the room is so long.
        let code =
            unsafe { raw::scene_kind(self.handle(), kind.0.into(), &mut shape, 0, room, NAME_ROOM, &mut length) };
        let name = std::str::from_utf8(name.get(..length)?).ok()?;
        (code == raw::SCENE_DONE).then(|| (name.to_owned(), Shape::of_raw(shape)))
    }

    /// How the scene stands.
    ///
    /// ```
    /// # use scene::{Error, Scene};
    /// let mut scene = Scene::new()?;
    /// scene.spawn(&[])?;
    /// assert_eq!((scene.status()?.tick, scene.status()?.undo), (1, 1));
    /// # Ok::<(), Error>(())
    /// ```
    ///
    /// # Errors
    ///
    /// [`Error::NoMemory`] and [`Error::Lost`], where it ends the setup.
    pub fn status(&self) -> Result<Status, Error> {
        let mut info = raw::scene_info::default();
        // SAFETY: as in `call!`; `info` is lent for the call.
        let is_told = self.look(|handle| unsafe { raw::scene_status(handle, &mut info) })?;
        let raw::scene_info { tick, rewinds, undo, redo, slots, limit, kinds, depth, in_frame } = info;
        told(is_told.then_some(Status {
            tick,
            rewinds,
            undo,
            redo,
            slots,
            limit,
            kinds,
            depth,
            in_frame: in_frame != 0,
        }))
    }
}
