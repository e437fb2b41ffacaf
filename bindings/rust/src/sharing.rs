//! Sharing: several threads read one scene at once.
use crate::call::{call, failed};
use crate::error::Error;
use crate::scene::Scene;
use scene_sys as raw;
use std::fmt;
use std::ops::Deref;
use std::ptr;

/// A scene that is shared: it is only read, and several threads read it at once, each by a clone of its own. All that
/// takes a [`Scene`] by `&self` reads it. Nothing changes it before it is a [`Scene`] again.
///
/// ```
/// use scene::{Error, Scene, Shape};
///
/// let mut scene = Scene::new()?;
/// let health = scene.declare("Health", Shape::Int)?;
/// let herd = [scene.spawn(&[health.of(9)])?, scene.spawn(&[health.of(7)])?];
///
/// let shared = scene.share()?;
/// std::thread::scope(|threads| {
///     for cow in herd {
///         let reader = shared.try_clone()?;
///         threads.spawn(move || println!("{cow} has {:?}", reader.get::<i64>(cow, health)));
///     }
///     // This thread reads meanwhile.
///     assert_eq!(shared.query::<i64>(health)?.sum::<i64>(), 16);
///     Ok::<(), Error>(())
/// })?;
///
/// // The clones are gone, so that the scene can be changed again.
/// let mut scene = shared.into_scene().expect("no other thread has it");
/// scene.insert(herd[0], health, 5)?;
/// scene.undo()?;
/// # Ok::<(), Error>(())
/// ```
///
/// It goes to another thread, but isn't lent to one:
///
/// ```compile_fail,E0277
/// fn is_lent_to_another_thread<T: Sync>(_: &T) {}
/// is_lent_to_another_thread(&scene::Scene::new().unwrap().share().unwrap());
/// ```
///
/// And what changes a scene isn't there:
///
/// ```compile_fail,E0596
/// let shared = scene::Scene::new().unwrap().share().unwrap();
/// shared.spawn(&[]);
/// ```
#[derive(Debug)]
pub struct SharedScene(Scene);

/// A scene that isn't shared, as it was, and why. By `?` it is the [`Error`].
///
/// ```
/// # use scene::{Error, NotShared, Scene, SharedScene};
/// # let scene = Scene::new()?;
/// let shared: Result<SharedScene, Scene> = scene.share().map_err(|NotShared { scene, .. }| scene);
/// assert_eq!(shared.unwrap().status()?.tick, 0);
/// # Ok::<(), Error>(())
/// ```
#[derive(Debug)]
pub struct NotShared {
    /// The scene.
    pub scene: Scene,
    /// Why it isn't shared.
    pub error: Error,
}

impl fmt::Display for NotShared {
    fn fmt(&self, f: &mut fmt::Formatter<'_>) -> fmt::Result {
        f.write_str("the scene isn't shared")
    }
}

impl std::error::Error for NotShared {
    fn source(&self) -> Option<&(dyn std::error::Error + 'static)> {
        Some(&self.error)
    }
}

impl From<NotShared> for Error {
    fn from(not: NotShared) -> Error {
        not.error
    }
}

/// Sharing.
impl Scene {
    /// Shares the scene, with all that can be undone and redone: from now on it is only read, until
    /// [`into_scene`](SharedScene::into_scene) gives it back. It ends the setup, as a read does. A frame that a line
    /// opened stays open.
    ///
    /// ```
    /// # use scene::{Error, Scene};
    /// let mut scene = Scene::new()?;
    /// let cat = scene.spawn(&[])?;
    /// let shared = scene.share()?;
    /// let there = shared.try_clone()?;
    /// assert!(std::thread::spawn(move || there.is_alive(cat)).join().unwrap()?);
    /// assert!(shared.is_alive(cat)?);
    /// # Ok::<(), Error>(())
    /// ```
    ///
    /// # Errors
    ///
    /// [`Error::NoMemory`], and [`Error::Lost`] where it ends the setup, each with the scene.
    pub fn share(mut self) -> Result<SharedScene, NotShared> {
        // In the setup a read would end it, and nothing of a shared scene ends.
        match self.ends_setup().and_then(|_| call!(self, scene_share)) {
            Ok(()) => Ok(SharedScene(self)),
            Err(error) => Err(NotShared { scene: self, error }),
        }
    }
}

impl SharedScene {
    /// Another one of the same scene, as a thread needs it that reads too. Whichever is let go first, the others stay.
    ///
    /// ```
    /// # use scene::{Error, Scene};
    /// let shared = Scene::new()?.share()?;
    /// let other = shared.try_clone()?;
    /// drop(shared);
    /// assert_eq!(other.status()?.tick, 0);
    /// # Ok::<(), Error>(())
    /// ```
    ///
    /// # Errors
    ///
    /// [`Error::NoMemory`].
    pub fn try_clone(&self) -> Result<SharedScene, Error> {
        let mut at = ptr::null_mut();
        // SAFETY: as in `call!`; `at` is lent for the call, and as it is null, no scene is closed there.
        match unsafe { raw::scene_reader(self.handle(), &mut at) } {
            raw::SCENE_DONE => Ok(SharedScene(Scene::of_raw(at, self.has_frame))),
            other => Err(failed(other)),
        }
    }

    /// The scene, to change it again.
    ///
    /// ```
    /// # use scene::{Error, Scene};
    /// let mut scene = Scene::new()?;
    /// scene.spawn(&[])?;
    /// let shared = scene.share()?;
    /// let other = shared.try_clone()?;
    /// let shared = shared.into_scene().unwrap_err();
    /// drop(other);
    /// let mut scene = shared.into_scene().unwrap();
    /// scene.undo()?;
    /// assert!(scene.rows()?.next().is_none());
    /// # Ok::<(), Error>(())
    /// ```
    ///
    /// # Errors
    ///
    /// This one, still shared, while others are there.
    pub fn into_scene(self) -> Result<Scene, SharedScene> {
        // SAFETY: as in `call!`.
        match unsafe { raw::scene_unshare(self.handle()) } {
            raw::SCENE_DONE => Ok(self.0),
            _ => Err(self),
        }
    }
}

/// No call changes a scene that is lent by `&`, and none that reads finds it in the setup, which it would end.
impl Deref for SharedScene {
    type Target = Scene;

    fn deref(&self) -> &Scene {
        &self.0
    }
}

#[cfg(test)]
mod tests {
    use super::*;
    use crate::value::Shape;

    /// What the types rule out, the library refuses, and nothing is done.
    #[test]
    fn a_shared_scene_isnt_changed() {
        let mut scene = Scene::new().unwrap();
        let health = scene.declare("Health", Shape::Int).unwrap();
        let cat = scene.spawn(&[health.of(9)]).unwrap();
        let mut shared = scene.share().unwrap();
        let before = shared.save().unwrap();
        let scene = &mut shared.0;
        assert_eq!(scene.spawn(&[]), Err(Error::Shared));
        assert_eq!(scene.insert(cat, health, 5), Err(Error::Shared));
        assert_eq!(scene.insert_all([(cat, health.of(5))]), Err(Error::Shared));
        assert_eq!(scene.frame().commit(), Err(Error::Shared));
        for came in [scene.undo(), scene.redo_by(1), scene.mark(), scene.set_depth(1)] {
            assert_eq!(came, Err(Error::Shared));
        }
        for came in [scene.line("undo"), scene.request("{}"), scene.answer_json()] {
            assert_eq!(came, Err(Error::Shared));
        }
        assert_eq!(scene.advance(), Err(Error::Shared));
        assert_eq!(shared.save().unwrap(), before);
        shared.into_scene().unwrap().undo().unwrap();
    }

    #[test]
    fn a_scene_that_isnt_shared_is_given_back() {
        let mut scene = Scene::new().unwrap();
        scene.spawn(&[]).unwrap();
        let not = NotShared { scene, error: Error::NoMemory };
        assert_eq!(not.to_string(), "the scene isn't shared");
        assert_eq!(std::error::Error::source(&not).unwrap().to_string(), Error::NoMemory.to_string());
        assert_eq!(not.scene.rows().unwrap().len(), 1);
        assert_eq!(Error::from(not), Error::NoMemory);
    }
}
