//! Steps back and on through the frames.
use crate::call::call;
use crate::error::Error;
use crate::scene::Scene;
use scene_sys as raw;

/// Undo and redo.
impl Scene {
    /// Takes the newest frame back: the world is then exactly as before it.
    ///
    /// ```
    /// # use scene::{Error, Scene};
    /// # let mut scene = Scene::new()?;
    /// scene.spawn(&[])?;
    /// scene.undo()?;
    /// assert_eq!(scene.undo().unwrap_err().to_string(), "refused 15 NothingToUndo");
    /// # Ok::<(), Error>(())
    /// ```
    ///
    /// # Errors
    ///
    /// [`Error::Refused`]; [`Error::Bad`] in a frame that a line opened.
    pub fn undo(&mut self) -> Result<(), Error> {
        call!(self, scene_undo)
    }

    /// Does the newest frame that was taken back again.
    ///
    /// ```
    /// # use scene::{Error, Scene};
    /// # let mut scene = Scene::new()?;
    /// scene.spawn(&[])?;
    /// scene.undo()?;
    /// scene.redo()?;
    /// assert_eq!(scene.rows()?.len(), 1);
    /// assert_eq!(scene.redo().unwrap_err().to_string(), "refused 16 NothingToRedo");
    /// # Ok::<(), Error>(())
    /// ```
    ///
    /// # Errors
    ///
    /// As those of [`undo`](Scene::undo).
    pub fn redo(&mut self) -> Result<(), Error> {
        call!(self, scene_redo)
    }

    /// Takes the `count` newest frames back, all of them or none, as a drag is one step for a user.
    ///
    /// ```
    /// # use scene::{Error, Scene};
    /// # let mut scene = Scene::new()?;
    /// scene.spawn(&[])?;
    /// scene.spawn(&[])?;
    /// assert_eq!(scene.undo_by(3).unwrap_err().to_string(), "refused 15 NothingToUndo");
    /// assert_eq!(scene.status()?.undo, 2);
    /// scene.undo_by(2)?;
    /// scene.redo_by(1)?;
    /// assert_eq!(scene.rows()?.len(), 1);
    /// # Ok::<(), Error>(())
    /// ```
    ///
    /// # Errors
    ///
    /// [`Error::Refused`] with NothingToUndo where there are fewer, or with HistoryFull where one would pass the limit
    /// of calls that a line has set; [`Error::Bad`] in a frame that a line opened; [`Error::NoMemory`]. None is taken
    /// back then.
    pub fn undo_by(&mut self, count: usize) -> Result<(), Error> {
        call!(self, scene_undo_by, count)
    }

    /// Does the `count` newest frames that were taken back again, all of them or none.
    ///
    /// ```
    /// # use scene::{Error, Scene};
    /// # let mut scene = Scene::new()?;
    /// scene.spawn(&[])?;
    /// scene.undo()?;
    /// scene.redo_by(1)?;
    /// assert_eq!(scene.redo_by(1).unwrap_err().to_string(), "refused 16 NothingToRedo");
    /// # Ok::<(), Error>(())
    /// ```
    ///
    /// # Errors
    ///
    /// As those of [`undo_by`](Scene::undo_by), with NothingToRedo.
    pub fn redo_by(&mut self, count: usize) -> Result<(), Error> {
        call!(self, scene_redo_by, count)
    }

    /// Drops the frame that the line `begin` opened, with its commands, and tells whether there was one. No call is
    /// made: there is nothing to undo, and the history stays. A [`Frame`](crate::Frame) that is let go needs none of
    /// this.
    ///
    /// ```
    /// # use scene::{Error, Scene};
    /// # let mut scene = Scene::new()?;
    /// scene.line("begin")?;
    /// scene.line("spawn")?;
    /// assert!(scene.drop_frame());
    /// assert_eq!(scene.rows()?.len(), 0);
    /// assert_eq!(scene.line("history")?, "history 0");
    /// # Ok::<(), Error>(())
    /// ```
    pub fn drop_frame(&mut self) -> bool {
        self.has_frame = false;
        // SAFETY: as in `call!`.
        unsafe { raw::scene_drop_frame(self.handle()) == raw::SCENE_DONE }
    }
}
