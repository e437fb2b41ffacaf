//! Frames: commands that are done together, all or none.
use crate::entity::{Entity, New, Target};
use crate::error::Error;
use crate::kind::Kind;
use crate::scene::Scene;
use crate::value::Value;
use std::sync::atomic::{AtomicU64, Ordering};

/// The frames so far, so that each has a number of its own.
static FRAMES: AtomicU64 = AtomicU64::new(1);

/// A command of a frame.
#[derive(Debug)]
pub(crate) enum Command {
    Spawn(Vec<(Kind, Value)>),
    Despawn(Target),
    DespawnAll(Target),
    Insert(Target, Kind, Value),
    Remove(Target, Kind),
    SetParent(Target, Target),
    RemoveParent(Target),
    Put(String, Value),
    RemoveResource(String),
}

/// A frame that is being made. Its commands are kept here until [`commit`](Frame::commit): one that is let go without
/// it leaves the scene as it was.
///
/// ```
/// # use scene::{Error, Scene, Shape};
/// let mut scene = Scene::new()?;
/// let name = scene.declare("Name", Shape::Text)?;
/// let mut frame = scene.frame();
/// let cat = frame.spawn(&[name.of("cat")]);
/// let kitten = frame.spawn(&[name.of("kitten")]);
/// frame.set_parent(kitten, cat);
/// let made = frame.commit()?;
/// assert_eq!(scene.get::<String>(made[kitten.place()], name)?, "kitten");
///
/// scene.frame().spawn(&[]);
/// assert_eq!(scene.rows()?.len(), 2);
/// # Ok::<(), Error>(())
/// ```
#[derive(Debug)]
#[must_use = "a frame that isn't committed does nothing"]
pub struct Frame<'a> {
    scene: &'a mut Scene,
    number: u64,
    spawned: u32,
    commands: Vec<Command>,
}

impl<'a> Frame<'a> {
    pub(crate) fn new(scene: &'a mut Scene) -> Frame<'a> {
        let number = FRAMES.fetch_add(1, Ordering::Relaxed);
        Frame { scene, number, spawned: 0, commands: Vec::new() }
    }

    /// Spawns an entity with components, and gives a name for it in this frame.
    ///
    /// ```
    /// # use scene::{Error, Scene, Shape};
    /// # let mut scene = Scene::new()?;
    /// let health = scene.declare("Health", Shape::Int)?;
    /// let mut frame = scene.frame();
    /// let cat = frame.spawn(&[]);
    /// frame.insert(cat, health, 9);
    /// assert_eq!(frame.commit()?[cat.place()].to_string(), "0v1");
    /// # Ok::<(), Error>(())
    /// ```
    pub fn spawn(&mut self, cells: &[(Kind, Value)]) -> New {
        let new = New { frame: self.number, place: self.spawned };
        // A queue takes 67,108,864 commands, so the count ends long before 32 bits do.
        self.spawned = self.spawned.saturating_add(1);
        self.commands.push(Command::Spawn(cells.to_vec()));
        new
    }

    /// Despawns an entity, which has to have no children.
    ///
    /// ```
    /// # use scene::{Error, Scene};
    /// # let mut scene = Scene::new()?;
    /// let cat = scene.spawn(&[])?;
    /// let mut frame = scene.frame();
    /// frame.despawn(cat);
    /// frame.commit()?;
    /// assert_eq!(scene.rows()?.len(), 0);
    /// # Ok::<(), Error>(())
    /// ```
    pub fn despawn(&mut self, entity: impl Into<Target>) -> &mut Self {
        self.commands.push(Command::Despawn(entity.into()));
        self
    }

    /// Despawns an entity and all below it.
    ///
    /// ```
    /// # use scene::{Error, Scene};
    /// # let mut scene = Scene::new()?;
    /// let (cat, kitten) = (scene.spawn(&[])?, scene.spawn(&[])?);
    /// let mut frame = scene.frame();
    /// frame.set_parent(kitten, cat).despawn_all(cat);
    /// frame.commit()?;
    /// assert_eq!(scene.rows()?.len(), 0);
    /// # Ok::<(), Error>(())
    /// ```
    pub fn despawn_all(&mut self, entity: impl Into<Target>) -> &mut Self {
        self.commands.push(Command::DespawnAll(entity.into()));
        self
    }

    /// Gives an entity a component, or writes the one of that kind that it has.
    ///
    /// ```
    /// # use scene::{Error, Scene, Shape};
    /// # let mut scene = Scene::new()?;
    /// let at = scene.declare("At", Shape::Vec3)?;
    /// let cat = scene.spawn(&[])?;
    /// let mut frame = scene.frame();
    /// frame.insert(cat, at, [1, 2, 3]);
    /// frame.commit()?;
    /// assert_eq!(scene.get::<[i64; 3]>(cat, at)?, [1, 2, 3]);
    /// # Ok::<(), Error>(())
    /// ```
    pub fn insert(&mut self, entity: impl Into<Target>, kind: Kind, value: impl Into<Value>) -> &mut Self {
        self.commands.push(Command::Insert(entity.into(), kind, value.into()));
        self
    }

    /// Takes the component of a kind away.
    ///
    /// ```
    /// # use scene::{Error, Scene, Shape};
    /// # let mut scene = Scene::new()?;
    /// let hidden = scene.declare("Hidden", Shape::Tag)?;
    /// let cat = scene.spawn(&[hidden.of(())])?;
    /// let mut frame = scene.frame();
    /// frame.remove(cat, hidden);
    /// frame.commit()?;
    /// assert!(scene.get::<()>(cat, hidden).is_err());
    /// # Ok::<(), Error>(())
    /// ```
    pub fn remove(&mut self, entity: impl Into<Target>, kind: Kind) -> &mut Self {
        self.commands.push(Command::Remove(entity.into(), kind));
        self
    }

    /// Makes an entity the last child of another.
    ///
    /// ```
    /// # use scene::{Error, Scene};
    /// # let mut scene = Scene::new()?;
    /// let cat = scene.spawn(&[])?;
    /// let mut frame = scene.frame();
    /// let kitten = frame.spawn(&[]);
    /// frame.set_parent(kitten, cat);
    /// let made = frame.commit()?;
    /// assert_eq!(scene.children_of(cat)?, made);
    /// # Ok::<(), Error>(())
    /// ```
    pub fn set_parent(&mut self, child: impl Into<Target>, parent: impl Into<Target>) -> &mut Self {
        self.commands.push(Command::SetParent(child.into(), parent.into()));
        self
    }

    /// Takes an entity from its parent.
    ///
    /// ```
    /// # use scene::{Error, Scene};
    /// # let mut scene = Scene::new()?;
    /// let (cat, kitten) = (scene.spawn(&[])?, scene.spawn(&[])?);
    /// let mut frame = scene.frame();
    /// frame.set_parent(kitten, cat).remove_parent(kitten);
    /// frame.commit()?;
    /// assert_eq!(scene.parent_of(kitten)?, None);
    /// # Ok::<(), Error>(())
    /// ```
    pub fn remove_parent(&mut self, child: impl Into<Target>) -> &mut Self {
        self.commands.push(Command::RemoveParent(child.into()));
        self
    }

    /// Puts a resource, or writes the one of that name.
    ///
    /// ```
    /// # use scene::{Error, Scene};
    /// # let mut scene = Scene::new()?;
    /// let mut frame = scene.frame();
    /// frame.put("motto", "onward").put("score", 5).remove_resource("motto");
    /// frame.commit()?;
    /// assert_eq!(scene.resource::<i64>("score")?, 5);
    /// # Ok::<(), Error>(())
    /// ```
    pub fn put(&mut self, name: &str, value: impl Into<Value>) -> &mut Self {
        self.commands.push(Command::Put(name.to_owned(), value.into()));
        self
    }

    /// Removes a resource.
    ///
    /// ```
    /// # use scene::{Error, Scene};
    /// # let mut scene = Scene::new()?;
    /// scene.put("score", 5)?;
    /// let mut frame = scene.frame();
    /// frame.remove_resource("score");
    /// frame.commit()?;
    /// assert!(scene.resources()?.is_empty());
    /// # Ok::<(), Error>(())
    /// ```
    pub fn remove_resource(&mut self, name: &str) -> &mut Self {
        self.commands.push(Command::RemoveResource(name.to_owned()));
        self
    }

    /// Does the frame, and gives the entities that it spawned, in order. Where it isn't done, none of it is.
    ///
    /// ```
    /// # use scene::{Entity, Error, Scene};
    /// # let mut scene = Scene::new()?;
    /// let mut frame = scene.frame();
    /// frame.spawn(&[]);
    /// frame.despawn(Entity { index: 7, generation: 9 });
    /// let error = frame.commit().unwrap_err();
    /// assert_eq!(error.to_string(), "refused 1 NoSuchEntity at 0.0.1");
    /// assert_eq!(scene.rows()?.len(), 0);
    /// # Ok::<(), Error>(())
    /// ```
    ///
    /// # Errors
    ///
    /// [`Error::Refused`] as of the calls of a [`Scene`] by the same names, with the place of the first command that is
    /// refused, and with BadLocal for a [`New`] of another frame; [`Error::Bad`] in a frame that a line opened;
    /// [`Error::NoMemory`]. The scene is then as it was, and the frame is gone.
    pub fn commit(self) -> Result<Vec<Entity>, Error> {
        self.scene.submit(self.number, &self.commands)
    }
}
