//! Commands: those that are a frame each, and how frames are sent.
use crate::call::call;
use crate::entity::{Entity, Target};
use crate::error::Error;
use crate::frame::{Command, Frame};
use crate::kind::Kind;
use crate::scene::Scene;
use crate::value::{Sent, SentList, Value};
use scene_sys as raw;

/// Why a call isn't there.
const FRAME_OPEN: &str = "a line opened a frame, and commands go by lines before its commit";
const TOO_MANY: &str = "a frame has 67,108,864 commands at most";

/// The number of no frame, for a command that is a frame by itself.
const NO_FRAME: u64 = 0;

/// Commands. Each outside a [`Frame`] is a frame by itself.
impl Scene {
    /// Begins a frame: commands that are done together, all or none, and undone together.
    ///
    /// ```
    /// # use scene::{Error, Scene};
    /// # let mut scene = Scene::new()?;
    /// let mut frame = scene.frame();
    /// frame.spawn(&[]);
    /// frame.spawn(&[]);
    /// assert_eq!(frame.commit()?.len(), 2);
    /// scene.undo()?;
    /// assert_eq!(scene.rows()?.len(), 0);
    /// # Ok::<(), Error>(())
    /// ```
    pub fn frame(&mut self) -> Frame<'_> {
        Frame::new(self)
    }

    /// Spawns an entity with components, in any order, by a frame of its own, and gives it.
    ///
    /// ```
    /// # use scene::{Error, Scene, Shape};
    /// # let mut scene = Scene::new()?;
    /// let name = scene.declare("Name", Shape::Text)?;
    /// let hidden = scene.declare("Hidden", Shape::Tag)?;
    /// let cat = scene.spawn(&[name.of("cat"), hidden.of(())])?;
    /// assert_eq!(cat.to_string(), "0v1");
    /// # Ok::<(), Error>(())
    /// ```
    ///
    /// # Errors
    ///
    /// [`Error::Refused`] with NoSuchKind for a kind of another scene, DuplicateKind for one that is given twice,
    /// WrongShape for a value that hasn't its kind's shape, and EntitiesFull where no index is left; [`Error::Bad`] in
    /// a frame that a line opened; [`Error::NoMemory`]. The scene is then as it was.
    pub fn spawn(&mut self, cells: &[(Kind, Value)]) -> Result<Entity, Error> {
        self.ready()?;
        self.send_spawn(cells).map(Entity::of_raw)
    }

    /// Despawns an entity, which has to have no children, by a frame of its own.
    ///
    /// ```
    /// # use scene::{Error, Scene};
    /// # let mut scene = Scene::new()?;
    /// let cat = scene.spawn(&[])?;
    /// scene.despawn(cat)?;
    /// assert_eq!(scene.spawn(&[])?.to_string(), "0v2");
    /// # Ok::<(), Error>(())
    /// ```
    ///
    /// # Errors
    ///
    /// [`Error::Refused`] with NoSuchEntity where it isn't alive, and HasChildren; else as of [`spawn`](Scene::spawn).
    pub fn despawn(&mut self, entity: Entity) -> Result<(), Error> {
        self.alone(&Command::Despawn(entity.into()))
    }

    /// Despawns an entity and all below it, by a frame of its own.
    ///
    /// ```
    /// # use scene::{Error, Scene};
    /// # let mut scene = Scene::new()?;
    /// let (cat, kitten) = (scene.spawn(&[])?, scene.spawn(&[])?);
    /// scene.set_parent(kitten, cat)?;
    /// scene.despawn_all(cat)?;
    /// assert_eq!(scene.rows()?.len(), 0);
    /// # Ok::<(), Error>(())
    /// ```
    ///
    /// # Errors
    ///
    /// [`Error::Refused`] with NoSuchEntity where it isn't alive; else as of [`spawn`](Scene::spawn).
    pub fn despawn_all(&mut self, entity: Entity) -> Result<(), Error> {
        self.alone(&Command::DespawnAll(entity.into()))
    }

    /// Gives an entity a component, or writes the one of that kind that it has, by a frame of its own.
    ///
    /// ```
    /// # use scene::{Error, Scene, Shape};
    /// # let mut scene = Scene::new()?;
    /// let name = scene.declare("Name", Shape::Text)?;
    /// let cat = scene.spawn(&[])?;
    /// scene.insert(cat, name, "a cat")?;
    /// assert_eq!(scene.get::<String>(cat, name)?, "a cat");
    /// # Ok::<(), Error>(())
    /// ```
    ///
    /// # Errors
    ///
    /// [`Error::Refused`] with NoSuchEntity where the entity isn't alive, NoSuchKind, and WrongShape; else as of
    /// [`spawn`](Scene::spawn).
    pub fn insert(&mut self, entity: Entity, kind: Kind, value: impl Into<Value>) -> Result<(), Error> {
        self.alone(&Command::Insert(entity.into(), kind, value.into()))
    }

    /// Gives each entity the component beside it, or writes the one of that kind that it has: all of them or none, by
    /// one frame and one call of the library. An entity may stand in several places; the last one of a kind stays. No
    /// components are a frame too, as each frame is that says nothing.
    ///
    /// ```
    /// # use scene::{Error, Scene, Shape};
    /// # let mut scene = Scene::new()?;
    /// let name = scene.declare("Name", Shape::Text)?;
    /// let health = scene.declare("Health", Shape::Int)?;
    /// let herd = [scene.spawn(&[])?, scene.spawn(&[])?, scene.spawn(&[])?];
    /// scene.insert_all(herd.map(|cow| (cow, health.of(9))))?;
    /// scene.insert_all([(herd[0], name.of("Bess")), (herd[2], health.of(8))])?;
    /// assert_eq!(scene.gather::<i64>(&herd, health)?, [Some(9), Some(9), Some(8)]);
    /// scene.undo()?;
    /// assert_eq!(scene.gather::<i64>(&herd, health)?, [Some(9); 3]);
    ///
    /// scene.despawn(herd[1])?;
    /// let error = scene.insert_all(herd.map(|cow| (cow, health.of(0)))).unwrap_err();
    /// assert_eq!(error.to_string(), "refused 1 NoSuchEntity at 0.0.1");
    /// assert_eq!(scene.get::<i64>(herd[0], health)?, 9);
    /// # Ok::<(), Error>(())
    /// ```
    ///
    /// # Errors
    ///
    /// [`Error::Refused`] as of [`insert`](Scene::insert): the command of its place is the number of the first
    /// component that can't be written. [`Error::Bad`] above 67,108,864 components, and in a frame that a line opened;
    /// [`Error::NoMemory`]. None of it is done then.
    pub fn insert_all(&mut self, writes: impl IntoIterator<Item = (Entity, (Kind, Value))>) -> Result<(), Error> {
        self.ready()?;
        let mut entities = Vec::new();
        let mut sent = SentList::default();
        for (entity, (kind, value)) in writes {
            entities.push(Target::from(entity).to_raw(NO_FRAME));
            sent.push(kind, &value);
        }
        let SentList { cells, bytes } = sent;
        let (targets, list, texts) = (entities.as_ptr(), cells.as_ptr(), bytes.as_ptr());
        // SAFETY: as in `call!`; the three lists are lent for the call, each with its length behind it.
        let code = unsafe {
            raw::scene_insert_cells(self.handle(), targets, entities.len(), list, cells.len(), texts, bytes.len())
        };
        self.came_unless_bad(code, TOO_MANY)
    }

    /// Takes the component of a kind away, by a frame of its own.
    ///
    /// ```
    /// # use scene::{Error, Scene, Shape};
    /// # let mut scene = Scene::new()?;
    /// let health = scene.declare("Health", Shape::Int)?;
    /// let cat = scene.spawn(&[health.of(9)])?;
    /// scene.remove(cat, health)?;
    /// assert_eq!(scene.get::<i64>(cat, health).unwrap_err().to_string(), "refused 3 NotPresent");
    /// # Ok::<(), Error>(())
    /// ```
    ///
    /// # Errors
    ///
    /// [`Error::Refused`] with NoSuchEntity where the entity isn't alive, NoSuchKind, and NotPresent where it hasn't
    /// the kind; else as of [`spawn`](Scene::spawn).
    pub fn remove(&mut self, entity: Entity, kind: Kind) -> Result<(), Error> {
        self.alone(&Command::Remove(entity.into(), kind))
    }

    /// Makes an entity the last child of another, by a frame of its own.
    ///
    /// ```
    /// # use scene::{Error, Scene};
    /// # let mut scene = Scene::new()?;
    /// let (cat, kitten) = (scene.spawn(&[])?, scene.spawn(&[])?);
    /// scene.set_parent(kitten, cat)?;
    /// assert_eq!(scene.set_parent(cat, kitten).unwrap_err().to_string(), "refused 8 Cycle at 0.0.0");
    /// # Ok::<(), Error>(())
    /// ```
    ///
    /// # Errors
    ///
    /// [`Error::Refused`] with NoSuchEntity where one of them isn't alive, SelfParent, and Cycle where the parent is
    /// below the child; else as of [`spawn`](Scene::spawn).
    pub fn set_parent(&mut self, child: Entity, parent: Entity) -> Result<(), Error> {
        self.alone(&Command::SetParent(child.into(), parent.into()))
    }

    /// Takes an entity from its parent, by a frame of its own.
    ///
    /// ```
    /// # use scene::{Error, Scene};
    /// # let mut scene = Scene::new()?;
    /// let (cat, kitten) = (scene.spawn(&[])?, scene.spawn(&[])?);
    /// scene.set_parent(kitten, cat)?;
    /// scene.remove_parent(kitten)?;
    /// assert_eq!(scene.remove_parent(kitten).unwrap_err().to_string(), "refused 9 NoParent at 0.0.0");
    /// # Ok::<(), Error>(())
    /// ```
    ///
    /// # Errors
    ///
    /// [`Error::Refused`] with NoSuchEntity where it isn't alive, and NoParent where it has none; else as of
    /// [`spawn`](Scene::spawn).
    pub fn remove_parent(&mut self, child: Entity) -> Result<(), Error> {
        self.alone(&Command::RemoveParent(child.into()))
    }

    /// Puts a resource, or writes the one of that name, by a frame of its own.
    ///
    /// ```
    /// # use scene::{Error, Scene};
    /// # let mut scene = Scene::new()?;
    /// scene.put("motto", "onward,\n\"always\"")?;
    /// assert_eq!(scene.resource::<String>("motto")?, "onward,\n\"always\"");
    /// scene.undo()?;
    /// assert_eq!(scene.resource::<String>("motto").unwrap_err().to_string(), "refused 10 NoSuchResource");
    /// # Ok::<(), Error>(())
    /// ```
    ///
    /// # Errors
    ///
    /// [`Error::Refused`] with BadName where the name isn't 1 to 32 ASCII letters, digits and `_`, a letter in front;
    /// else as of [`spawn`](Scene::spawn).
    pub fn put(&mut self, name: &str, value: impl Into<Value>) -> Result<(), Error> {
        self.alone(&Command::Put(name.to_owned(), value.into()))
    }

    /// Removes a resource, by a frame of its own.
    ///
    /// ```
    /// # use scene::{Error, Scene};
    /// # let mut scene = Scene::new()?;
    /// scene.put("score", 5)?;
    /// scene.remove_resource("score")?;
    /// assert!(scene.resources()?.is_empty());
    /// # Ok::<(), Error>(())
    /// ```
    ///
    /// # Errors
    ///
    /// [`Error::Refused`] with NoSuchResource where none has the name; else as of [`spawn`](Scene::spawn).
    pub fn remove_resource(&mut self, name: &str) -> Result<(), Error> {
        self.alone(&Command::RemoveResource(name.to_owned()))
    }
}

impl Scene {
    /// Makes sure that a call goes into no frame but its own.
    pub(crate) fn ready(&self) -> Result<(), Error> {
        if self.has_frame { Err(Error::Bad(FRAME_OPEN.to_owned())) } else { Ok(()) }
    }

    /// An entity that the last frame spawned, by its place.
    fn made(&mut self, place: usize) -> Option<Entity> {
        let mut entity = raw::SCENE_NONE;
        // SAFETY: as in `call!`; `entity` is lent for the call.
        let code = unsafe { raw::scene_spawned(self.handle(), place, &mut entity) };
        (code == raw::SCENE_DONE).then(|| Entity::of_raw(entity))
    }

    /// The entities that the last frame spawned, in order.
    pub(crate) fn all_made(&mut self) -> Vec<Entity> {
        (0..).map_while(|place| self.made(place)).collect()
    }

    /// Does a command as a frame by itself.
    fn alone(&mut self, command: &Command) -> Result<(), Error> {
        self.ready()?;
        self.send(NO_FRAME, command)
    }

    /// Does the commands of a frame.
    pub(crate) fn submit(&mut self, frame: u64, commands: &[Command]) -> Result<Vec<Entity>, Error> {
        self.ready()?;
        call!(self, scene_begin)?;
        let sent = commands.iter().try_for_each(|command| self.send(frame, command));
        let came = sent.and_then(|()| call!(self, scene_commit));
        if came.is_err() {
            // A refused frame is gone; one for which memory was wanting is still open, and dropping it needs none.
            self.drop_frame();
        }
        came.map(|()| self.all_made())
    }

    /// Sends a spawn, and gives its entity: in an open frame as that frame's commands name it.
    fn send_spawn(&mut self, cells: &[(Kind, Value)]) -> Result<raw::scene_entity, Error> {
        let mut sent = SentList::default();
        cells.iter().for_each(|(kind, value)| sent.push(*kind, value));
        let SentList { cells, bytes } = sent;
        let mut entity = raw::SCENE_NONE;
        let (list, count) = (cells.as_ptr(), cells.len());
        call!(self, scene_spawn_cells, list, count, bytes.as_ptr(), bytes.len(), &mut entity)?;
        Ok(entity)
    }

    /// Sends a resource.
    fn send_put(&mut self, name: &str, value: &Value) -> Result<(), Error> {
        let (bytes, length) = (name.as_ptr(), name.len());
        // The kind of a resource means nothing.
        match value.sent(Kind(0)) {
            Sent::Cell(cell) => call!(self, scene_put, bytes, length, cell),
            Sent::Text(text) => call!(self, scene_put_text, bytes, length, text.as_ptr(), text.len()),
        }
    }

    /// Sends a command, in a frame of a number.
    fn send(&mut self, frame: u64, command: &Command) -> Result<(), Error> {
        let named = |target: &Target| target.to_raw(frame);
        match command {
            Command::Spawn(cells) => self.send_spawn(cells).map(drop),
            Command::Despawn(entity) => call!(self, scene_despawn, named(entity)),
            Command::DespawnAll(entity) => call!(self, scene_despawn_all, named(entity)),
            Command::Insert(entity, kind, value) => match value.sent(*kind) {
                Sent::Cell(cell) => call!(self, scene_insert, named(entity), cell),
                Sent::Text(text) => {
                    call!(self, scene_insert_text, named(entity), kind.0.into(), text.as_ptr(), text.len())
                }
            },
            Command::Remove(entity, kind) => call!(self, scene_remove, named(entity), kind.0.into()),
            Command::SetParent(child, parent) => call!(self, scene_set_parent, named(child), named(parent)),
            Command::RemoveParent(child) => call!(self, scene_remove_parent, named(child)),
            Command::Put(name, value) => self.send_put(name, value),
            Command::RemoveResource(name) => call!(self, scene_drop, name.as_ptr(), name.len()),
        }
    }
}
