//! Entities, and what stands for one in a frame.
use scene_sys::{SCENE_NONE, scene_entity};
use std::error::Error;
use std::fmt;
use std::str::FromStr;

/// An entity, by its index and its generation. An index that is used again has a greater generation, so an old entity
/// never names a newer one. Its text is `INDEXvGENERATION`.
///
/// ```
/// use scene::Entity;
///
/// let entity: Entity = "3v1".parse()?;
/// assert_eq!(entity, Entity { index: 3, generation: 1 });
/// assert_eq!(entity.to_string(), "3v1");
/// # Ok::<(), scene::NoEntity>(())
/// ```
#[derive(Clone, Copy, Debug, PartialEq, Eq, PartialOrd, Ord, Hash)]
#[repr(C)]
pub struct Entity {
    /// The index, from 0.
    pub index: u32,
    /// The generation, from 1. An entity of generation 0 has a text too, and is never alive.
    pub generation: u32,
}

impl fmt::Display for Entity {
    fn fmt(&self, f: &mut fmt::Formatter<'_>) -> fmt::Result {
        write!(f, "{}v{}", self.index, self.generation)
    }
}

/// A text is no entity's: each entity has just one text, in which no number has a sign or a leading zero.
///
/// ```
/// use scene::{Entity, NoEntity};
///
/// for text in ["", "3", "3v", "v1", "03v1", "3v+1", "4294967296v1", " 3v1"] {
///     assert_eq!(text.parse::<Entity>(), Err(NoEntity));
/// }
/// ```
#[derive(Clone, Copy, Debug, PartialEq, Eq)]
pub struct NoEntity;

impl fmt::Display for NoEntity {
    fn fmt(&self, f: &mut fmt::Formatter<'_>) -> fmt::Result {
        f.write_str("the text is no entity, as 0v1")
    }
}

impl Error for NoEntity {}

/// A number of 32 bits, which has just one text here.
fn number(text: &str) -> Result<u32, NoEntity> {
    let is_plain = text.bytes().all(|byte| byte.is_ascii_digit()) && (text == "0" || !text.starts_with('0'));
    match text.parse() {
        Ok(number) if is_plain => Ok(number),
        _ => Err(NoEntity),
    }
}

impl FromStr for Entity {
    type Err = NoEntity;

    fn from_str(text: &str) -> Result<Entity, NoEntity> {
        let (index, generation) = text.split_once('v').ok_or(NoEntity)?;
        Ok(Entity { index: number(index)?, generation: number(generation)? })
    }
}

/// Lists of entities are filled by the library in place, so both have one form.
const _: () = assert!(
    size_of::<Entity>() == size_of::<scene_entity>()
        && align_of::<Entity>() == align_of::<scene_entity>()
        && std::mem::offset_of!(Entity, generation) == std::mem::offset_of!(scene_entity, generation)
);

impl Entity {
    /// What the library tells where there is none.
    pub(crate) const NONE: Entity = Entity { index: SCENE_NONE.index, generation: SCENE_NONE.generation };

    pub(crate) fn of_raw(raw: scene_entity) -> Entity {
        Entity { index: raw.index, generation: raw.generation }
    }

    pub(crate) fn to_raw(self) -> scene_entity {
        scene_entity { index: self.index, generation: self.generation }
    }
}

/// An entity that an open [`Frame`](crate::Frame) spawns, before it has an index: it names that spawn to the frame's
/// later commands. In another frame it names nothing, and a command with it is refused with BadLocal.
///
/// ```
/// # use scene::{Error, Scene};
/// let mut scene = Scene::new()?;
/// let mut frame = scene.frame();
/// let parent = frame.spawn(&[]);
/// let child = frame.spawn(&[]);
/// frame.set_parent(child, parent);
/// let made = frame.commit()?;
/// println!("{} is below {}", made[child.place()], made[parent.place()]);
/// # Ok::<(), Error>(())
/// ```
#[derive(Clone, Copy, Debug, PartialEq, Eq, Hash)]
pub struct New {
    pub(crate) frame: u64,
    pub(crate) place: u32,
}

impl New {
    /// The place of its entity in what [`Frame::commit`](crate::Frame::commit) gives.
    ///
    /// ```
    /// # use scene::{Error, Scene};
    /// # let mut scene = Scene::new()?;
    /// let mut frame = scene.frame();
    /// assert_eq!(frame.spawn(&[]).place(), 0);
    /// assert_eq!(frame.spawn(&[]).place(), 1);
    /// # Ok::<(), Error>(())
    /// ```
    #[must_use]
    pub fn place(self) -> usize {
        self.place as usize
    }
}

/// What a command of a frame is about: an entity, or one that the frame spawns. Both become one by themselves.
///
/// ```
/// use scene::{Entity, Target};
///
/// let entity = Entity { index: 3, generation: 1 };
/// assert_eq!(Target::from(entity), Target::Entity(entity));
/// ```
#[derive(Clone, Copy, Debug, PartialEq, Eq, Hash)]
pub enum Target {
    /// An entity that was there before the frame.
    Entity(Entity),
    /// One that the frame spawns.
    New(New),
}

impl From<Entity> for Target {
    fn from(entity: Entity) -> Target {
        Target::Entity(entity)
    }
}

impl From<New> for Target {
    fn from(new: New) -> Target {
        Target::New(new)
    }
}

impl Target {
    /// As the library takes it, in a frame.
    pub(crate) fn to_raw(self, frame: u64) -> scene_entity {
        match self {
            // With generation 0 it would be a spawn of the frame; it is never alive, and so is this one.
            Target::Entity(Entity { generation: 0, .. }) => SCENE_NONE,
            Target::Entity(entity) => entity.to_raw(),
            Target::New(new) if new.frame == frame => scene_entity { index: new.place, generation: 0 },
            // A spawn that no frame has: it is refused with BadLocal, as one too early is.
            Target::New(_) => scene_entity { index: u32::MAX, generation: 0 },
        }
    }
}
