//! Following a scene: what was written since a moment.
use crate::call::{call, told};
use crate::entity::Entity;
use crate::error::{Error, Refusal};
use crate::fault::Fault;
use crate::kind::{Filter, Kind};
use crate::scene::Scene;
use scene_sys as raw;

/// The components that were changed, one by one. The scene is lent meanwhile, as it keeps the list.
///
/// ```
/// # use scene::{Changed, Error, Scene, Shape};
/// let mut scene = Scene::new()?;
/// let health = scene.declare("Health", Shape::Int)?;
/// let cat = scene.spawn(&[health.of(9)])?;
/// let changed: Changed = scene.changed()?;
/// assert_eq!(changed.collect::<Vec<_>>(), [(cat, health)]);
/// # Ok::<(), Error>(())
/// ```
#[derive(Debug)]
pub struct Changed<'a> {
    scene: &'a mut Scene,
    at: usize,
}

impl Iterator for Changed<'_> {
    type Item = (Entity, Kind);

    fn next(&mut self) -> Option<(Entity, Kind)> {
        let mut name = NO_NAME;
        // SAFETY: as in `call!`; `name` is lent for the call.
        if unsafe { raw::scene_named(self.scene.handle(), self.at, &mut name) } != raw::SCENE_DONE {
            return None;
        }
        self.at += 1;
        Some(shown(name))
    }
}

/// A moment, which a view keeps to ask later what was written since. As many can be kept as one likes.
///
/// ```
/// # use scene::{Error, Filter, Moment, Scene, Shape};
/// let mut scene = Scene::new()?;
/// let health = scene.declare("Health", Shape::Int)?;
/// let cat = scene.spawn(&[health.of(9)])?;
/// let moment: Moment = scene.now()?;
/// scene.insert(cat, health, 5)?;
/// assert_eq!(scene.changed_since(moment, Filter::all())?, [(cat, health)]);
/// # Ok::<(), Error>(())
/// ```
#[derive(Clone, Copy, Debug, PartialEq, Eq, Hash)]
pub struct Moment {
    /// How many undos there were.
    pub rewinds: u64,
    /// How many frames there were.
    pub tick: u64,
}

/// What is written over, where a component's name is told.
const NO_NAME: raw::scene_name = raw::scene_name { entity: raw::SCENE_NONE, kind: 0 };

fn shown(name: raw::scene_name) -> (Entity, Kind) {
    (Entity::of_raw(name.entity), Kind(name.kind as u8))
}

/// A call that lists what was written since a moment.
type Since = unsafe extern "C" fn(
    *mut *mut raw::scene,
    raw::scene_moment,
    u64,
    u64,
    usize,
    *mut raw::scene_name,
    usize,
    *mut usize,
) -> u32;

/// What was written since.
impl Scene {
    /// Notes this moment, from which [`changed`](Scene::changed) looks.
    ///
    /// ```
    /// # use scene::{Error, Scene};
    /// # let mut scene = Scene::new()?;
    /// scene.spawn(&[])?;
    /// scene.mark()?;
    /// assert_eq!(scene.changed()?.count(), 0);
    /// # Ok::<(), Error>(())
    /// ```
    ///
    /// # Errors
    ///
    /// [`Error::Bad`] in a frame that a line opened.
    pub fn mark(&mut self) -> Result<(), Error> {
        call!(self, scene_mark)
    }

    /// The components that were changed since the mark, or since the beginning where there is none.
    ///
    /// ```
    /// # use scene::{Error, Scene, Shape};
    /// # let mut scene = Scene::new()?;
    /// let health = scene.declare("Health", Shape::Int)?;
    /// let cat = scene.spawn(&[health.of(9)])?;
    /// let dog = scene.spawn(&[health.of(7)])?;
    /// scene.mark()?;
    /// scene.insert(dog, health, 6)?;
    /// for (entity, kind) in scene.changed()? {
    ///     assert_eq!((entity, kind), (dog, health));
    /// }
    /// # Ok::<(), Error>(())
    /// ```
    ///
    /// # Errors
    ///
    /// [`Error::Refused`] with Rewound where something was undone since; [`Error::Bad`] in a frame that a line opened.
    pub fn changed(&mut self) -> Result<Changed<'_>, Error> {
        call!(self, scene_changed)?;
        Ok(Changed { scene: self, at: 0 })
    }

    /// This moment, which a view of its own keeps.
    ///
    /// ```
    /// # use scene::{Error, Filter, Scene};
    /// # let mut scene = Scene::new()?;
    /// let moment = scene.now()?;
    /// assert_eq!(scene.changed_since(moment, Filter::all())?, []);
    /// # Ok::<(), Error>(())
    /// ```
    ///
    /// # Errors
    ///
    /// As those of [`status`](Scene::status).
    pub fn now(&self) -> Result<Moment, Error> {
        let mut moment = raw::scene_moment::default();
        // SAFETY: as in `call!`; `moment` is lent for the call.
        let is_told = self.look(|handle| unsafe { raw::scene_now(handle, &mut moment) })?;
        told(is_told.then_some(Moment { rewinds: moment.rewinds, tick: moment.tick }))
    }

    /// The components that were changed since a moment, those included that were added, of the entities that a filter
    /// matches: in the order of [`tables`](Scene::tables) and of their rows, then by kind. Tables in which nothing was
    /// written since aren't read.
    ///
    /// ```
    /// # use scene::{Error, Filter, Scene, Shape};
    /// # let mut scene = Scene::new()?;
    /// let health = scene.declare("Health", Shape::Int)?;
    /// let hidden = scene.declare("Hidden", Shape::Tag)?;
    /// let cat = scene.spawn(&[health.of(9)])?;
    /// let dog = scene.spawn(&[health.of(7), hidden.of(())])?;
    /// let moment = scene.now()?;
    /// scene.insert(dog, health, 6)?;
    /// scene.insert(cat, health, 5)?;
    /// assert_eq!(scene.changed_since(moment, Filter::all())?, [(cat, health), (dog, health)]);
    /// assert_eq!(scene.changed_since(moment, Filter::need(&[health]).without(&[hidden]))?, [(cat, health)]);
    /// scene.undo()?;
    /// assert_eq!(scene.changed_since(moment, Filter::all()).unwrap_err().to_string(), "refused 18 Rewound 1");
    /// # Ok::<(), Error>(())
    /// ```
    ///
    /// # Errors
    ///
    /// [`Error::Refused`] with Rewound where something was undone since, so that a view reads all anew;
    /// [`Error::NoMemory`].
    pub fn changed_since(&self, moment: Moment, filter: Filter) -> Result<Vec<(Entity, Kind)>, Error> {
        self.since(raw::scene_changed_since, moment, filter)
    }

    /// The components that were added since a moment, as [`changed_since`](Scene::changed_since) lists them.
    ///
    /// ```
    /// # use scene::{Error, Filter, Scene, Shape};
    /// # let mut scene = Scene::new()?;
    /// let health = scene.declare("Health", Shape::Int)?;
    /// let cat = scene.spawn(&[health.of(9)])?;
    /// let moment = scene.now()?;
    /// scene.insert(cat, health, 5)?;
    /// let dog = scene.spawn(&[health.of(7)])?;
    /// assert_eq!(scene.added_since(moment, Filter::all())?, [(dog, health)]);
    /// # Ok::<(), Error>(())
    /// ```
    ///
    /// # Errors
    ///
    /// As those of [`changed_since`](Scene::changed_since).
    pub fn added_since(&self, moment: Moment, filter: Filter) -> Result<Vec<(Entity, Kind)>, Error> {
        self.since(raw::scene_added_since, moment, filter)
    }

    /// What a call lists since a moment.
    fn since(&self, call: Since, moment: Moment, filter: Filter) -> Result<Vec<(Entity, Kind)>, Error> {
        let moment = raw::scene_moment { rewinds: moment.rewinds, tick: moment.tick };
        let (need, without) = (filter.need.bits(), filter.without.bits());
        // SAFETY: as in `list`.
        let listed = self.list(NO_NAME, |handle, at, room, total| unsafe {
            call(handle, moment, need, without, 0, at, room, total)
        })?;
        let Some(names) = listed else {
            let fields = self.status()?.rewinds.to_string();
            return Err(Error::Refused(Refusal { fields, ..Refusal::of_fault(Fault::Rewound) }));
        };
        Ok(names.into_iter().map(shown).collect())
    }
}
