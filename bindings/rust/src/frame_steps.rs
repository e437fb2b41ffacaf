//! What each kept frame did, which a view follows.
use crate::call::{Lists, ListsRoom, ROOM, told};
use crate::deltas::{ChildPlace, Delta};
use crate::entity::Entity;
use crate::error::Error;
use crate::kind::Kind;
use crate::scene::Scene;
use crate::value::Value;
use scene_sys as raw;
use std::cell::Cell;
use std::collections::{BTreeMap, BTreeSet};

/// What a frame did that is kept, as [`past_step`](Scene::past_step) and [`future_step`](Scene::future_step) tell it.
///
/// A view follows a scene by it, through undo and redo too, and needs to read nothing else:
///
/// ```
/// use scene::{Delta, Entity, Error, Kind, Scene, Shape, Value};
/// use std::collections::HashMap;
///
/// /// What a view knows of a kind.
/// struct View(Kind, HashMap<Entity, Value>);
///
/// impl View {
///     fn follow(&mut self, deltas: impl IntoIterator<Item = Delta>) {
///         for delta in deltas {
///             match delta {
///                 Delta::Spawned { entity, cells, .. } => {
///                     let own = cells.into_iter().find(|(kind, _)| *kind == self.0);
///                     self.1.extend(own.map(|(_, value)| (entity, value)));
///                 }
///                 Delta::Shifted { entity, kind, after: Some(value), .. }
///                 | Delta::Set { entity, kind, after: value, .. } if kind == self.0 => {
///                     self.1.insert(entity, value);
///                 }
///                 Delta::Shifted { entity, kind, after: None, .. } if kind == self.0 => drop(self.1.remove(&entity)),
///                 Delta::Despawned { entity, .. } => drop(self.1.remove(&entity)),
///                 _ => {}
///             }
///         }
///     }
/// }
///
/// let mut scene = Scene::new()?;
/// let name = scene.declare("Name", Shape::Text)?;
/// let mut view = View(name, HashMap::new());
/// let cat = scene.spawn(&[name.of("cat")])?;
/// view.follow(scene.past_step(0)?.unwrap().deltas);
/// scene.insert(cat, name, "a cat")?;
/// view.follow(scene.past_step(0)?.unwrap().deltas);
/// assert_eq!(view.1[&cat], Value::from("a cat"));
/// scene.undo()?;
/// view.follow(scene.future_step(0)?.unwrap().undone());
/// assert_eq!(view.1[&cat], Value::from("cat"));
/// # Ok::<(), Error>(())
/// ```
#[derive(Clone, Debug, PartialEq, Eq)]
pub struct FrameStep {
    /// The tick of the scene before the frame.
    pub tick_before: u64,
    /// Its deltas, in the order in which they were made.
    pub deltas: Vec<Delta>,
}

impl FrameStep {
    /// What an undo of it did: its deltas from the last to the first, each [`reversed`](Delta::reversed).
    ///
    /// ```
    /// # use scene::{ChildPlace, Delta, Error, Scene};
    /// let mut scene = Scene::new()?;
    /// let mut frame = scene.frame();
    /// let (cat, kitten) = (frame.spawn(&[]), frame.spawn(&[]));
    /// frame.set_parent(kitten, cat);
    /// let made = frame.commit()?;
    /// scene.undo()?;
    /// let mut undone = scene.future_step(0)?.unwrap().undone();
    /// let before = Some(ChildPlace { parent: made[0], place: 0 });
    /// assert_eq!(undone.next(), Some(Delta::Linked { entity: made[1], before, after: None }));
    /// assert_eq!(undone.map(|delta| delta.entity()).collect::<Vec<_>>(), [Some(made[1]), Some(made[0])]);
    /// # Ok::<(), Error>(())
    /// ```
    pub fn undone(self) -> impl DoubleEndedIterator<Item = Delta> + ExactSizeIterator {
        self.deltas.into_iter().rev().map(Delta::reversed)
    }
}

/// What is written over, where a delta is told.
const NO_CELL: raw::scene_cell = raw::scene_cell { kind: 0, shape: raw::SCENE_ABSENT, x: 0, y: 0, z: 0 };
const NO_DELTA: raw::scene_delta = raw::scene_delta {
    change: raw::SCENE_RESOURCE,
    entity: raw::SCENE_NONE,
    place: 0,
    before: NO_CELL,
    after: NO_CELL,
    parent_before: raw::SCENE_NONE,
    place_before: 0,
    parent_after: raw::SCENE_NONE,
    place_after: 0,
};

/// Which text of a delta is asked for: the one before it, the one after it, or the name of its resource.
const BEFORE: u32 = 0;
const AFTER: u32 = 1;
const NAME: u32 = 2;

/// The kind that is asked for where no row is meant: it means nothing.
const NO_KIND: u32 = 0;

/// What each kept frame did.
impl Scene {
    /// What the frame did that is at a place, from 0, of those that can be undone, from the newest; `None` where there
    /// are fewer, as where its record isn't kept any more. So a view follows a frame, an advance or a redo by the
    /// deltas at place 0, and a [`redo_by`](Scene::redo_by) of several by those at the places from the last to 0.
    ///
    /// It takes as long as there are deltas: a frame of 10,000 spawns takes some milliseconds.
    ///
    /// ```
    /// # use scene::{Delta, Error, Scene, Shape};
    /// # let mut scene = Scene::new()?;
    /// let name = scene.declare("Name", Shape::Text)?;
    /// let cat = scene.spawn(&[name.of("cat")])?;
    /// scene.despawn(cat)?;
    /// let step = scene.past_step(0)?.unwrap();
    /// let gone = Delta::Despawned { entity: cat, cells: vec![name.of("cat")], row: Some(0), parent: None };
    /// assert_eq!((step.tick_before, step.deltas), (1, vec![gone]));
    /// assert_eq!(scene.past_step(1)?.unwrap().tick_before, 0);
    /// assert_eq!(scene.past_step(2)?, None);
    /// # Ok::<(), Error>(())
    /// ```
    ///
    /// # Errors
    ///
    /// As those of [`status`](Scene::status).
    pub fn past_step(&self, place: usize) -> Result<Option<FrameStep>, Error> {
        KeptFrame { scene: self, way: raw::SCENE_BACK, place }.read()
    }

    /// What the frame did that is at a place, from 0, of those that can be redone, from the next; `None` where there
    /// are fewer. So a view follows an undo by the deltas at place 0, [`undone`](FrameStep::undone), and an
    /// [`undo_by`](Scene::undo_by) of several by those at the places from the last to 0. It takes as long as
    /// [`past_step`](Scene::past_step).
    ///
    /// ```
    /// # use scene::{Delta, Error, Scene, Value};
    /// # let mut scene = Scene::new()?;
    /// scene.put("score", 5)?;
    /// assert_eq!(scene.future_step(0)?, None);
    /// scene.undo()?;
    /// let step = scene.future_step(0)?.unwrap();
    /// let came = Delta::Resource { name: "score".to_owned(), before: None, after: Some(Value::Int(5)) };
    /// assert_eq!(step.deltas, [came.clone()]);
    /// assert_eq!(step.undone().next(), Some(came.reversed()));
    /// # Ok::<(), Error>(())
    /// ```
    ///
    /// # Errors
    ///
    /// As those of [`status`](Scene::status).
    pub fn future_step(&self, place: usize) -> Result<Option<FrameStep>, Error> {
        KeptFrame { scene: self, way: raw::SCENE_ON, place }.read()
    }

    /// How many deltas the frame made that [`past_step`](Scene::past_step) tells at a place, without reading them.
    ///
    /// ```
    /// # use scene::{Error, Scene};
    /// # let mut scene = Scene::new()?;
    /// let mut frame = scene.frame();
    /// for _ in 0..300 {
    ///     frame.spawn(&[]);
    /// }
    /// frame.commit()?;
    /// assert_eq!((scene.past_length(0)?, scene.past_length(1)?), (Some(300), None));
    /// scene.undo()?;
    /// assert_eq!((scene.past_length(0)?, scene.future_length(0)?), (None, Some(300)));
    /// # Ok::<(), Error>(())
    /// ```
    ///
    /// # Errors
    ///
    /// As those of [`status`](Scene::status).
    pub fn past_length(&self, place: usize) -> Result<Option<usize>, Error> {
        KeptFrame { scene: self, way: raw::SCENE_BACK, place }.length()
    }

    /// How many deltas the frame made that [`future_step`](Scene::future_step) tells at a place, without reading them.
    ///
    /// # Errors
    ///
    /// As those of [`status`](Scene::status).
    pub fn future_length(&self, place: usize) -> Result<Option<usize>, Error> {
        KeptFrame { scene: self, way: raw::SCENE_ON, place }.length()
    }
}

/// The frame at a place on a way, as it is read.
#[derive(Clone, Copy)]
struct KeptFrame<'a> {
    scene: &'a Scene,
    way: u32,
    place: usize,
}

impl KeptFrame<'_> {
    /// How many deltas it made.
    fn length(self) -> Result<Option<usize>, Error> {
        let (mut tick, mut delta, mut length) = (0, NO_DELTA, 0);
        // SAFETY: as in `call!`; there is room for no delta, and the three are lent for the call.
        let is_told = self.scene.look(|handle| unsafe {
            raw::scene_step(handle, self.way, self.place, &mut tick, 0, &mut delta, 0, &mut length)
        })?;
        Ok(is_told.then_some(length))
    }

    /// What it did.
    fn read(self) -> Result<Option<FrameStep>, Error> {
        let tick = Cell::new(0);
        // SAFETY: as in `list`; the tick is lent for the call.
        let found = self.scene.list(NO_DELTA, |handle, at, room, total| unsafe {
            raw::scene_step(handle, self.way, self.place, tick.as_ptr(), 0, at, room, total)
        })?;
        let Some(found) = found else {
            return Ok(None);
        };
        let apart = self.apart(&found)?;
        let deltas = found.iter().enumerate().map(|(number, delta)| apart.delta(number, delta)).collect();
        Ok(Some(FrameStep { tick_before: tick.get(), deltas }))
    }

    /// What comes apart of its deltas: the rows where there is one, and no other texts than there are.
    fn apart(self, found: &[raw::scene_delta]) -> Result<Apart, Error> {
        let has_rows = found.iter().any(|delta| matches!(delta.change, raw::SCENE_SPAWNED | raw::SCENE_DESPAWNED));
        let rows = if has_rows { self.rows(found.len())? } else { Lists::none() };
        let mut apart = Apart { rows, texts: BTreeMap::new() };
        for (which, kind) in apart.wanted(found) {
            apart.texts.insert((which, kind), self.texts(found.len(), which, kind)?);
        }
        Ok(apart)
    }

    /// The rows of its deltas.
    fn rows(self, count: usize) -> Result<Lists<raw::scene_cell>, Error> {
        let Self { scene, way, place } = self;
        // SAFETY: as in `lists`.
        told(scene.lists(count, ROOM.max(count * 4), NO_CELL, |handle, from, to| unsafe {
            let ListsRoom { ends, count, items, length, told, total } = to;
            raw::scene_delta_rows(handle, way, place, from, ends, count, items, length, told, total)
        })?)
    }

    /// A text of each of its deltas; of a row that of a kind.
    fn texts(self, count: usize, which: u32, kind: u32) -> Result<Lists<u8>, Error> {
        let Self { scene, way, place } = self;
        // SAFETY: as in `lists`.
        told(scene.lists(count, ROOM.max(count * 16), 0, |handle, from, to| unsafe {
            let ListsRoom { ends, count, items, length, told, total } = to;
            raw::scene_delta_texts(handle, way, place, which, kind, from, ends, count, items, length, told, total)
        })?)
    }
}

/// What comes apart of the deltas of a frame: their rows, and their texts, by which these are and by the kind of those
/// in rows.
struct Apart {
    rows: Lists<raw::scene_cell>,
    texts: BTreeMap<(u32, u32), Lists<u8>>,
}

impl Apart {
    /// Which texts the deltas have, as `texts` has them.
    fn wanted(&self, found: &[raw::scene_delta]) -> BTreeSet<(u32, u32)> {
        let mut wanted = BTreeSet::new();
        let mut want = |which, kind, cell: &raw::scene_cell| {
            if cell.shape == raw::SCENE_TEXT {
                wanted.insert((which, kind));
            }
        };
        for (number, delta) in found.iter().enumerate() {
            match delta.change {
                raw::SCENE_SPAWNED => self.rows.list(number).iter().for_each(|cell| want(AFTER, cell.kind, cell)),
                raw::SCENE_DESPAWNED => self.rows.list(number).iter().for_each(|cell| want(BEFORE, cell.kind, cell)),
                _ => {
                    want(BEFORE, NO_KIND, &delta.before);
                    want(AFTER, NO_KIND, &delta.after);
                }
            }
        }
        if found.iter().any(|delta| delta.change == raw::SCENE_RESOURCE) {
            wanted.insert((NAME, NO_KIND));
        }
        wanted
    }

    /// A delta of a number, with what comes apart.
    fn delta(&self, number: usize, told: &raw::scene_delta) -> Delta {
        let entity = Entity::of_raw(told.entity);
        let parent_before = child_place(told.parent_before, told.place_before);
        let parent_after = child_place(told.parent_after, told.place_after);
        match told.change {
            raw::SCENE_SPAWNED => {
                Delta::Spawned { entity, cells: self.row(number, AFTER), row: None, parent: parent_after }
            }
            raw::SCENE_DESPAWNED => {
                let row = Some(told.place as usize);
                Delta::Despawned { entity, cells: self.row(number, BEFORE), row, parent: parent_before }
            }
            raw::SCENE_LINKED => Delta::Linked { entity, before: parent_before, after: parent_after },
            _ => self.written(number, told),
        }
    }

    /// A delta of a component or of a resource.
    fn written(&self, number: usize, told: &raw::scene_delta) -> Delta {
        let entity = Entity::of_raw(told.entity);
        let value = |which, cell: &raw::scene_cell| {
            (cell.shape != raw::SCENE_ABSENT).then(|| self.value(number, (which, NO_KIND), cell))
        };
        let (before, after) = (value(BEFORE, &told.before), value(AFTER, &told.after));
        // The kind of what isn't there means nothing.
        let kind = Kind(if after.is_some() { told.after.kind } else { told.before.kind } as u8);
        match (told.change, before, after) {
            (raw::SCENE_SHIFTED, before, after) => {
                let row_before = Some(told.place as usize);
                Delta::Shifted { entity, kind, before, after, row_before, row_after: None }
            }
            (raw::SCENE_SET, Some(before), Some(after)) => Delta::Set { entity, kind, before, after },
            (raw::SCENE_RESOURCE, before, after) => {
                Delta::Resource { name: self.texts[&(NAME, NO_KIND)].text(number), before, after }
            }
            (other, ..) => unreachable!("scene.h has no delta {other} as this one"),
        }
    }

    /// The row of a delta, whose texts are those before it or after it.
    fn row(&self, number: usize, which: u32) -> Vec<(Kind, Value)> {
        let shown = |cell: &raw::scene_cell| (Kind(cell.kind as u8), self.value(number, (which, cell.kind), cell));
        self.rows.list(number).iter().map(shown).collect()
    }

    /// The value of a cell of a delta, whose text is one of `texts`.
    fn value(&self, number: usize, texts: (u32, u32), cell: &raw::scene_cell) -> Value {
        let is_text = cell.shape == raw::SCENE_TEXT;
        Value::of_cell(cell, if is_text { self.texts[&texts].text(number) } else { String::new() })
    }
}

/// A place below a parent, where there is one.
fn child_place(parent: raw::scene_entity, place: u32) -> Option<ChildPlace> {
    (parent != raw::SCENE_NONE).then(|| ChildPlace { parent: Entity::of_raw(parent), place: place as usize })
}
