//! Deltas: the small steps of a frame (docs/JOURNAL.md, "The six deltas").
use crate::entity::Entity;
use crate::kind::Kind;
use crate::value::Value;

/// A place among the children of an entity, from 0, counted without the child itself.
///
/// ```
/// # use scene::{ChildPlace, Delta, Error, Scene};
/// let mut scene = Scene::new()?;
/// let (cat, kitten, other) = (scene.spawn(&[])?, scene.spawn(&[])?, scene.spawn(&[])?);
/// scene.set_parent(kitten, cat)?;
/// scene.set_parent(other, cat)?;
/// // A child goes last: behind the one other, the place is 1.
/// scene.set_parent(kitten, cat)?;
/// let [before, after] = [0, 1].map(|place| Some(ChildPlace { parent: cat, place }));
/// assert_eq!(scene.past_step(0)?.unwrap().deltas, [Delta::Linked { entity: kitten, before, after }]);
/// # Ok::<(), Error>(())
/// ```
#[derive(Clone, Copy, Debug, PartialEq, Eq, Hash)]
pub struct ChildPlace {
    /// The entity whose children they are.
    pub parent: Entity,
    /// How many of its other children stand before.
    pub place: usize,
}

/// What a small step of a frame did. [`Scene::past_step`](crate::Scene::past_step) tells those of a frame, in the order
/// in which they were made, which led from the scene before the frame to the one behind it.
///
/// A delta tells all that it did but for ticks, so that a view that makes them in turn has what the scene has, its
/// order too. The **row** of an entity stands in the table of its kinds. A row that comes goes last; one that leaves a
/// place gives it to the last row of the table. In a delta that is [`reversed`](Delta::reversed) a row that left a
/// place comes back to it, and who stands there goes last.
///
/// ```
/// # use scene::{Delta, Error, Scene, Shape, Value};
/// let mut scene = Scene::new()?;
/// let health = scene.declare("Health", Shape::Int)?;
/// let cat = scene.spawn(&[health.of(9)])?;
/// scene.insert(cat, health, 5)?;
/// let step = scene.past_step(0)?.unwrap();
/// let set = Delta::Set { entity: cat, kind: health, before: Value::Int(9), after: Value::Int(5) };
/// assert_eq!(step.deltas, [set]);
/// # Ok::<(), Error>(())
/// ```
#[derive(Clone, Debug, PartialEq, Eq, Hash)]
pub enum Delta {
    /// An entity came.
    Spawned {
        /// The entity.
        entity: Entity,
        /// Its components, by kind.
        cells: Vec<(Kind, Value)>,
        /// The place of its row, which it has where a despawn was taken back; `None` where it is the last.
        row: Option<usize>,
        /// Its place below a parent, which it has at once where a despawn was taken back, and never in a frame.
        parent: Option<ChildPlace>,
    },
    /// An entity went.
    Despawned {
        /// The entity.
        entity: Entity,
        /// The components that it had, by kind.
        cells: Vec<(Kind, Value)>,
        /// The place that its row had; `None` where a spawn was taken back, as it was the last then.
        row: Option<usize>,
        /// The place that it had below a parent, which it has in no spawn that was taken back.
        parent: Option<ChildPlace>,
    },
    /// A component came or went, so that the row is in another table.
    Shifted {
        /// The entity.
        entity: Entity,
        /// The kind of the component.
        kind: Kind,
        /// What went; `None` where the component came.
        before: Option<Value>,
        /// What came; `None` where the component went.
        after: Option<Value>,
        /// The place of the row in the table that it left; `None` where it was the last, as where it is taken back.
        row_before: Option<usize>,
        /// The place in the table to which it came; `None` where it is the last, as in a frame.
        row_after: Option<usize>,
    },
    /// A component was written, also with the value that it had.
    Set {
        /// The entity.
        entity: Entity,
        /// The kind of the component.
        kind: Kind,
        /// Its value before.
        before: Value,
        /// Its value behind it.
        after: Value,
    },
    /// An entity has another parent, or another place among the children of the one that it had.
    Linked {
        /// The entity.
        entity: Entity,
        /// Its place below the parent before, where it had one.
        before: Option<ChildPlace>,
        /// Its place below the parent behind it, where it has one.
        after: Option<ChildPlace>,
    },
    /// A resource came, went or was written.
    Resource {
        /// Its name.
        name: String,
        /// Its value before; `None` where it came.
        before: Option<Value>,
        /// Its value behind it; `None` where it went.
        after: Option<Value>,
    },
}

impl Delta {
    /// The entity that it is about; `None` where it is about a resource.
    ///
    /// ```
    /// # use scene::{Delta, Error, Scene};
    /// let mut scene = Scene::new()?;
    /// let cat = scene.spawn(&[])?;
    /// scene.put("score", 5)?;
    /// assert_eq!(scene.past_step(1)?.unwrap().deltas[0].entity(), Some(cat));
    /// assert_eq!(scene.past_step(0)?.unwrap().deltas[0].entity(), None);
    /// # Ok::<(), Error>(())
    /// ```
    #[must_use]
    pub fn entity(&self) -> Option<Entity> {
        match self {
            Delta::Spawned { entity, .. }
            | Delta::Despawned { entity, .. }
            | Delta::Shifted { entity, .. }
            | Delta::Set { entity, .. }
            | Delta::Linked { entity, .. } => Some(*entity),
            Delta::Resource { .. } => None,
        }
    }

    /// What taking it back does: before and after are exchanged, and who came, goes. Reversed again it is as it was.
    ///
    /// ```
    /// use scene::{ChildPlace, Delta, Entity};
    ///
    /// let entity = Entity { index: 3, generation: 1 };
    /// let parent = Some(ChildPlace { parent: Entity { index: 0, generation: 1 }, place: 2 });
    /// let despawned = Delta::Despawned { entity, cells: Vec::new(), row: Some(7), parent };
    /// let spawned = Delta::Spawned { entity, cells: Vec::new(), row: Some(7), parent };
    /// assert_eq!(despawned.reversed(), spawned);
    /// ```
    #[must_use]
    pub fn reversed(self) -> Delta {
        match self {
            Delta::Spawned { entity, cells, row, parent } => Delta::Despawned { entity, cells, row, parent },
            Delta::Despawned { entity, cells, row, parent } => Delta::Spawned { entity, cells, row, parent },
            Delta::Shifted { entity, kind, before, after, row_before, row_after } => Delta::Shifted {
                entity,
                kind,
                before: after,
                after: before,
                row_before: row_after,
                row_after: row_before,
            },
            Delta::Set { entity, kind, before, after } => Delta::Set { entity, kind, before: after, after: before },
            Delta::Linked { entity, before, after } => Delta::Linked { entity, before: after, after: before },
            Delta::Resource { name, before, after } => Delta::Resource { name, before: after, after: before },
        }
    }
}
