//! Reading a scene by columns: its tables, their entities, and the components of a kind.
use crate::call::told;
use crate::component::Component;
use crate::entity::Entity;
use crate::error::Error;
use crate::fault::Fault;
use crate::kind::{Filter, Kind, KindSet};
use crate::scene::Scene;
use crate::value::{Shape, Value};
use scene_sys as raw;

/// A part of a column: of the entities that have just some kinds, the components of one of these, so many from one on.
pub struct Part {
    pub(crate) kinds: KindSet,
    pub(crate) kind: Kind,
    pub(crate) from: usize,
    pub(crate) length: usize,
}

/// What a type has to have of which components are read. It is nobody's but this crate's.
pub trait Column: Sized {
    /// The component that a value is, where it has the type's shape.
    fn of_value(value: Value) -> Option<Self>;
    /// Puts a part of a column into `items`, in place of what was there. Says whether it is told.
    fn fill(scene: &Scene, from: &Part, items: &mut Vec<Self>) -> Result<bool, Error>;
    /// An item of a part, which isn't looked at again.
    fn take(&mut self) -> Self;
}

/// The entities that have just some kinds.
#[derive(Clone, Copy, Debug, PartialEq, Eq)]
pub struct Table {
    /// The kinds.
    pub kinds: KindSet,
    /// How many entities have just these.
    pub rows: usize,
}

/// The ticks of a component: those of the frames that added it, and that wrote it last.
#[derive(Clone, Copy, Debug, PartialEq, Eq)]
pub struct Ticks {
    /// The tick at which it was added.
    pub added: u64,
    /// The tick at which it was last written.
    pub changed: u64,
}

/// By columns.
impl Scene {
    /// The tables that a filter matches, ascending by the numbers of their kind sets.
    ///
    /// ```
    /// # use scene::{Error, Filter, KindSet, Scene, Shape};
    /// # let mut scene = Scene::new()?;
    /// let health = scene.declare("Health", Shape::Int)?;
    /// scene.spawn(&[health.of(9)])?;
    /// scene.spawn(&[health.of(5)])?;
    /// let tables = scene.tables(Filter::all())?;
    /// assert_eq!((tables[0].kinds, tables[0].rows), (KindSet::of(&[health]), 2));
    /// # Ok::<(), Error>(())
    /// ```
    ///
    /// # Errors
    ///
    /// [`Error::NoMemory`].
    pub fn tables(&self, filter: Filter) -> Result<Vec<Table>, Error> {
        let (need, without) = (filter.need.bits(), filter.without.bits());
        // SAFETY: as in `list`.
        let tables = self.list(raw::scene_table::default(), |handle, at, room, total| unsafe {
            raw::scene_tables(handle, need, without, 0, at, room, total)
        })?;
        let shown = |table: raw::scene_table| Table {
            kinds: KindSet::of_bits(table.mask),
            // They are in memory, so that their count fits.
            rows: table.rows as usize,
        };
        Ok(told(tables)?.into_iter().map(shown).collect())
    }

    /// The entities that have just some kinds, in the order of their columns.
    ///
    /// # Errors
    ///
    /// As those of [`status`](Scene::status).
    pub fn entities(&self, kinds: KindSet) -> Result<Vec<Entity>, Error> {
        // SAFETY: as in `list`; an entity has the form of the header's.
        told(self.list(Entity::NONE, |handle, at, room, total| unsafe {
            raw::scene_rows(handle, kinds.bits(), 0, at.cast(), room, total)
        })?)
    }

    /// The components of a kind that the entities of a kind set have, in the order of these.
    ///
    /// ```
    /// use scene::{Error, Filter, Scene, Shape};
    ///
    /// let mut scene = Scene::new()?;
    /// let health = scene.declare("Health", Shape::Int)?;
    /// let cat = scene.spawn(&[health.of(9)])?;
    /// scene.spawn(&[health.of(5)])?;
    /// for table in scene.tables(Filter::need(&[health]))? {
    ///     assert_eq!(scene.entities(table.kinds)?[0], cat);
    ///     assert_eq!(scene.column::<i64>(table.kinds, health)?, [9, 5]);
    ///     assert_eq!(scene.ticks(table.kinds, health)?[1].added, 2);
    /// }
    /// # Ok::<(), Error>(())
    /// ```
    ///
    /// # Errors
    ///
    /// [`Error::Refused`] with NoSuchKind, WrongShape where the kind isn't of the type's, and NotPresent where the set
    /// hasn't the kind.
    pub fn column<T: Component>(&self, kinds: KindSet, kind: Kind) -> Result<Vec<T>, Error> {
        self.fits::<T>(kind)?;
        if !kinds.contains(kind) {
            return Err(Fault::NotPresent.into());
        }
        let mut length = 0;
        let mut none = raw::SCENE_NONE;
        // SAFETY: as in `list`; there is room for none.
        self.look(|handle| unsafe { raw::scene_rows(handle, kinds.bits(), 0, &mut none, 0, &mut length) })?;
        let mut items = Vec::new();
        let is_told = T::fill(self, &Part { kinds, kind, from: 0, length }, &mut items)?;
        told(is_told.then_some(items))
    }

    /// The ticks of the components of a kind that the entities of a kind set have, in the order of these.
    ///
    /// # Errors
    ///
    /// [`Error::Refused`] with NotPresent where the set hasn't the kind.
    pub fn ticks(&self, kinds: KindSet, kind: Kind) -> Result<Vec<Ticks>, Error> {
        let of = |which| {
            // SAFETY: as in `list`.
            let ticks = self.list(0, |handle, at, room, total| unsafe {
                raw::scene_ticks(handle, kinds.bits(), kind.0.into(), which, 0, at, room, total)
            })?;
            ticks.ok_or(Error::from(Fault::NotPresent))
        };
        Ok(of(0)?.into_iter().zip(of(1)?).map(|(added, changed)| Ticks { added, changed }).collect())
    }

    /// The entities of the rows of a part.
    pub(crate) fn fill_rows(&self, from: &Part, entities: &mut Vec<Entity>) -> Result<bool, Error> {
        let (mask, begin) = (from.kinds.bits(), from.from);
        // SAFETY: as in `fill`; an entity has the form of the header's.
        self.fill(Entity::NONE, from.length, entities, |handle, at, room, total| unsafe {
            raw::scene_rows(handle, mask, begin, at.cast(), room, total)
        })
    }

    /// The shape of a kind.
    pub(crate) fn shape_of(&self, kind: Kind) -> Option<Shape> {
        self.kind_told(kind).map(|(_, shape)| shape)
    }

    /// Whether components of a kind are read by a type; else why not.
    pub(crate) fn fits<T: Component>(&self, kind: Kind) -> Result<(), Error> {
        match self.shape_of(kind) {
            None => Err(Fault::NoSuchKind.into()),
            Some(shape) if T::SHAPE.is_some_and(|wanted| wanted != shape) => Err(Fault::WrongShape.into()),
            Some(_) => Ok(()),
        }
    }
}
