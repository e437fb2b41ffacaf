//! Queries: the components of some kinds, of all entities that have these, row by row.
use crate::columns::{Part, Table};
use crate::component::Component;
use crate::entity::Entity;
use crate::error::Error;
use crate::kind::{Filter, Kind, KindSet};
use crate::scene::Scene;
use std::fmt;
use std::vec;

/// How many rows are read at once: so many that the calls cost little, so few that their columns stay near.
const ROWS: usize = 512;

/// The types of a query: a [`Component`], or a tuple of two to six of them.
pub trait Query: Parts {
    /// The kinds, in the order of the types: a [`Kind`], or an array of them.
    type Kinds: AsRef<[Kind]>;
}

/// What a query reads a part at a time. It is nobody's but this crate's.
pub trait Parts: Sized {
    /// A part of each column.
    type Columns: Default;
    /// Whether the kinds are read by the types; else why not.
    fn fit(scene: &Scene, kinds: &[Kind]) -> Result<(), Error>;
    /// Reads a part of each column.
    fn fill(scene: &Scene, kinds: &[Kind], from: &Rows, columns: &mut Self::Columns) -> Result<bool, Error>;
    /// A row of the part.
    fn take(columns: &mut Self::Columns, place: usize) -> Self;
}

/// A part of a table.
#[derive(Clone, Copy)]
pub struct Rows {
    kinds: KindSet,
    from: usize,
    length: usize,
}

impl Rows {
    /// The same rows of one column.
    fn of(self, kind: Kind) -> Part {
        Part { kinds: self.kinds, kind, from: self.from, length: self.length }
    }
}

impl<T: Component> Query for T {
    type Kinds = Kind;
}

impl<T: Component> Parts for T {
    type Columns = Vec<T>;

    fn fit(scene: &Scene, kinds: &[Kind]) -> Result<(), Error> {
        scene.fits::<T>(kinds[0])
    }

    fn fill(scene: &Scene, kinds: &[Kind], from: &Rows, columns: &mut Vec<T>) -> Result<bool, Error> {
        <T as crate::columns::Column>::fill(scene, &from.of(kinds[0]), columns)
    }

    fn take(columns: &mut Vec<T>, place: usize) -> T {
        columns[place].take()
    }
}

macro_rules! query {
    ($count:literal: $($type:ident $place:tt),*) => {
        impl<$($type: Component),*> Query for ($($type,)*) {
            type Kinds = [Kind; $count];
        }

        impl<$($type: Component),*> Parts for ($($type,)*) {
            type Columns = ($(Vec<$type>,)*);

            fn fit(scene: &Scene, kinds: &[Kind]) -> Result<(), Error> {
                $(scene.fits::<$type>(kinds[$place])?;)*
                Ok(())
            }

            fn fill(scene: &Scene, kinds: &[Kind], from: &Rows, columns: &mut Self::Columns) -> Result<bool, Error> {
                Ok(true $(&& $type::fill(scene, &from.of(kinds[$place]), &mut columns.$place)?)*)
            }

            fn take(columns: &mut Self::Columns, place: usize) -> Self {
                ($(columns.$place[place].take(),)*)
            }
        }
    };
}

query!(2: A 0, B 1);
query!(3: A 0, B 1, C 2);
query!(4: A 0, B 1, C 2, D 3);
query!(5: A 0, B 1, C 2, D 3, E 4);
query!(6: A 0, B 1, C 2, D 3, E 4, F 5);

/// The rows of a query, by table and then by place. The scene is lent meanwhile, so nothing is written.
///
/// ```
/// # use scene::{Error, Found, Scene, Shape};
/// # let mut scene = Scene::new()?;
/// let health = scene.declare("Health", Shape::Int)?;
/// scene.spawn(&[health.of(9)])?;
/// scene.spawn(&[health.of(5)])?;
/// let found: Found<i64> = scene.query(health)?;
/// assert_eq!(found.len(), 2);
/// assert_eq!(found.sum::<i64>(), 14);
/// # Ok::<(), Error>(())
/// ```
pub struct Found<'a, Q: Query> {
    scene: &'a Scene,
    kinds: Q::Kinds,
    tables: vec::IntoIter<Table>,
    /// The table that is read, and its rows that are.
    table: Table,
    rows: Rows,
    columns: Q::Columns,
    /// The place of the next row in the part, and how many rows follow in other parts.
    place: usize,
    behind: usize,
}

impl<Q: Query> fmt::Debug for Found<'_, Q> {
    fn fmt(&self, f: &mut fmt::Formatter<'_>) -> fmt::Result {
        f.debug_struct("Found").field("kinds", &self.kinds.as_ref()).field("left", &self.len()).finish_non_exhaustive()
    }
}

impl<'a, Q: Query> Found<'a, Q> {
    /// The same rows, each with its entity in front.
    ///
    /// ```
    /// # use scene::{Error, Scene, Shape};
    /// # let mut scene = Scene::new()?;
    /// let health = scene.declare("Health", Shape::Int)?;
    /// let at = scene.declare("At", Shape::Vec3)?;
    /// let cat = scene.spawn(&[health.of(9), at.of([1, 2, 3])])?;
    /// for (entity, (life, [x, _, _])) in scene.query::<(i64, [i64; 3])>([health, at])?.with_entities() {
    ///     assert_eq!((entity, life, x), (cat, 9, 1));
    /// }
    /// # Ok::<(), Error>(())
    /// ```
    #[must_use]
    pub fn with_entities(self) -> FoundEntities<'a, Q> {
        FoundEntities { found: self, entities: Vec::new() }
    }

    /// Reads the next part, where there is one.
    #[cold]
    fn read_part(&mut self) -> bool {
        let mut from = self.rows.from + self.rows.length;
        while from == self.table.rows {
            let Some(table) = self.tables.next() else {
                return false;
            };
            (self.table, from) = (table, 0);
        }
        self.rows = Rows { kinds: self.table.kinds, from, length: ROWS.min(self.table.rows - from) };
        self.place = 0;
        self.behind -= self.rows.length;
        let is_told = Q::fill(self.scene, self.kinds.as_ref(), &self.rows, &mut self.columns);
        // The kinds fit, the tables have them, and the scene is lent: so reading a column can't fail, and needs no
        // memory of the library's.
        assert_eq!(is_told, Ok(true), "a column of a table is told");
        true
    }

    /// The row at the place, which is in the part.
    fn row(&mut self) -> Q {
        let row = Q::take(&mut self.columns, self.place);
        self.place += 1;
        row
    }
}

impl<Q: Query> Iterator for Found<'_, Q> {
    type Item = Q;

    fn next(&mut self) -> Option<Q> {
        if self.place == self.rows.length && !self.read_part() {
            return None;
        }
        Some(self.row())
    }

    fn size_hint(&self) -> (usize, Option<usize>) {
        let left = self.rows.length - self.place + self.behind;
        (left, Some(left))
    }

    /// A part at a time, as `sum` and `for_each` go too.
    fn fold<B, F: FnMut(B, Q) -> B>(mut self, first: B, mut with: F) -> B {
        let mut folded = first;
        while self.place < self.rows.length || self.read_part() {
            for place in self.place..self.rows.length {
                folded = with(folded, Q::take(&mut self.columns, place));
            }
            self.place = self.rows.length;
        }
        folded
    }
}

impl<Q: Query> ExactSizeIterator for Found<'_, Q> {}

/// The rows of a query with their entities, as [`Found::with_entities`] gives them.
#[derive(Debug)]
pub struct FoundEntities<'a, Q: Query> {
    found: Found<'a, Q>,
    /// Those of the part that is read.
    entities: Vec<Entity>,
}

impl<Q: Query> FoundEntities<'_, Q> {
    /// Reads the next part, where there is one.
    #[cold]
    fn read_part(&mut self) -> bool {
        if !self.found.read_part() {
            return false;
        }
        let Some(kind) = self.found.kinds.as_ref().first() else {
            return false;
        };
        let is_told = self.found.scene.fill_rows(&self.found.rows.of(*kind), &mut self.entities);
        assert_eq!(is_told, Ok(true), "the entities of a table are told");
        true
    }
}

impl<Q: Query> Iterator for FoundEntities<'_, Q> {
    type Item = (Entity, Q);

    fn next(&mut self) -> Option<(Entity, Q)> {
        if self.found.place == self.found.rows.length && !self.read_part() {
            return None;
        }
        let entity = self.entities[self.found.place];
        Some((entity, self.found.row()))
    }

    fn size_hint(&self) -> (usize, Option<usize>) {
        self.found.size_hint()
    }

    /// A part at a time, as `sum` and `for_each` go too.
    fn fold<B, F: FnMut(B, (Entity, Q)) -> B>(mut self, first: B, mut with: F) -> B {
        let mut folded = first;
        while self.found.place < self.found.rows.length || self.read_part() {
            for place in self.found.place..self.found.rows.length {
                folded = with(folded, (self.entities[place], Q::take(&mut self.found.columns, place)));
            }
            self.found.place = self.found.rows.length;
        }
        folded
    }
}

impl<Q: Query> ExactSizeIterator for FoundEntities<'_, Q> {}

/// Queries.
impl Scene {
    /// The components of some kinds, of all entities that have these, by the types that are named.
    ///
    /// ```
    /// # use scene::{Error, Scene, Shape};
    /// # let mut scene = Scene::new()?;
    /// let health = scene.declare("Health", Shape::Int)?;
    /// let at = scene.declare("At", Shape::Vec3)?;
    /// scene.spawn(&[health.of(9), at.of([1, 2, 3])])?;
    /// scene.spawn(&[health.of(5)])?;
    /// let mut lives = 0;
    /// for (life, [x, y, z]) in scene.query::<(i64, [i64; 3])>([health, at])? {
    ///     lives += life * (x + y + z);
    /// }
    /// assert_eq!(lives, 54);
    /// # Ok::<(), Error>(())
    /// ```
    ///
    /// # Errors
    ///
    /// [`Error::Refused`] with NoSuchKind, or WrongShape where a kind isn't of its type's shape; [`Error::NoMemory`].
    pub fn query<Q: Query>(&self, kinds: Q::Kinds) -> Result<Found<'_, Q>, Error> {
        self.query_without(kinds, &[])
    }

    /// The same of the entities that have none of other kinds.
    ///
    /// ```
    /// # use scene::{Error, Scene, Shape};
    /// # let mut scene = Scene::new()?;
    /// let name = scene.declare("Name", Shape::Text)?;
    /// let hidden = scene.declare("Hidden", Shape::Tag)?;
    /// scene.spawn(&[name.of("cat")])?;
    /// scene.spawn(&[name.of("ghost"), hidden.of(())])?;
    /// let seen: Vec<String> = scene.query_without(name, &[hidden])?.collect();
    /// assert_eq!(seen, ["cat"]);
    /// # Ok::<(), Error>(())
    /// ```
    ///
    /// # Errors
    ///
    /// As those of [`query`](Scene::query).
    pub fn query_without<Q: Query>(&self, kinds: Q::Kinds, without: &[Kind]) -> Result<Found<'_, Q>, Error> {
        Q::fit(self, kinds.as_ref())?;
        let tables = self.tables(Filter::need(kinds.as_ref()).without(without))?;
        let behind = tables.iter().map(|table| table.rows).sum();
        let none = KindSet::default();
        Ok(Found {
            scene: self,
            kinds,
            tables: tables.into_iter(),
            table: Table { kinds: none, rows: 0 },
            rows: Rows { kinds: none, from: 0, length: 0 },
            columns: Q::Columns::default(),
            place: 0,
            behind,
        })
    }
}
