//! The rows of a world, whole.
use crate::columns::Table;
use crate::entity::Entity;
use crate::error::Error;
use crate::kind::{Filter, Kind};
use crate::scene::Scene;
use crate::value::Value;
use std::vec;

/// A component of a row, with its ticks: those of the frames that added it, and that wrote it last.
///
/// ```
/// # use scene::{Error, Scene, Shape, Value};
/// let mut scene = Scene::new()?;
/// let health = scene.declare("Health", Shape::Int)?;
/// let cat = scene.spawn(&[health.of(9)])?;
/// scene.insert(cat, health, 5)?;
/// let row = scene.rows()?.next().unwrap();
/// let cell = &row.cells[0];
/// assert_eq!((cell.kind, &cell.value, cell.added, cell.changed), (health, &Value::Int(5), 1, 2));
/// # Ok::<(), Error>(())
/// ```
#[derive(Clone, Debug, PartialEq, Eq)]
pub struct Cell {
    /// Its kind.
    pub kind: Kind,
    /// Its value.
    pub value: Value,
    /// The tick at which it was added.
    pub added: u64,
    /// The tick at which it was last written.
    pub changed: u64,
}

/// An entity with its components, which stand in the order of their kinds.
///
/// ```
/// # use scene::{Error, Scene, Shape};
/// let mut scene = Scene::new()?;
/// let name = scene.declare("Name", Shape::Text)?;
/// let cat = scene.spawn(&[name.of("cat")])?;
/// for row in scene.rows()? {
///     println!("{} has {} components", row.entity, row.cells.len());
/// }
/// # Ok::<(), Error>(())
/// ```
#[derive(Clone, Debug, PartialEq, Eq)]
pub struct Row {
    /// The entity.
    pub entity: Entity,
    /// Its components.
    pub cells: Vec<Cell>,
}

impl Row {
    /// The value of a kind, where the entity has it.
    ///
    /// ```
    /// # use scene::{Error, Scene, Shape, Value};
    /// let mut scene = Scene::new()?;
    /// let name = scene.declare("Name", Shape::Text)?;
    /// let health = scene.declare("Health", Shape::Int)?;
    /// scene.spawn(&[health.of(9)])?;
    /// let row = scene.rows()?.next().unwrap();
    /// assert_eq!(row.value(health), Some(&Value::Int(9)));
    /// assert_eq!(row.value(name), None);
    /// # Ok::<(), Error>(())
    /// ```
    #[must_use]
    pub fn value(&self, kind: Kind) -> Option<&Value> {
        self.cells.iter().find(|cell| cell.kind == kind).map(|cell| &cell.value)
    }
}

/// The rows of a world at one moment, by table and then by place. They are a copy: the scene may be changed meanwhile.
///
/// ```
/// # use scene::{Error, Scene, Shape, Value};
/// let mut scene = Scene::new()?;
/// let health = scene.declare("Health", Shape::Int)?;
/// scene.spawn(&[health.of(1)])?;
/// scene.spawn(&[health.of(9)])?;
/// for row in scene.rows()? {
///     if row.value(health) == Some(&Value::Int(1)) {
///         scene.despawn(row.entity)?;
///     }
/// }
/// assert_eq!(scene.rows()?.len(), 1);
/// # Ok::<(), Error>(())
/// ```
#[derive(Clone, Debug)]
pub struct Rows(pub(crate) vec::IntoIter<Row>);

impl Iterator for Rows {
    type Item = Row;

    fn next(&mut self) -> Option<Row> {
        self.0.next()
    }

    fn size_hint(&self) -> (usize, Option<usize>) {
        self.0.size_hint()
    }
}

impl ExactSizeIterator for Rows {}

/// Row by row.
impl Scene {
    /// The entities with their components, as they are now: by table, and then by place. In a frame that a line opened
    /// they are as before it.
    ///
    /// ```
    /// # use scene::{Error, Scene, Shape, Value};
    /// # let mut scene = Scene::new()?;
    /// let name = scene.declare("Name", Shape::Text)?;
    /// scene.spawn(&[name.of("cat")])?;
    /// scene.spawn(&[name.of("dog")])?;
    /// let names: Vec<_> = scene.rows()?.filter_map(|row| row.value(name).cloned()).collect();
    /// assert_eq!(names, [Value::from("cat"), Value::from("dog")]);
    /// # Ok::<(), Error>(())
    /// ```
    ///
    /// # Errors
    ///
    /// [`Error::NoMemory`].
    pub fn rows(&self) -> Result<Rows, Error> {
        let mut rows = Vec::new();
        for table in self.tables(Filter::all())? {
            self.read_rows(table, &mut rows)?;
        }
        Ok(Rows(rows.into_iter()))
    }

    /// Reads the rows of a table, a column of it after another.
    fn read_rows(&self, table: Table, rows: &mut Vec<Row>) -> Result<(), Error> {
        let first = rows.len();
        let entities = self.entities(table.kinds)?;
        rows.extend(entities.into_iter().map(|entity| Row { entity, cells: Vec::new() }));
        for kind in table.kinds.kinds() {
            let values = self.column::<Value>(table.kinds, kind)?;
            let cells = values.into_iter().zip(self.ticks(table.kinds, kind)?);
            for (row, (value, ticks)) in rows[first..].iter_mut().zip(cells) {
                row.cells.push(Cell { kind, value, added: ticks.added, changed: ticks.changed });
            }
        }
        Ok(())
    }
}
