//! Kinds, their shapes, and the values of components.
use crate::entity::Entity;
use crate::kind::Kind;
use scene_sys as raw;
use std::error::Error;
use std::fmt;
use std::str::FromStr;

/// What the values of a kind are.
///
/// ```
/// use scene::Shape;
///
/// assert_eq!("Vec3".parse(), Ok(Shape::Vec3));
/// assert_eq!(Shape::Vec3.to_string(), "Vec3");
/// ```
#[derive(Clone, Copy, Debug, PartialEq, Eq, Hash)]
#[repr(u32)]
pub enum Shape {
    /// No value: that the component is there says all.
    Tag = raw::SCENE_TAG,
    /// A whole number.
    Int = raw::SCENE_INT,
    /// Three whole numbers.
    Vec3 = raw::SCENE_VEC3,
    /// A text.
    Text = raw::SCENE_TEXT,
    /// An entity, which need not be alive.
    Link = raw::SCENE_LINK,
}

impl Shape {
    pub(crate) fn of_raw(shape: u32) -> Shape {
        match shape {
            raw::SCENE_TAG => Shape::Tag,
            raw::SCENE_INT => Shape::Int,
            raw::SCENE_VEC3 => Shape::Vec3,
            raw::SCENE_TEXT => Shape::Text,
            raw::SCENE_LINK => Shape::Link,
            other => unreachable!("scene.h has no shape {other}"),
        }
    }
}

impl fmt::Display for Shape {
    fn fmt(&self, f: &mut fmt::Formatter<'_>) -> fmt::Result {
        fmt::Debug::fmt(self, f)
    }
}

/// A text names no shape.
///
/// ```
/// use scene::{NoShape, Shape};
///
/// assert_eq!("int".parse::<Shape>(), Err(NoShape));
/// ```
#[derive(Clone, Copy, Debug, PartialEq, Eq)]
pub struct NoShape;

impl fmt::Display for NoShape {
    fn fmt(&self, f: &mut fmt::Formatter<'_>) -> fmt::Result {
        f.write_str("a shape is Tag, Int, Vec3, Text or Link")
    }
}

impl Error for NoShape {}

impl FromStr for Shape {
    type Err = NoShape;

    fn from_str(text: &str) -> Result<Shape, NoShape> {
        match text {
            "Tag" => Ok(Shape::Tag),
            "Int" => Ok(Shape::Int),
            "Vec3" => Ok(Shape::Vec3),
            "Text" => Ok(Shape::Text),
            "Link" => Ok(Shape::Link),
            _ => Err(NoShape),
        }
    }
}

/// The value of a component.
///
/// ```
/// use scene::{Entity, Value};
///
/// let cat = Entity { index: 0, generation: 1 };
/// assert_eq!(Value::from(()), Value::Tag);
/// assert_eq!(Value::from(9), Value::Int(9));
/// assert_eq!(Value::from([1, -2, 3]), Value::Vec3([1, -2, 3]));
/// assert_eq!(Value::from("a cat"), Value::Text("a cat".to_owned()));
/// assert_eq!(Value::from(cat), Value::Link(cat));
/// ```
#[derive(Clone, Debug, PartialEq, Eq, Hash)]
pub enum Value {
    /// No value.
    Tag,
    /// A whole number.
    Int(i64),
    /// Three whole numbers.
    Vec3([i64; 3]),
    /// A text, of any characters.
    Text(String),
    /// An entity, which need not be alive.
    Link(Entity),
}

impl Value {
    /// The shape of the kinds that it fits.
    ///
    /// ```
    /// use scene::{Shape, Value};
    ///
    /// assert_eq!(Value::Int(9).shape(), Shape::Int);
    /// ```
    #[must_use]
    pub fn shape(&self) -> Shape {
        match self {
            Value::Tag => Shape::Tag,
            Value::Int(_) => Shape::Int,
            Value::Vec3(_) => Shape::Vec3,
            Value::Text(_) => Shape::Text,
            Value::Link(_) => Shape::Link,
        }
    }
}

impl From<()> for Value {
    fn from((): ()) -> Value {
        Value::Tag
    }
}

impl From<i64> for Value {
    fn from(number: i64) -> Value {
        Value::Int(number)
    }
}

impl From<[i64; 3]> for Value {
    fn from(numbers: [i64; 3]) -> Value {
        Value::Vec3(numbers)
    }
}

impl From<&str> for Value {
    fn from(text: &str) -> Value {
        Value::Text(text.to_owned())
    }
}

impl From<String> for Value {
    fn from(text: String) -> Value {
        Value::Text(text)
    }
}

impl From<Entity> for Value {
    fn from(entity: Entity) -> Value {
        Value::Link(entity)
    }
}

/// A component as the library takes it.
pub(crate) enum Sent<'a> {
    Cell(raw::scene_cell),
    Text(&'a str),
}

/// Components as the library takes them in a list: a cell each, and the bytes of all their texts.
#[derive(Default)]
pub(crate) struct SentList {
    pub(crate) cells: Vec<raw::scene_cell>,
    pub(crate) bytes: Vec<u8>,
}

impl SentList {
    pub(crate) fn push(&mut self, kind: Kind, value: &Value) {
        let cell = match value.sent(kind) {
            Sent::Cell(cell) => cell,
            Sent::Text(text) => {
                // What is in memory is shorter than 63 bits count.
                let (begin, length) = (self.bytes.len() as i64, text.len() as i64);
                self.bytes.extend_from_slice(text.as_bytes());
                raw::scene_cell { kind: kind.0.into(), shape: raw::SCENE_TEXT, x: begin, y: length, z: 0 }
            }
        };
        self.cells.push(cell);
    }
}

impl Value {
    pub(crate) fn sent(&self, kind: Kind) -> Sent<'_> {
        let [x, y, z] = match self {
            Value::Text(text) => return Sent::Text(text),
            Value::Tag => [0; 3],
            Value::Int(number) => [*number, 0, 0],
            Value::Vec3(numbers) => *numbers,
            Value::Link(entity) => [entity.index.into(), entity.generation.into(), 0],
        };
        Sent::Cell(raw::scene_cell { kind: kind.0.into(), shape: self.shape() as u32, x, y, z })
    }

    /// The value that the library tells, whose text comes apart. The numbers of a link have 32 bits.
    pub(crate) fn of_cell(cell: &raw::scene_cell, text: String) -> Value {
        match Shape::of_raw(cell.shape) {
            Shape::Tag => Value::Tag,
            Shape::Int => Value::Int(cell.x),
            Shape::Vec3 => Value::Vec3([cell.x, cell.y, cell.z]),
            Shape::Text => Value::Text(text),
            Shape::Link => Value::Link(Entity { index: cell.x as u32, generation: cell.y as u32 }),
        }
    }
}
