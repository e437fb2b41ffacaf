//! The types of Rust by which components are read.
use crate::call::ListsRoom;
use crate::columns::{Column, Part};
use crate::entity::Entity;
use crate::error::Error;
use crate::scene::Scene;
use crate::value::{Shape, Value};
use scene_sys as raw;

/// A type of Rust by which components of a shape are read: `()` a Tag, `i64` an Int, `[i64; 3]` a Vec3, `String` a
/// Text, [`Entity`] a Link, and [`Value`] each. It is these types' alone.
///
/// ```
/// # use scene::{Error, Scene, Shape, Value};
/// # let mut scene = Scene::new()?;
/// let at = scene.declare("At", Shape::Vec3)?;
/// let cat = scene.spawn(&[at.of([1, -2, 3])])?;
/// let [x, y, z]: [i64; 3] = scene.get(cat, at)?;
/// assert_eq!(scene.get::<Value>(cat, at)?, Value::Vec3([x, y, z]));
/// assert_eq!(scene.get::<i64>(cat, at).unwrap_err().to_string(), "refused 4 WrongShape");
/// # Ok::<(), Error>(())
/// ```
pub trait Component: Column {
    /// The shape of the kinds that it reads; `None` where it reads each.
    const SHAPE: Option<Shape>;
}

/// Reads by a type: its shape, its value, and the call that tells a column of it, with what is written over.
macro_rules! component {
    ($type:ty, $shape:ident, $value:pat => $read:expr, $call:ident as $item:ty, $blank:expr) => {
        impl Component for $type {
            const SHAPE: Option<Shape> = Some(Shape::$shape);
        }

        const _: () = assert!(size_of::<$type>() == size_of::<$item>() && align_of::<$type>() == align_of::<$item>());

        impl Column for $type {
            fn of_value(value: Value) -> Option<$type> {
                match value {
                    $value => Some($read),
                    _ => None,
                }
            }

            fn fill(scene: &Scene, from: &Part, items: &mut Vec<$type>) -> Result<bool, Error> {
                let &Part { kinds, kind, from, length } = from;
                // SAFETY: as in `fill`; the item of the list has the form of the type.
                scene.fill($blank, length, items, |handle, at, room, total| unsafe {
                    raw::$call(handle, kinds.bits(), kind.0.into(), from, at.cast::<$item>(), room, total)
                })
            }

            fn take(&mut self) -> $type {
                *self
            }
        }
    };
}

component!(i64, Int, Value::Int(number) => number, scene_ints as i64, 0);
component!([i64; 3], Vec3, Value::Vec3(numbers) => numbers, scene_vec3s as raw::scene_vec3, [0; 3]);
component!(Entity, Link, Value::Link(entity) => entity, scene_links as raw::scene_entity, Entity::NONE);

impl Component for () {
    const SHAPE: Option<Shape> = Some(Shape::Tag);
}

impl Column for () {
    fn of_value(value: Value) -> Option<()> {
        (value == Value::Tag).then_some(())
    }

    /// That the components are there says all.
    fn fill(_: &Scene, from: &Part, items: &mut Vec<()>) -> Result<bool, Error> {
        items.resize(from.length, ());
        Ok(true)
    }

    fn take(&mut self) {}
}

/// How many bytes the texts of a part are given room for at first, so that short ones take one call.
const TEXT_ROOM: usize = 16_384;

impl Component for String {
    const SHAPE: Option<Shape> = Some(Shape::Text);
}

impl Column for String {
    fn of_value(value: Value) -> Option<String> {
        match value {
            Value::Text(text) => Some(text),
            _ => None,
        }
    }

    fn fill(scene: &Scene, from: &Part, items: &mut Vec<String>) -> Result<bool, Error> {
        let &Part { kinds, kind, from: begin, length } = from;
        let (mask, kind) = (kinds.bits(), u32::from(kind.0));
        // SAFETY: as in `lists`.
        let texts = scene.lists(length, TEXT_ROOM, 0, |handle, number, to| unsafe {
            let ListsRoom { ends, count, items, length, told, total } = to;
            raw::scene_texts(handle, mask, kind, begin + number, ends, count, items, length, told, total)
        })?;
        items.clear();
        items.extend(texts.iter().flat_map(|texts| (0..length).map(|number| texts.text(number))));
        Ok(texts.is_some())
    }

    fn take(&mut self) -> String {
        std::mem::take(self)
    }
}

impl Component for Value {
    const SHAPE: Option<Shape> = None;
}

impl Column for Value {
    fn of_value(value: Value) -> Option<Value> {
        Some(value)
    }

    fn fill(scene: &Scene, from: &Part, items: &mut Vec<Value>) -> Result<bool, Error> {
        match scene.shape_of(from.kind) {
            None => Ok(false),
            Some(Shape::Tag) => values::<()>(scene, from, items),
            Some(Shape::Int) => values::<i64>(scene, from, items),
            Some(Shape::Vec3) => values::<[i64; 3]>(scene, from, items),
            Some(Shape::Text) => values::<String>(scene, from, items),
            Some(Shape::Link) => values::<Entity>(scene, from, items),
        }
    }

    fn take(&mut self) -> Value {
        std::mem::replace(self, Value::Tag)
    }
}

/// The values of a column that is read by another type.
fn values<T: Column + Into<Value>>(scene: &Scene, from: &Part, items: &mut Vec<Value>) -> Result<bool, Error> {
    let mut found: Vec<T> = Vec::new();
    let is_told = T::fill(scene, from, &mut found)?;
    items.clear();
    items.extend(found.into_iter().map(Into::into));
    Ok(is_told)
}
