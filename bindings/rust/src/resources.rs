//! Reading resources.
use crate::component::Component;
use crate::error::Error;
use crate::fault::Fault;
use crate::scene::Scene;
use crate::value::Value;
use scene_sys as raw;

/// A resource with its ticks: those of the frames that put it first, and that wrote it last.
///
/// ```
/// # use scene::{Error, Resource, Scene, Value};
/// let mut scene = Scene::new()?;
/// scene.put("score", 5)?;
/// scene.put("score", 6)?;
/// let wanted = Resource { name: "score".to_owned(), value: Value::Int(6), added: 1, changed: 2 };
/// assert_eq!(scene.resources()?, [wanted]);
/// # Ok::<(), Error>(())
/// ```
#[derive(Clone, Debug, PartialEq, Eq)]
pub struct Resource {
    /// Its name.
    pub name: String,
    /// Its value.
    pub value: Value,
    /// The tick at which it was put first.
    pub added: u64,
    /// The tick at which it was last written.
    pub changed: u64,
}

/// Resources.
impl Scene {
    /// A resource, by its name and its type.
    ///
    /// ```
    /// # use scene::{Error, Scene, Value};
    /// # let mut scene = Scene::new()?;
    /// scene.put("wind", [1, 0, -1])?;
    /// assert_eq!(scene.resource::<[i64; 3]>("wind")?, [1, 0, -1]);
    /// assert_eq!(scene.resource::<Value>("wind")?, Value::Vec3([1, 0, -1]));
    /// # Ok::<(), Error>(())
    /// ```
    ///
    /// # Errors
    ///
    /// [`Error::Refused`] with NoSuchResource, or with WrongShape where it isn't of the type's shape.
    pub fn resource<T: Component>(&self, name: &str) -> Result<T, Error> {
        let (value, _) = self.resource_told(name)?;
        T::of_value(value).ok_or(Fault::WrongShape.into())
    }

    /// A resource with its ticks, by its name.
    ///
    /// ```
    /// # use scene::{Error, Scene};
    /// # let mut scene = Scene::new()?;
    /// scene.put("score", 5)?;
    /// scene.spawn(&[])?;
    /// assert_eq!(scene.resource_with_ticks("score")?.changed, 1);
    /// # Ok::<(), Error>(())
    /// ```
    ///
    /// # Errors
    ///
    /// [`Error::Refused`] with NoSuchResource.
    pub fn resource_with_ticks(&self, name: &str) -> Result<Resource, Error> {
        let (value, ticks) = self.resource_told(name)?;
        Ok(Resource { name: name.to_owned(), value, added: ticks.added, changed: ticks.changed })
    }

    /// The resources, in the order of their names' bytes.
    ///
    /// # Errors
    ///
    /// [`Error::NoMemory`].
    pub fn resources(&self) -> Result<Vec<Resource>, Error> {
        let mut resources = Vec::new();
        while let Some(name) = self.resource_name(resources.len())? {
            resources.push(self.resource_with_ticks(&name)?);
        }
        Ok(resources)
    }

    /// The name of a resource, by its place; `None` behind the last one.
    fn resource_name(&self, place: usize) -> Result<Option<String>, Error> {
        // SAFETY: as in `list`.
        self.told_text(|handle, at, room, total| unsafe { raw::scene_resources(handle, place, 0, at, room, total) })
    }

    /// The value of a resource, and its ticks.
    fn resource_told(&self, name: &str) -> Result<(Value, raw::scene_tick_pair), Error> {
        let mut cell = raw::scene_cell::default();
        let mut ticks = raw::scene_tick_pair::default();
        let (bytes, length) = (name.as_ptr(), name.len());
        // SAFETY: as in `call!`; the name, `cell` and `ticks` are lent for the call.
        let is_told =
            self.look(|handle| unsafe { raw::scene_resource(handle, bytes, length, &mut cell, &mut ticks) })?;
        if !is_told {
            return Err(Fault::NoSuchResource.into());
        }
        // SAFETY: as in `list`; the name is lent for the call.
        let text = self.told_text(|handle, at, room, total| unsafe {
            raw::scene_resource_text(handle, bytes, length, 0, at, room, total)
        })?;
        Ok((Value::of_cell(&cell, text.unwrap_or_default()), ticks))
    }
}
