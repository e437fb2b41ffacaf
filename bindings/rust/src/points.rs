//! Reading what one entity has: its components, its kinds, its parent and its children.
use crate::call::told;
use crate::columns::Ticks;
use crate::component::Component;
use crate::entity::Entity;
use crate::error::Error;
use crate::fault::Fault;
use crate::kind::{Kind, KindSet};
use crate::rows::Cell;
use crate::scene::Scene;
use crate::value::Value;
use scene_sys as raw;

/// Of one entity.
impl Scene {
    /// A component, by its type.
    ///
    /// ```
    /// # use scene::{Error, Scene, Shape, Value};
    /// # let mut scene = Scene::new()?;
    /// let health = scene.declare("Health", Shape::Int)?;
    /// let name = scene.declare("Name", Shape::Text)?;
    /// let cat = scene.spawn(&[health.of(9)])?;
    /// assert_eq!(scene.get::<i64>(cat, health)?, 9);
    /// assert_eq!(scene.get::<Value>(cat, health)?, Value::Int(9));
    /// assert_eq!(scene.get::<String>(cat, name).unwrap_err().to_string(), "refused 3 NotPresent");
    /// # Ok::<(), Error>(())
    /// ```
    ///
    /// # Errors
    ///
    /// [`Error::Refused`] with NoSuchEntity, NoSuchKind, NotPresent, or WrongShape where the component isn't of the
    /// type's shape.
    pub fn get<T: Component>(&self, entity: Entity, kind: Kind) -> Result<T, Error> {
        let (cell, _) = self.read(entity, kind)?;
        self.component_of(entity, kind, &cell)
    }

    /// A component with its ticks.
    ///
    /// ```
    /// # use scene::{Cell, Error, Scene, Shape, Value};
    /// # let mut scene = Scene::new()?;
    /// let health = scene.declare("Health", Shape::Int)?;
    /// let cat = scene.spawn(&[health.of(9)])?;
    /// scene.insert(cat, health, 5)?;
    /// let wanted = Cell { kind: health, value: Value::Int(5), added: 1, changed: 2 };
    /// assert_eq!(scene.cell(cat, health)?, wanted);
    /// # Ok::<(), Error>(())
    /// ```
    ///
    /// # Errors
    ///
    /// [`Error::Refused`] with NoSuchEntity, NoSuchKind or NotPresent.
    pub fn cell(&self, entity: Entity, kind: Kind) -> Result<Cell, Error> {
        let (cell, Ticks { added, changed }) = self.read(entity, kind)?;
        Ok(Cell { kind, value: self.component_of(entity, kind, &cell)?, added, changed })
    }

    /// The components of a kind that some entities have, in the order of these, and `None` where there is none, as
    /// where the entity isn't alive.
    ///
    /// ```
    /// # use scene::{Error, Scene, Shape};
    /// # let mut scene = Scene::new()?;
    /// let health = scene.declare("Health", Shape::Int)?;
    /// let (cat, lamp) = (scene.spawn(&[health.of(9)])?, scene.spawn(&[])?);
    /// assert_eq!(scene.gather::<i64>(&[lamp, cat, cat], health)?, [None, Some(9), Some(9)]);
    /// # Ok::<(), Error>(())
    /// ```
    ///
    /// # Errors
    ///
    /// [`Error::Refused`] with NoSuchKind, or WrongShape where the kind isn't of the type's shape.
    pub fn gather<T: Component>(&self, entities: &[Entity], kind: Kind) -> Result<Vec<Option<T>>, Error> {
        self.fits::<T>(kind)?;
        let mut cells = vec![raw::scene_cell::default(); entities.len()];
        let (asked, count, room) = (entities.as_ptr().cast(), entities.len(), cells.len());
        let at = cells.as_mut_ptr();
        // SAFETY: as in `call!`; an entity has the form of the header's, and there is room for a cell of each.
        let is_told =
            self.look(|handle| unsafe { raw::scene_gather(handle, asked, count, kind.0.into(), at, room) })?;
        told(is_told.then_some(()))?;
        let shown = |(entity, cell): (&Entity, &raw::scene_cell)| match cell.shape {
            raw::SCENE_ABSENT => Ok(None),
            _ => self.component_of(*entity, kind, cell).map(Some),
        };
        entities.iter().zip(&cells).map(shown).collect()
    }

    /// Whether an entity is alive.
    ///
    /// ```
    /// # use scene::{Error, Scene};
    /// # let mut scene = Scene::new()?;
    /// let cat = scene.spawn(&[])?;
    /// assert!(scene.is_alive(cat)?);
    /// scene.undo()?;
    /// assert!(!scene.is_alive(cat)?);
    /// # Ok::<(), Error>(())
    /// ```
    ///
    /// # Errors
    ///
    /// As those of [`status`](Scene::status).
    pub fn is_alive(&self, entity: Entity) -> Result<bool, Error> {
        let mut is_alive = 0;
        // SAFETY: as in `call!`; `is_alive` is lent for the call.
        let is_told = self.look(|handle| unsafe { raw::scene_is_alive(handle, entity.to_raw(), &mut is_alive) })?;
        told(is_told.then_some(is_alive != 0))
    }

    /// The kinds of the components that an entity has.
    ///
    /// ```
    /// # use scene::{Error, Scene, Shape};
    /// # let mut scene = Scene::new()?;
    /// let hidden = scene.declare("Hidden", Shape::Tag)?;
    /// let cat = scene.spawn(&[hidden.of(())])?;
    /// assert!(scene.kinds_of(cat)?.contains(hidden));
    /// # Ok::<(), Error>(())
    /// ```
    ///
    /// # Errors
    ///
    /// [`Error::Refused`] with NoSuchEntity.
    pub fn kinds_of(&self, entity: Entity) -> Result<KindSet, Error> {
        let mut mask = 0;
        // SAFETY: as in `call!`; `mask` is lent for the call.
        let is_told = self.look(|handle| unsafe { raw::scene_mask(handle, entity.to_raw(), &mut mask) })?;
        if is_told { Ok(KindSet::of_bits(mask)) } else { Err(Fault::NoSuchEntity.into()) }
    }

    /// The children of an entity, in their order; none where it isn't alive.
    ///
    /// ```
    /// # use scene::{Error, Scene};
    /// # let mut scene = Scene::new()?;
    /// let (cat, kitten) = (scene.spawn(&[])?, scene.spawn(&[])?);
    /// scene.set_parent(kitten, cat)?;
    /// assert_eq!(scene.children_of(cat)?, [kitten]);
    /// assert_eq!((scene.parent_of(kitten)?, scene.parent_of(cat)?), (Some(cat), None));
    /// assert_eq!(scene.roots()?, [cat]);
    /// # Ok::<(), Error>(())
    /// ```
    ///
    /// # Errors
    ///
    /// As those of [`status`](Scene::status).
    pub fn children_of(&self, entity: Entity) -> Result<Vec<Entity>, Error> {
        let entity = entity.to_raw();
        // SAFETY: as in `list`; an entity has the form of the header's.
        told(self.list(Entity::NONE, |handle, at, room, total| unsafe {
            raw::scene_children(handle, entity, 0, at.cast(), room, total)
        })?)
    }

    /// The parent of an entity, if it has one; none where it isn't alive.
    ///
    /// # Errors
    ///
    /// As those of [`status`](Scene::status).
    pub fn parent_of(&self, entity: Entity) -> Result<Option<Entity>, Error> {
        let mut found = raw::SCENE_NONE;
        // SAFETY: as in `call!`; `found` is lent for the call.
        let is_told = self.look(|handle| unsafe { raw::scene_parent(handle, entity.to_raw(), &mut found) })?;
        told(is_told.then_some((found != raw::SCENE_NONE).then(|| Entity::of_raw(found))))
    }

    /// The entities that have no parent, by their index. Each index is looked at for it.
    ///
    /// # Errors
    ///
    /// [`Error::NoMemory`].
    pub fn roots(&self) -> Result<Vec<Entity>, Error> {
        // SAFETY: as in `list`; an entity has the form of the header's.
        told(self.list(Entity::NONE, |handle, at, room, total| unsafe {
            raw::scene_roots(handle, 0, at.cast(), room, total)
        })?)
    }

    /// A component but for a text, and its ticks.
    fn read(&self, entity: Entity, kind: Kind) -> Result<(raw::scene_cell, Ticks), Error> {
        let mut cell = raw::scene_cell::default();
        let mut ticks = raw::scene_tick_pair::default();
        // SAFETY: as in `call!`; `cell` and `ticks` are lent for the call.
        let is_told = self
            .look(|handle| unsafe { raw::scene_read(handle, entity.to_raw(), kind.0.into(), &mut cell, &mut ticks) })?;
        if !is_told {
            return Err(self.lacks(entity, kind));
        }
        Ok((cell, Ticks { added: ticks.added, changed: ticks.changed }))
    }

    /// Why an entity hasn't a component, in the order of docs/MODEL.md.
    fn lacks(&self, entity: Entity, kind: Kind) -> Error {
        match self.is_alive(entity) {
            Err(error) => error,
            Ok(false) => Fault::NoSuchEntity.into(),
            Ok(true) if self.shape_of(kind).is_none() => Fault::NoSuchKind.into(),
            Ok(true) => Fault::NotPresent.into(),
        }
    }

    /// The text that a component is; `None` where it is none.
    pub(crate) fn text_at(&self, entity: Entity, kind: Kind) -> Result<Option<String>, Error> {
        let entity = entity.to_raw();
        // SAFETY: as in `list`.
        self.told_text(|handle, at, room, total| unsafe {
            raw::scene_read_text(handle, entity, kind.0.into(), 0, at, room, total)
        })
    }

    /// What a cell of an entity is by a type.
    fn component_of<T: Component>(&self, entity: Entity, kind: Kind, cell: &raw::scene_cell) -> Result<T, Error> {
        let text = if cell.shape == raw::SCENE_TEXT { told(self.text_at(entity, kind)?)? } else { String::new() };
        T::of_value(Value::of_cell(cell, text)).ok_or(Fault::WrongShape.into())
    }
}

#[cfg(test)]
mod tests {
    use super::*;
    use crate::call::call;
    use crate::value::Shape;

    /// A component by the call that the library answers with a refusal, or its value's.
    fn asked(scene: &mut Scene, entity: Entity, kind: Kind) -> Result<i64, Error> {
        let mut cell = raw::scene_cell::default();
        call!(scene, scene_get, entity.to_raw(), kind.0.into(), &mut cell)?;
        Ok(cell.x)
    }

    #[test]
    fn a_read_is_refused_as_a_call_is() {
        let mut scene = Scene::new().unwrap();
        let health = scene.declare("Health", Shape::Int).unwrap();
        let armor = scene.declare("Armor", Shape::Int).unwrap();
        let cat = scene.spawn(&[health.of(9)]).unwrap();
        let dog = scene.spawn(&[]).unwrap();
        scene.despawn(dog).unwrap();
        let kinds = [health, armor, Kind(2), Kind(63), Kind(64), Kind(255)];
        let entities = [cat, dog, Entity::NONE, Entity { index: 0, generation: 0 }, Entity { index: 1, generation: 2 }];
        for (entity, kind) in entities.into_iter().flat_map(|entity| kinds.map(|kind| (entity, kind))) {
            assert_eq!(scene.get(entity, kind), asked(&mut scene, entity, kind), "{entity}, {kind:?}");
        }
    }
}
