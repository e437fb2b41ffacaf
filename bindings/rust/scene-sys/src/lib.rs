//! The calls of `include/scene.h`, as it declares them: raw, for the crate `scene`, or for who needs what that hasn't.
//!
//! What each call does, when it may be made and what it asks of its pointers, the header says; who makes one promises
//! that. `try_scene` compares each declaration here with the header's.
//!
//! The library is found by the variable `SCENE_LIB_DIR`: the folder that `./scene library FOLDER` made. Without it
//! `cargo doc` and `cargo check` do their work, with a warning, and only what is linked ends with an error.
#![no_std]
#![allow(non_camel_case_types)]

use core::marker::{PhantomData, PhantomPinned};

/// What a `scene *` points to. It is the library's, and has no form here.
#[repr(C)]
pub struct scene {
    bytes: [u8; 0],
    is_the_librarys: PhantomData<(*mut u8, PhantomPinned)>,
}

/// What a call came to.
pub type scene_code = u32;

/// The version of the header, as [`scene_version`] gives that of the library.
pub const SCENE_VERSION: u32 = 200;

/// Done; or a question, answered.
pub const SCENE_DONE: scene_code = 0;
/// Memory was wanting, and nothing was done.
pub const SCENE_NO_MEMORY: scene_code = 1;
/// The pointer is null.
pub const SCENE_CLOSED: scene_code = 2;
/// Refused, by the rules of the world.
pub const SCENE_REFUSED: scene_code = 3;
/// There is no such call here, or its arguments name nothing.
pub const SCENE_BAD: scene_code = 4;
/// Answered, but memory was wanting for the text alone.
pub const SCENE_UNTOLD: scene_code = 5;
/// Memory was wanting, and what the setup had is lost.
pub const SCENE_LOST: scene_code = 6;
/// The scene is shared, and the call would have changed it or its last answer.
pub const SCENE_SHARED: scene_code = 7;

/// The shape of components without a value.
pub const SCENE_TAG: u32 = 0;
/// The shape of whole numbers: x.
pub const SCENE_INT: u32 = 1;
/// The shape of vectors: x, y and z.
pub const SCENE_VEC3: u32 = 2;
/// The shape of texts, which come apart.
pub const SCENE_TEXT: u32 = 3;
/// The shape of entities: x is the index, y the generation.
pub const SCENE_LINK: u32 = 4;
/// No component, of [`scene_gather`] and [`scene_step`].
pub const SCENE_ABSENT: u32 = 5;

/// The way of [`scene_step`] along the frames that can be undone, from the newest.
pub const SCENE_BACK: u32 = 0;
/// The way along those that can be redone, from the next.
pub const SCENE_ON: u32 = 1;

/// A delta by which the entity came, with the components that [`scene_delta_rows`] tells.
pub const SCENE_SPAWNED: u32 = 0;
/// One by which it went with these, from its parent too.
pub const SCENE_DESPAWNED: u32 = 1;
/// One by which a component came or went.
pub const SCENE_SHIFTED: u32 = 2;
/// One by which a component was written.
pub const SCENE_SET: u32 = 3;
/// One by which the parent is another, or the place among its children.
pub const SCENE_LINKED: u32 = 4;
/// One by which a resource came, went or was written.
pub const SCENE_RESOURCE: u32 = 5;

/// An entity: with generation 0 it is, in a command, a spawn of the open frame.
#[repr(C)]
#[derive(Clone, Copy, Debug, PartialEq, Eq)]
pub struct scene_entity {
    /// The index, from 0.
    pub index: u32,
    /// The generation, from 1.
    pub generation: u32,
}

/// What no entity ever is.
pub const SCENE_NONE: scene_entity = scene_entity { index: u32::MAX, generation: u32::MAX };

/// A component: its kind, its shape and its numbers.
#[repr(C)]
#[derive(Clone, Copy, Debug, Default, PartialEq, Eq)]
pub struct scene_cell {
    /// The kind, from 0.
    pub kind: u32,
    /// The shape, as [`SCENE_INT`].
    pub shape: u32,
    /// The first number.
    pub x: i64,
    /// The second.
    pub y: i64,
    /// The third.
    pub z: i64,
}

/// A component by its entity and its kind.
#[repr(C)]
#[derive(Clone, Copy, Debug)]
pub struct scene_name {
    /// The entity.
    pub entity: scene_entity,
    /// The kind.
    pub kind: u32,
}

/// Why a call was refused.
#[repr(C)]
#[derive(Clone, Copy, Debug, Default)]
pub struct scene_refusal {
    /// The number of the fault.
    pub fault: u32,
    /// 1 where the fault has a place, else 0.
    pub has_place: u32,
    /// The phase of the place.
    pub phase: u32,
    /// The queue in it.
    pub queue: u32,
    /// The command in that.
    pub command: u32,
}

/// The numbers of a scene.
#[repr(C)]
#[derive(Clone, Copy, Debug, Default)]
pub struct scene_info {
    /// How many frames there were.
    pub tick: u64,
    /// How many undos there were.
    pub rewinds: u64,
    /// How many frames can be undone.
    pub undo: u64,
    /// How many can be redone.
    pub redo: u64,
    /// How many indices were used.
    pub slots: u32,
    /// How many can be.
    pub limit: u32,
    /// How many kinds there are.
    pub kinds: u32,
    /// Of how many frames a record is kept.
    pub depth: u32,
    /// 1 where a frame is open, else 0.
    pub in_frame: u32,
}

/// A kind set that some entities have, and how many.
#[repr(C)]
#[derive(Clone, Copy, Debug, Default)]
pub struct scene_table {
    /// The kinds: kind k is bit k.
    pub mask: u64,
    /// How many entities have just these.
    pub rows: u64,
}

/// A vector.
#[repr(C)]
#[derive(Clone, Copy, Debug, Default)]
pub struct scene_vec3 {
    /// The first number.
    pub x: i64,
    /// The second.
    pub y: i64,
    /// The third.
    pub z: i64,
}

/// The ticks at which a component was added and last changed.
#[repr(C)]
#[derive(Clone, Copy, Debug, Default)]
pub struct scene_tick_pair {
    /// When it was added.
    pub added: u64,
    /// When it was last changed.
    pub changed: u64,
}

/// A moment, of which is asked later what was written since.
#[repr(C)]
#[derive(Clone, Copy, Debug, Default)]
pub struct scene_moment {
    /// How many undos there were.
    pub rewinds: u64,
    /// How many frames there were.
    pub tick: u64,
}

/// A delta of a frame.
#[repr(C)]
#[derive(Clone, Copy, Debug)]
pub struct scene_delta {
    /// What it did, as [`SCENE_SPAWNED`].
    pub change: u32,
    /// The entity, or [`SCENE_NONE`] where it is about a resource.
    pub entity: scene_entity,
    /// The place of the row in the table that it left, where it left one.
    pub place: u32,
    /// The component or resource before, of the shape [`SCENE_ABSENT`] where there was none; a text comes apart.
    pub before: scene_cell,
    /// The component or resource behind it.
    pub after: scene_cell,
    /// The parent before, or [`SCENE_NONE`],
    pub parent_before: scene_entity,
    /// and the place among its children, counted without the entity.
    pub place_before: u32,
    /// The parent behind it,
    pub parent_after: scene_entity,
    /// and the place there.
    pub place_after: u32,
}

mod calls;
pub use calls::*;
