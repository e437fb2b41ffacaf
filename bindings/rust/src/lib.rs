//! Scenes for Rust: a world of entities and components whose every change can be taken back.
//!
//! This is plain Rust over the C library of Scene (`include/scene.h`), which is proved; this crate isn't. What a call
//! does and when it is refused, docs/MODEL.md says; what a line does, docs/SCRIPTS.md.
//!
//! ```
//! use scene::{Error, Scene, Shape};
//!
//! let mut scene = Scene::new()?;
//! let name = scene.declare("Name", Shape::Text)?;
//! let health = scene.declare("Health", Shape::Int)?;
//!
//! // A frame is done whole or not at all, and undone whole.
//! let mut frame = scene.frame();
//! let cat = frame.spawn(&[name.of("cat"), health.of(9)]);
//! let kitten = frame.spawn(&[name.of("kitten")]);
//! frame.set_parent(kitten, cat);
//! let made = frame.commit()?;
//!
//! // Outside a frame, a command is a frame by itself.
//! scene.insert(made[0], health, 5)?;
//! scene.undo()?;
//! assert_eq!(scene.get::<i64>(made[0], health)?, 9);
//!
//! // A query reads columns.
//! for (entity, (name, health)) in scene.query::<(String, i64)>([name, health])?.with_entities() {
//!     println!("{entity} is {name}, with {health}");
//! }
//! # Ok::<(), Error>(())
//! ```
//!
//! A view follows by deltas alone, through undo and redo too: behind a frame, an advance or a redo by those of
//! [`Scene::past_step`], and behind an undo by those of [`Scene::future_step`], [`undone`](FrameStep::undone). They
//! tell all that was done but for ticks: components, texts and resources with their values, places, parents
//! ([`FrameStep`] shows a view). Or it keeps a [`Moment`], and asks by [`Scene::changed_since`] what was written since,
//! until an undo.
//!
//! A [`Scene`] may go to another thread, and is with one at a time: it is `Send`, and not `Sync`. Several threads read
//! one at once that [`Scene::share`] has made a [`SharedScene`], each by a clone of its own.
//!
//! The library is found by the variable `SCENE_LIB_DIR` when a program is built: the folder that `./scene library
//! FOLDER` made. Without it `cargo doc` and `cargo check` do their work, and `cargo build` says what is missing.

mod call;
mod columns;
mod commands;
mod component;
mod deltas;
mod entity;
mod error;
mod fault;
mod following;
mod frame;
mod frame_steps;
mod json;
mod kind;
mod lines;
mod points;
mod query;
mod resources;
mod rows;
mod scene;
mod sharing;
mod steps;
mod systems;
mod value;

pub use columns::{Table, Ticks};
pub use component::Component;
pub use deltas::{ChildPlace, Delta};
pub use entity::{Entity, New, NoEntity, Target};
pub use error::{Error, Place, Refusal};
pub use fault::Fault;
pub use following::{Changed, Moment};
pub use frame::Frame;
pub use frame_steps::FrameStep;
pub use kind::{Filter, Kind, KindSet};
pub use lines::{Answer, Outcome};
pub use query::{Found, FoundEntities, Query};
pub use resources::Resource;
pub use rows::{Cell, Row, Rows};
pub use scene::{Scene, Status, version};
pub use sharing::{NotShared, SharedScene};
pub use systems::Step;
pub use value::{NoShape, Shape, Value};

/// The README's program is tried as a test.
#[cfg(doctest)]
#[doc = include_str!("../README.md")]
struct Readme;
