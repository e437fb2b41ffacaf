//! Systems: what an advance does with each row that a filter matches (docs/MODEL.md, "The rule of systems").
use crate::call::call;
use crate::entity::Entity;
use crate::error::{Error, Refusal};
use crate::fault::Fault;
use crate::json;
use crate::kind::{Filter, Kind, KindSet};
use crate::scene::Scene;
use crate::value::Value;
use scene_sys as raw;

/// A step of a system, which is done for each row. A system has 1 to 16.
///
/// ```
/// # use scene::{Error, Filter, Scene, Shape, Step};
/// # let mut scene = Scene::new()?;
/// let at = scene.declare("At", Shape::Vec3)?;
/// let speed = scene.declare("Speed", Shape::Vec3)?;
/// let cat = scene.spawn(&[at.of([0, 0, 0]), speed.of([1, 0, -1])])?;
/// scene.system("move", Filter::need(&[at, speed]), &[Step::AddVec { to: at, by: speed }])?;
/// scene.advance()?;
/// assert_eq!(scene.get::<[i64; 3]>(cat, at)?, [1, 0, -1]);
/// # Ok::<(), Error>(())
/// ```
#[derive(Clone, Debug, PartialEq, Eq)]
#[non_exhaustive]
pub enum Step {
    /// Adds the vector of one kind to that of another, coordinate by coordinate.
    AddVec {
        /// The kind that is written.
        to: Kind,
        /// The kind that is read.
        by: Kind,
    },
    /// Adds a number to the integer of a kind.
    AddInt {
        /// The kind that is written.
        to: Kind,
        /// What is added.
        by: i64,
    },
    /// Despawns the entity and all below it where the integer of a kind is 0 behind the steps that write.
    DespawnAtZero(Kind),
    /// Spawns a child of the row's entity, with these components.
    SpawnChild(Vec<(Kind, Value)>),
    /// Puts the number of rows, as an integer, into the resource of a name.
    CountInto(String),
}

/// Systems.
impl Scene {
    /// Adds an empty phase: the systems that follow are done behind those before.
    ///
    /// ```
    /// # use scene::{Error, Filter, Scene, Shape, Step};
    /// # let mut scene = Scene::new()?;
    /// let health = scene.declare("Health", Shape::Int)?;
    /// let cat = scene.spawn(&[health.of(1)])?;
    /// scene.system("hurt", Filter::need(&[health]), &[Step::AddInt { to: health, by: -1 }])?;
    /// scene.phase()?;
    /// scene.system("die", Filter::need(&[health]), &[Step::DespawnAtZero(health)])?;
    /// scene.advance()?;
    /// assert!(!scene.is_alive(cat)?);
    /// # Ok::<(), Error>(())
    /// ```
    ///
    /// # Errors
    ///
    /// [`Error::Bad`] in a frame that a line opened; [`Error::NoMemory`].
    pub fn phase(&mut self) -> Result<(), Error> {
        call!(self, scene_phase)
    }

    /// Adds a system to the last phase, and makes a phase where there is none.
    ///
    /// # Errors
    ///
    /// [`Error::Refused`] with NoSuchKind for a kind of another scene; [`Error::Bad`] in a frame that a line opened;
    /// [`Error::NoMemory`]. Rules that it breaks the [`advance`](Scene::advance) tells.
    pub fn system(&mut self, name: &str, filter: Filter, steps: &[Step]) -> Result<(), Error> {
        let steps: Vec<String> = steps.iter().map(|step| self.step(step)).collect::<Result<_, _>>()?;
        let request = format!(
            "{{\"do\":\"system\",\"name\":{},\"need\":{},\"without\":{},\"steps\":{}}}",
            json::text(name),
            self.names(filter.need)?,
            self.names(filter.without)?,
            json::list(steps)
        );
        self.request(&request).map(drop)
    }

    /// Drops all phases with their systems.
    ///
    /// ```
    /// # use scene::{Error, Filter, Scene, Shape, Step};
    /// # let mut scene = Scene::new()?;
    /// scene.system("count", Filter::all(), &[Step::CountInto("count".to_owned())])?;
    /// scene.clear_systems()?;
    /// scene.advance()?;
    /// assert!(scene.resources()?.is_empty());
    /// # Ok::<(), Error>(())
    /// ```
    ///
    /// # Errors
    ///
    /// As those of [`phase`](Scene::phase).
    pub fn clear_systems(&mut self) -> Result<(), Error> {
        call!(self, scene_clear_systems)
    }

    /// Whether [`advance`](Scene::advance) would take the systems that there are. It is asked in the setup too, changes
    /// nothing, and leaves the last answer.
    ///
    /// ```
    /// # use scene::{Error, Filter, Scene, Shape, Step};
    /// # let mut scene = Scene::new()?;
    /// let health = scene.declare("Health", Shape::Int)?;
    /// let hurt = [Step::AddInt { to: health, by: -1 }];
    /// scene.system("hurt", Filter::need(&[health]), &hurt)?;
    /// scene.check_systems()?;
    /// scene.system("age", Filter::need(&[health]), &hurt)?;
    /// assert_eq!(scene.check_systems().unwrap_err().to_string(), "refused 21 Conflict");
    /// # Ok::<(), Error>(())
    /// ```
    ///
    /// # Errors
    ///
    /// [`Error::Refused`] with BadRule where a system breaks a rule, or with Conflict where two of a phase don't go
    /// together; which ones, the fields of an `advance` tell. [`Error::NoMemory`], as it copies the systems.
    pub fn check_systems(&self) -> Result<(), Error> {
        let mut why = raw::scene_refusal::default();
        // SAFETY: as in `call!`; `why` is lent for the call.
        let is_good = self.look(|handle| unsafe { raw::scene_check_systems(handle, &mut why) })?;
        if is_good { Ok(()) } else { Err(Refusal::of_raw(why, "").into()) }
    }

    /// Does what the systems say, as one frame, and gives the entities that it spawned, in order.
    ///
    /// ```
    /// # use scene::{Error, Filter, Scene, Shape, Step};
    /// # let mut scene = Scene::new()?;
    /// let nest = scene.declare("Nest", Shape::Tag)?;
    /// let egg = scene.declare("Egg", Shape::Int)?;
    /// let tree = scene.spawn(&[nest.of(())])?;
    /// scene.system("lay", Filter::need(&[nest]), &[Step::SpawnChild(vec![egg.of(3)])])?;
    /// let laid = scene.advance()?;
    /// assert_eq!(scene.children_of(tree)?, laid);
    /// scene.undo()?;
    /// assert!(!scene.is_alive(laid[0])?);
    /// # Ok::<(), Error>(())
    /// ```
    ///
    /// # Errors
    ///
    /// [`Error::Refused`] with BadRule or Conflict, which is no call, with the phase and the systems as its fields; and
    /// by docs/MODEL.md, as with Overflow, with the entity as its field. Nothing is done then. [`Error::Bad`] in a
    /// frame that a line opened.
    pub fn advance(&mut self) -> Result<Vec<Entity>, Error> {
        call!(self, scene_advance)?;
        Ok(self.all_made())
    }

    /// The names of kinds, as a list.
    fn names(&self, kinds: KindSet) -> Result<String, Error> {
        let names: Result<Vec<String>, Error> = kinds.kinds().map(|kind| self.name_of(kind)).collect();
        Ok(json::list(names?.iter().map(|name| json::text(name))))
    }

    fn name_of(&self, kind: Kind) -> Result<String, Error> {
        let (name, _) = self.kind_told(kind).ok_or(Error::from(Fault::NoSuchKind))?;
        Ok(name)
    }

    /// A step, as a request has it.
    fn step(&self, step: &Step) -> Result<String, Error> {
        let entry = |key: &str, value: String| (key.to_owned(), value);
        let name = |kind: &Kind| self.name_of(*kind).map(|name| json::text(&name));
        let (word, entries) = match step {
            Step::AddVec { to, by } => ("addvec", vec![entry("to", name(to)?), entry("by", name(by)?)]),
            Step::AddInt { to, by } => ("addint", vec![entry("to", name(to)?), entry("by", by.to_string())]),
            Step::DespawnAtZero(kind) => ("zero", vec![entry("kind", name(kind)?)]),
            Step::CountInto(resource) => ("count", vec![entry("name", json::text(resource))]),
            Step::SpawnChild(cells) => {
                let cell = |(kind, value): &(Kind, Value)| Ok((self.name_of(*kind)?, json::value(value)));
                let cells: Result<Vec<_>, Error> = cells.iter().map(cell).collect();
                ("child", vec![entry("cells", json::object(cells?))])
            }
        };
        Ok(json::object([entry("step", json::text(word))].into_iter().chain(entries)))
    }
}
