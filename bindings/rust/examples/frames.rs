//! An engine's loop: 10,000 entities in a hierarchy, drawn by columns in each frame, with a view that follows by the
//! deltas of each frame, undo and redo alone, and is compared whole with the scene after each of 1,000 random steps.
//!
//! To draw is to sum here. The last lines say how many steps of each sort there were, and what was drawn. The status is
//! 0, and 1 where the view or the loaded scene differs, which is then said.
use scene::{Delta, Entity, Error, Filter, Frame, Kind, Scene, Shape, Step, Value};
use std::collections::BTreeMap;
use std::fmt;
use std::process::ExitCode;

const COUNT: usize = 10_000;
const FAN: usize = 10;
const STEPS: usize = 1_000;

/// Why the loop ends early.
enum Stop {
    Scene(Error),
    Differs(String),
}

impl From<Error> for Stop {
    fn from(error: Error) -> Stop {
        Stop::Scene(error)
    }
}

impl fmt::Display for Stop {
    fn fmt(&self, f: &mut fmt::Formatter<'_>) -> fmt::Result {
        match self {
            Stop::Scene(error) => error.fmt(f),
            Stop::Differs(what) => write!(f, "{what} differs"),
        }
    }
}

/// Random numbers that follow from a seed.
struct Chance(u64);

impl Chance {
    fn below(&mut self, limit: usize) -> usize {
        self.0 = self.0.wrapping_mul(6_364_136_223_846_793_005).wrapping_add(1_442_695_040_888_963_407);
        (self.0 >> 33) as usize % limit
    }

    fn place(&mut self) -> [i64; 3] {
        [0; 3].map(|_| self.below(2_000) as i64 - 1_000)
    }

    fn one_of(&mut self, entities: &[Entity]) -> Entity {
        entities[self.below(entities.len())]
    }
}

#[derive(Clone, Copy)]
struct Kinds {
    life: Kind,
    at: Kind,
    speed: Kind,
}

/// What a view keeps of an entity.
#[derive(Clone, Copy, PartialEq)]
struct Thing {
    entity: Entity,
    life: i64,
    at: Option<[i64; 3]>,
    parent: Option<Entity>,
}

impl Thing {
    /// A component is another now. A speed isn't drawn.
    fn write(&mut self, kinds: Kinds, kind: Kind, after: Option<Value>) {
        match after {
            Some(Value::Int(life)) if kind == kinds.life => self.life = life,
            Some(Value::Vec3(at)) if kind == kinds.at => self.at = Some(at),
            None if kind == kinds.at => self.at = None,
            _ => {}
        }
    }
}

/// What is drawn of a thing.
fn drawn(entity: Entity, life: i64, at: [i64; 3]) -> i64 {
    let [x, y, z] = at;
    let sum = life.wrapping_mul(31).wrapping_add(x.wrapping_mul(7)).wrapping_add(y.wrapping_mul(5)).wrapping_add(z);
    sum.wrapping_mul(i64::from(entity.index) + 1)
}

/// Draws the scene by columns.
fn draw(scene: &Scene, kinds: Kinds) -> Result<i64, Error> {
    let rows = scene.query::<(i64, [i64; 3])>([kinds.life, kinds.at])?.with_entities();
    Ok(rows.fold(0, |sum, (entity, (life, at))| sum.wrapping_add(drawn(entity, life, at))))
}

/// A view: a copy of the scene by index, with its resources.
struct View {
    things: Vec<Option<Thing>>,
    resources: BTreeMap<String, Value>,
    followed: usize,
}

impl View {
    /// Reads all.
    fn new(scene: &Scene, kinds: Kinds) -> Result<View, Error> {
        let mut view = View { things: Vec::new(), resources: resources(scene)?, followed: 0 };
        let entities = alive(scene, kinds)?;
        let (lives, places) = (scene.gather(&entities, kinds.life)?, scene.gather(&entities, kinds.at)?);
        for ((entity, life), at) in entities.into_iter().zip(lives).zip(places) {
            view.come(Thing { entity, life: life.unwrap_or(0), at, parent: scene.parent_of(entity)? });
        }
        Ok(view)
    }

    /// Follows deltas. It reads nothing of the scene.
    fn follow(&mut self, kinds: Kinds, deltas: Vec<Delta>) -> Result<(), Stop> {
        self.followed += deltas.len();
        deltas.into_iter().try_for_each(|delta| self.follow_one(kinds, delta))
    }

    fn follow_one(&mut self, kinds: Kinds, delta: Delta) -> Result<(), Stop> {
        match delta {
            Delta::Spawned { entity, cells, parent, .. } => {
                let mut thing = Thing { entity, life: 0, at: None, parent: parent.map(|parent| parent.parent) };
                cells.into_iter().for_each(|(kind, value)| thing.write(kinds, kind, Some(value)));
                self.come(thing);
            }
            Delta::Despawned { entity, .. } => {
                self.thing(entity)?;
                self.things[entity.index as usize] = None;
            }
            Delta::Linked { entity, after, .. } => self.thing(entity)?.parent = after.map(|after| after.parent),
            Delta::Set { entity, kind, after, .. } => self.thing(entity)?.write(kinds, kind, Some(after)),
            Delta::Shifted { entity, kind, after, .. } => self.thing(entity)?.write(kinds, kind, after),
            Delta::Resource { name, after: Some(value), .. } => drop(self.resources.insert(name, value)),
            Delta::Resource { name, after: None, .. } => drop(self.resources.remove(&name)),
        }
        Ok(())
    }

    fn come(&mut self, thing: Thing) {
        let place = thing.entity.index as usize;
        if self.things.len() <= place {
            self.things.resize(place + 1, None);
        }
        self.things[place] = Some(thing);
    }

    /// What the view has of an entity.
    fn thing(&mut self, entity: Entity) -> Result<&mut Thing, Stop> {
        let thing = self.things.get_mut(entity.index as usize).and_then(Option::as_mut);
        thing.filter(|thing| thing.entity == entity).ok_or_else(|| Stop::Differs(format!("{entity}")))
    }

    fn draw(&self) -> i64 {
        let placed = self.things.iter().flatten().filter_map(|thing| Some(drawn(thing.entity, thing.life, thing.at?)));
        placed.fold(0, i64::wrapping_add)
    }

    /// Compares the whole view with the scene's columns and its tree, and gives what is drawn.
    fn compare(&self, scene: &Scene, kinds: Kinds) -> Result<i64, Stop> {
        let mut rows = 0;
        for table in scene.tables(Filter::need(&[kinds.life]))? {
            let entities = scene.entities(table.kinds)?;
            let lives: Vec<i64> = scene.column(table.kinds, kinds.life)?;
            let places: Option<Vec<[i64; 3]>> =
                table.kinds.contains(kinds.at).then(|| scene.column(table.kinds, kinds.at)).transpose()?;
            for (row, entity) in entities.into_iter().enumerate() {
                let at = places.as_ref().map(|places| places[row]);
                let thing = Thing { entity, life: lives[row], at, parent: scene.parent_of(entity)? };
                if self.things.get(entity.index as usize) != Some(&Some(thing)) {
                    return Err(Stop::Differs(format!("{entity}")));
                }
            }
            rows += table.rows;
        }
        let sum = draw(scene, kinds)?;
        if rows != self.things.iter().flatten().count() || sum != self.draw() {
            return Err(Stop::Differs(format!("what is drawn of {rows} rows")));
        }
        if self.resources != resources(scene)? {
            return Err(Stop::Differs("a resource".to_owned()));
        }
        Ok(sum)
    }
}

/// The resources of a scene, by name.
fn resources(scene: &Scene) -> Result<BTreeMap<String, Value>, Error> {
    Ok(scene.resources()?.into_iter().map(|resource| (resource.name, resource.value)).collect())
}

/// The deltas of the newest frames, in the order in which they were made.
fn done(scene: &Scene, frames: usize) -> Result<Vec<Delta>, Error> {
    let mut deltas = Vec::new();
    for place in (0..frames).rev() {
        deltas.extend(scene.past_step(place)?.into_iter().flat_map(|step| step.deltas));
    }
    Ok(deltas)
}

/// The deltas by which the newest frames were taken back, in the order in which they were.
fn undone(scene: &Scene, frames: usize) -> Result<Vec<Delta>, Error> {
    let mut deltas = Vec::new();
    for place in (0..frames).rev() {
        deltas.extend(scene.future_step(place)?.into_iter().flat_map(|step| step.undone()));
    }
    Ok(deltas)
}

/// A hierarchy of entities, ten below each, of which two in three move.
fn build(scene: &mut Scene, kinds: Kinds, chance: &mut Chance) -> Result<(), Error> {
    let mut frame = scene.frame();
    let mut made = Vec::new();
    for number in 0..COUNT {
        let mut cells = vec![kinds.life.of(number as i64), kinds.at.of(chance.place())];
        if number % 3 != 0 {
            cells.push(kinds.speed.of(chance.place()));
        }
        let thing = frame.spawn(&cells);
        if number > 0 {
            frame.set_parent(thing, made[(number - 1) / FAN]);
        }
        made.push(thing);
    }
    frame.put("Title", "ten thousand,\n\"all in one\"").put("Gravity", [0, -1, 0]);
    frame.commit()?;
    let moving = Filter::need(&[kinds.at, kinds.speed]);
    scene.system("Move", moving, &[Step::AddVec { to: kinds.at, by: kinds.speed }])?;
    let count = Step::CountInto("Alive".to_owned());
    scene.system("Age", Filter::need(&[kinds.life]), &[Step::AddInt { to: kinds.life, by: -1 }, count])
}

/// The entities that are alive.
fn alive(scene: &Scene, kinds: Kinds) -> Result<Vec<Entity>, Error> {
    Ok(scene.query::<i64>(kinds.life)?.with_entities().map(|(entity, _)| entity).collect())
}

/// Puts a change of some entities into a frame.
fn change(frame: &mut Frame<'_>, kinds: Kinds, chance: &mut Chance, entities: &[Entity]) {
    let one = chance.one_of(entities);
    match chance.below(9) {
        0 => {
            frame.set_parent(one, chance.one_of(entities));
        }
        1 => {
            let child = frame.spawn(&[kinds.life.of(1), kinds.at.of(chance.place())]);
            frame.set_parent(child, one);
        }
        2 => {
            frame.despawn(one);
        }
        3 => {
            frame.remove(one, kinds.at);
        }
        4 => {
            frame.remove_parent(one).put("Freed", one);
        }
        5 => {
            // Who comes goes again in the same frame, with all below it.
            let above = frame.spawn(&[kinds.life.of(2)]);
            frame.set_parent(one, above).despawn_all(above);
        }
        _ => {
            for _ in 0..=chance.below(20) {
                frame.insert(chance.one_of(entities), kinds.life, chance.below(1_000) as i64);
                frame.insert(chance.one_of(entities), kinds.at, chance.place());
            }
        }
    }
}

/// How many steps there were of each sort.
#[derive(Default)]
struct Tally {
    frames: usize,
    refused: usize,
    advances: usize,
    undos: usize,
    redos: usize,
}

/// A random step, and the deltas that it made.
fn step(scene: &mut Scene, kinds: Kinds, chance: &mut Chance, tally: &mut Tally) -> Result<Vec<Delta>, Error> {
    let status = scene.status()?;
    // The first frame stays, as it made all.
    let (undo, redo) = (status.undo as usize - 1, status.redo as usize);
    match chance.below(8) {
        0 | 1 if undo > 0 => {
            tally.undos += 1;
            let frames = 1 + chance.below(undo.min(9));
            scene.undo_by(frames)?;
            return undone(scene, frames);
        }
        2 | 3 if redo > 0 => {
            tally.redos += 1;
            let frames = 1 + chance.below(redo.min(9));
            scene.redo_by(frames)?;
            return done(scene, frames);
        }
        4 if chance.below(16) == 0 => {
            tally.advances += 1;
            scene.advance()?;
            return done(scene, 1);
        }
        _ => {}
    }
    let entities = alive(scene, kinds)?;
    let mut frame = scene.frame();
    change(&mut frame, kinds, chance, &entities);
    match frame.commit() {
        Ok(_) => {
            tally.frames += 1;
            done(scene, 1)
        }
        // The rules refuse some, as a despawn of what has children, and then nothing is done.
        Err(Error::Refused(_)) => {
            tally.refused += 1;
            Ok(Vec::new())
        }
        Err(error) => Err(error),
    }
}

/// A saved scene is loaded as the same one, with its past.
fn compare_loaded(scene: &mut Scene, kinds: Kinds) -> Result<usize, Stop> {
    let saved = scene.save()?;
    let mut other = Scene::load(&saved)?;
    for _ in 0..2 {
        View::new(scene, kinds)?.compare(&other, kinds)?;
        let is_same = scene.rows()?.eq(other.rows()?) && scene.roots()? == other.roots()?;
        if !is_same || scene.resources()? != other.resources()? || scene.save()? != other.save()? {
            return Err(Stop::Differs("the loaded scene".to_owned()));
        }
        scene.undo_by(3)?;
        other.undo_by(3)?;
    }
    Ok(saved.len())
}

fn play() -> Result<(), Stop> {
    let mut scene = Scene::new()?;
    let kinds = Kinds {
        life: scene.declare("Life", Shape::Int)?,
        at: scene.declare("At", Shape::Vec3)?,
        speed: scene.declare("Speed", Shape::Vec3)?,
    };
    let mut chance = Chance(1);
    build(&mut scene, kinds, &mut chance)?;
    let mut view = View::new(&scene, kinds)?;
    let mut tally = Tally::default();
    let mut checksum = view.compare(&scene, kinds)?;
    for _ in 0..STEPS {
        let deltas = step(&mut scene, kinds, &mut chance, &mut tally)?;
        view.follow(kinds, deltas)?;
        checksum = checksum.rotate_left(1) ^ view.compare(&scene, kinds)?;
    }
    scene.advance()?;
    let count = alive(&scene, kinds)?.len();
    if scene.resource::<i64>("Alive")? != count as i64 {
        return Err(Stop::Differs("the count of an advance".to_owned()));
    }
    let length = compare_loaded(&mut scene, kinds)?;
    let Tally { frames, refused, advances, undos, redos } = tally;
    println!("{frames} frames, {refused} refused, {advances} advances, {undos} undos and {redos} redos of several");
    println!("{} deltas followed, {count} entities at the end, {length} bytes saved", view.followed);
    println!("drawn: {checksum:016x}");
    Ok(())
}

fn main() -> ExitCode {
    match play() {
        Ok(()) => ExitCode::SUCCESS,
        Err(why) => {
            eprintln!("frames: {why}");
            ExitCode::FAILURE
        }
    }
}
