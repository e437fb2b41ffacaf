//! A level with a room, what stands in it, and an editor's undo: an example to copy.
use scene::{Entity, Error, Scene, Shape};

fn main() -> Result<(), Error> {
    let mut scene = Scene::new()?;
    let name = scene.declare("Name", Shape::Text)?;
    let at = scene.declare("At", Shape::Vec3)?;
    let health = scene.declare("Health", Shape::Int)?;
    let target = scene.declare("Target", Shape::Link)?;

    // All of this is one step of the editor: done whole or not at all, and undone whole.
    let mut frame = scene.frame();
    let room = frame.spawn(&[name.of("the first room")]);
    let cat = frame.spawn(&[name.of("cat"), at.of([1, 0, -2]), health.of(9)]);
    let dog = frame.spawn(&[name.of("dog"), at.of([4, 0, 3]), health.of(7)]);
    frame.set_parent(cat, room).set_parent(dog, room);
    let made = frame.commit()?;
    let (room, cat, dog) = (made[room.place()], made[cat.place()], made[dog.place()]);

    // Outside a frame, each command is a step by itself.
    scene.mark()?;
    scene.insert(dog, target, cat)?;
    scene.insert(cat, health, 5)?;
    for (entity, kind) in scene.changed()? {
        println!("changed: component {} of {entity}", kind.number());
    }

    // A refusal tells its fault and its place, and leaves the scene as it was.
    let nobody = Entity { index: 7, generation: 9 };
    match scene.set_parent(room, nobody) {
        Err(Error::Refused(refusal)) => {
            println!("{refusal}: fault {}, {}", refusal.fault.number(), refusal.fault.name())
        }
        other => println!("{other:?}"),
    }

    scene.undo()?;
    assert_eq!(scene.get::<i64>(cat, health)?, 9);
    scene.redo()?;

    // A save has the past too: what is loaded can be undone.
    let mut loaded = Scene::load(&scene.save()?)?;
    loaded.undo()?;
    for row in loaded.rows()? {
        println!("{} has {:?}", row.entity, row.value(health));
    }
    Ok(())
}
