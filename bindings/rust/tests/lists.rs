//! Calls that take lists: spawns with their components, and many writes at once.
use scene::{Entity, Error, Fault, Kind, Place, Scene, Shape, Value};

/// A scene with a kind of each shape, in this order.
fn begun() -> (Scene, [Kind; 5]) {
    let mut scene = Scene::new().unwrap();
    let kinds = [Shape::Tag, Shape::Int, Shape::Vec3, Shape::Text, Shape::Link]
        .map(|shape| scene.declare(&shape.to_string(), shape).unwrap());
    (scene, kinds)
}

/// A fault, and the number of the command that has it.
fn fault<T: std::fmt::Debug>(came: Result<T, Error>) -> (Fault, Option<u32>) {
    let error = came.unwrap_err();
    let refusal = error.refusal().unwrap();
    (refusal.fault, refusal.place.map(|Place { command, .. }| command))
}

/// Components with texts that lie one behind the other as bytes: unicode, empty ones, and with a byte 0.
fn herd(entities: &[Entity], name: Kind) -> Vec<(Entity, (Kind, Value))> {
    let texts = ["", "\u{1f415}", "a\0b", "", "\u{e9}\u{65e5}\"\n"];
    entities.iter().enumerate().map(|(number, entity)| (*entity, name.of(texts[number % 5]))).collect()
}

#[test]
fn a_spawn_has_all_its_components() {
    let (mut scene, [tag, int, vec3, text, link]) = begun();
    let friend = Entity { index: u32::MAX, generation: u32::MAX };
    let cells =
        [link.of(friend), text.of("\u{e9}\u{1f415}\0"), vec3.of([1, i64::MIN, 3]), int.of(i64::MAX), tag.of(())];
    let cat = scene.spawn(&cells).unwrap();
    for (kind, value) in &cells {
        assert_eq!(scene.get::<Value>(cat, *kind).as_ref(), Ok(value));
    }
    let empty = scene.spawn(&[text.of("")]).unwrap();
    assert_eq!((scene.get(empty, text), scene.spawn(&[])), (Ok(String::new()), Ok("2v1".parse().unwrap())));
    let long = "\u{65e5} ".repeat(100_000);
    let dog = scene.spawn(&[text.of(long.as_str()), int.of(1)]).unwrap();
    assert_eq!((scene.get(dog, text), scene.get(dog, int)), (Ok(long), Ok(1)));
}

#[test]
fn texts_of_several_kinds_are_kept_apart() {
    let mut scene = Scene::new().unwrap();
    let kinds: Vec<Kind> = (0..20).map(|number| scene.declare(&format!("T{number}"), Shape::Text).unwrap()).collect();
    let text = |number: usize| "\u{e9}".repeat(number % 3) + &number.to_string().repeat(number % 4);
    let cells: Vec<_> = kinds.iter().enumerate().rev().map(|(number, kind)| kind.of(text(number))).collect();
    let entity = scene.spawn(&cells).unwrap();
    for (number, kind) in kinds.into_iter().enumerate() {
        assert_eq!(scene.get(entity, kind), Ok(text(number)));
    }
}

#[test]
fn a_refused_spawn_does_nothing() {
    let (mut scene, [_, int, _, text, _]) = begun();
    let before = scene.save().unwrap();
    assert_eq!(fault(scene.spawn(&[int.of("nine")])), (Fault::WrongShape, Some(0)));
    assert_eq!(fault(scene.spawn(&[text.of("a"), text.of("b")])), (Fault::DuplicateKind, Some(0)));
    assert_eq!(scene.save().unwrap(), before);
    assert_eq!(scene.spawn(&[int.of(9)]).unwrap().to_string(), "0v1");
}

#[test]
fn an_open_frame_counts_its_spawns() {
    let (mut scene, [_, int, _, text, _]) = begun();
    scene.spawn(&[]).unwrap();
    let mut frame = scene.frame();
    let spawned: Vec<_> = (0..3).map(|number| frame.spawn(&[int.of(number), text.of("one")])).collect();
    frame.insert(spawned[1], int, 7).set_parent(spawned[2], spawned[0]);
    let made = frame.commit().unwrap();
    assert_eq!(spawned.iter().map(|new| made[new.place()].to_string()).collect::<Vec<_>>(), ["1v1", "2v1", "3v1"]);
    assert_eq!(scene.gather::<i64>(&made, int).unwrap(), [Some(0), Some(7), Some(2)]);
    assert_eq!(scene.parent_of(made[2]), Ok(Some(made[0])));
}

#[test]
fn many_writes_are_one_frame() {
    let (mut scene, [_, int, vec3, text, _]) = begun();
    let entities: Vec<Entity> = (0..1_000).map(|_| scene.spawn(&[]).unwrap()).collect();
    let before = scene.status().unwrap();
    scene.insert_all(herd(&entities, text)).unwrap();
    scene.insert_all(entities.iter().map(|entity| (*entity, int.of(i64::from(entity.index))))).unwrap();
    // An entity may stand in several places, with several kinds; the last one of a kind stays.
    let twice = [(entities[0], int.of(1)), (entities[0], vec3.of([1, 2, 3])), (entities[0], int.of(2))];
    scene.insert_all(twice).unwrap();
    let names: Vec<(Entity, Option<String>)> =
        entities.iter().copied().zip(scene.gather(&entities, text).unwrap()).collect();
    assert!(herd(&entities, text).into_iter().eq(names.into_iter().map(|(one, name)| (one, text.of(name.unwrap())))));
    assert_eq!((scene.get(entities[999], int), scene.get(entities[0], int)), (Ok(999), Ok(2)));
    assert_eq!(scene.get(entities[0], vec3), Ok([1, 2, 3]));
    let status = scene.status().unwrap();
    assert_eq!((status.tick - before.tick, status.undo - before.undo), (3, 3));
    scene.undo_by(3).unwrap();
    assert!(scene.kinds_of(entities[0]).unwrap().is_empty());
}

#[test]
fn no_writes_are_a_frame_too() {
    let (mut scene, _) = begun();
    scene.insert_all([]).unwrap();
    assert_eq!((scene.status().unwrap().tick, scene.past_length(0)), (1, Ok(Some(0))));
    scene.undo().unwrap();
}

#[test]
fn one_bad_write_refuses_all() {
    let (mut scene, [tag, int, _, text, _]) = begun();
    let entities: Vec<Entity> = (0..4).map(|number| scene.spawn(&[int.of(number)]).unwrap()).collect();
    let gone = scene.spawn(&[]).unwrap();
    scene.despawn(gone).unwrap();
    let mut other = Scene::new().unwrap();
    let sixth = (0..6).map(|number| other.declare(&format!("K{number}"), Shape::Int).unwrap()).last().unwrap();
    let before = scene.save().unwrap();
    let mut refused = |at: usize, entity: Entity, cell: (Kind, Value)| {
        let mut writes: Vec<_> = entities.iter().map(|entity| (*entity, text.of("written"))).collect();
        writes.insert(at, (entity, cell));
        let came = fault(scene.insert_all(writes));
        assert_eq!(scene.save().unwrap(), before);
        came
    };
    let never = Entity { index: 0, generation: 0 };
    assert_eq!(refused(0, gone, int.of(1)), (Fault::NoSuchEntity, Some(0)));
    assert_eq!(refused(2, never, int.of(1)), (Fault::NoSuchEntity, Some(2)));
    assert_eq!(refused(4, entities[0], int.of("one")), (Fault::WrongShape, Some(4)));
    assert_eq!(refused(3, entities[0], tag.of("one")), (Fault::WrongShape, Some(3)));
    assert_eq!(refused(1, entities[0], sixth.of(1)), (Fault::NoSuchKind, Some(1)));
}

#[test]
fn in_a_frame_of_lines_no_list_is_written() {
    let (mut scene, [_, int, ..]) = begun();
    let cat = scene.spawn(&[]).unwrap();
    scene.line("begin").unwrap();
    assert!(matches!(scene.insert_all([(cat, int.of(1))]), Err(Error::Bad(reason)) if reason.contains("commit")));
    assert!(scene.drop_frame());
    scene.insert_all([(cat, int.of(1))]).unwrap();
    assert_eq!(scene.get(cat, int), Ok(1));
}
