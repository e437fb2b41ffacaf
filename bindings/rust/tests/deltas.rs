//! What each kept frame did, as deltas.
use scene::{ChildPlace, Delta, Entity, Filter, FrameStep, Kind, Scene, Shape, Step, Value};

fn begun() -> (Scene, Kind, Kind) {
    let mut scene = Scene::new().unwrap();
    let name = scene.declare("Name", Shape::Text).unwrap();
    let health = scene.declare("Health", Shape::Int).unwrap();
    (scene, name, health)
}

/// The deltas of the newest frame.
fn newest(scene: &Scene) -> Vec<Delta> {
    scene.past_step(0).unwrap().unwrap().deltas
}

/// An integer that came or went, of a row that left a place of a table.
fn shifted(entity: Entity, kind: Kind, [before, after]: [Option<i64>; 2], row: usize) -> Delta {
    let [before, after] = [before, after].map(|number| number.map(Value::Int));
    Delta::Shifted { entity, kind, before, after, row_before: Some(row), row_after: None }
}

fn below(parent: Entity, place: usize) -> Option<ChildPlace> {
    Some(ChildPlace { parent, place })
}

#[test]
fn each_command_is_its_deltas() {
    let (mut scene, name, health) = begun();
    let cells = vec![name.of("cat"), health.of(9)];
    let cat = scene.spawn(&[health.of(9), name.of("cat")]).unwrap();
    // The components of a row come by kind.
    assert_eq!(newest(&scene), [Delta::Spawned { entity: cat, cells: cells.clone(), row: None, parent: None }]);
    let [_, kitten] = [(); 2].map(|()| scene.spawn(&[]).unwrap());
    scene.insert(kitten, health, -3).unwrap();
    assert_eq!(newest(&scene), [shifted(kitten, health, [None, Some(-3)], 1)]);
    scene.insert(kitten, health, i64::MIN).unwrap();
    let [before, after] = [-3, i64::MIN].map(Value::Int);
    assert_eq!(newest(&scene), [Delta::Set { entity: kitten, kind: health, before, after }]);
    scene.remove(kitten, health).unwrap();
    assert_eq!(newest(&scene), [shifted(kitten, health, [Some(i64::MIN), None], 0)]);
    scene.set_parent(kitten, cat).unwrap();
    assert_eq!(newest(&scene), [Delta::Linked { entity: kitten, before: None, after: below(cat, 0) }]);
    scene.despawn_all(cat).unwrap();
    let gone = |entity, cells, row, parent| Delta::Despawned { entity, cells, row: Some(row), parent };
    let went = [gone(kitten, Vec::new(), 1, below(cat, 0)), gone(cat, cells, 0, None)];
    assert_eq!(newest(&scene), went);
    scene.undo().unwrap();
    let undone: Vec<Delta> = scene.future_step(0).unwrap().unwrap().undone().collect();
    assert_eq!(undone, went.map(Delta::reversed).into_iter().rev().collect::<Vec<_>>());
}

#[test]
fn a_resource_is_told_by_name_with_its_values() {
    let mut scene = Scene::new().unwrap();
    let long = "\u{1f415} ".repeat(100);
    let values = [Value::from("on"), 5.into(), long.as_str().into(), "".into(), ().into()];
    let mut before = None;
    for after in values {
        scene.put("Motto", after.clone()).unwrap();
        let put = Delta::Resource { name: "Motto".to_owned(), before, after: Some(after.clone()) };
        assert_eq!((newest(&scene), put.entity()), (vec![put], None));
        before = Some(after);
    }
    scene.remove_resource("Motto").unwrap();
    let gone = Delta::Resource { name: "Motto".to_owned(), before, after: None };
    assert_eq!(newest(&scene), [gone]);
}

#[test]
fn values_of_each_shape_are_told() {
    let mut scene = Scene::new().unwrap();
    let entity = Entity { index: u32::MAX, generation: 0 };
    let values = [
        Value::Tag,
        Value::Int(-1),
        Value::Vec3([i64::MIN, 0, i64::MAX]),
        Value::Text("a \u{e9}\0 text ".repeat(20)),
        Value::Link(entity),
    ];
    let kinds = [Shape::Tag, Shape::Int, Shape::Vec3, Shape::Text, Shape::Link]
        .map(|shape| scene.declare(&shape.to_string(), shape).unwrap());
    let cells: Vec<(Kind, Value)> = kinds.into_iter().zip(values).collect();
    let cat = scene.spawn(&[]).unwrap();
    for (kind, value) in cells.clone() {
        scene.insert(cat, kind, value.clone()).unwrap();
        let (row_before, row_after) = (Some(0), None);
        let came = Delta::Shifted { entity: cat, kind, before: None, after: Some(value), row_before, row_after };
        assert_eq!(newest(&scene), [came]);
    }
    for after in ["another", ""] {
        let before = scene.get(cat, kinds[3]).unwrap();
        scene.insert(cat, kinds[3], after).unwrap();
        let set = Delta::Set { entity: cat, kind: kinds[3], before, after: after.into() };
        assert_eq!(newest(&scene), [set]);
    }
    scene.undo_by(2).unwrap();
    scene.despawn(cat).unwrap();
    assert_eq!(newest(&scene), [Delta::Despawned { entity: cat, cells, row: Some(0), parent: None }]);
}

#[test]
fn a_row_of_all_kinds_is_whole() {
    let mut scene = Scene::new().unwrap();
    let shapes = [Shape::Text, Shape::Int];
    let kinds: Vec<Kind> =
        (0..64).map(|number| scene.declare(&format!("K{number}"), shapes[number % 2]).unwrap()).collect();
    let value = |number: usize| [Value::Text(format!("the {number}th")), Value::Int(number as i64)][number % 2].clone();
    let cells: Vec<(Kind, Value)> = kinds.iter().enumerate().map(|(number, kind)| (*kind, value(number))).collect();
    let entity = scene.spawn(&cells.iter().rev().cloned().collect::<Vec<_>>()).unwrap();
    assert_eq!(newest(&scene), [Delta::Spawned { entity, cells, row: None, parent: None }]);
}

#[test]
fn rows_and_children_are_told_with_their_places() {
    let (mut scene, name, _) = begun();
    let made: Vec<Entity> = (0..5).map(|_| scene.spawn(&[name.of("one")]).unwrap()).collect();
    for child in &made[1..] {
        scene.set_parent(*child, made[0]).unwrap();
    }
    scene.remove(made[1], name).unwrap();
    // The last row got its place.
    scene.remove(made[4], name).unwrap();
    let Delta::Shifted { row_before: Some(1), row_after: None, .. } = newest(&scene)[0] else {
        panic!("{:?}", newest(&scene));
    };
    scene.set_parent(made[2], made[0]).unwrap();
    let linked = Delta::Linked { entity: made[2], before: below(made[0], 1), after: below(made[0], 3) };
    assert_eq!(newest(&scene), [linked]);
    scene.set_parent(made[3], made[4]).unwrap();
    let linked = Delta::Linked { entity: made[3], before: below(made[0], 1), after: below(made[4], 0) };
    assert_eq!(newest(&scene), [linked]);
    scene.remove_parent(made[4]).unwrap();
    assert_eq!(newest(&scene), [Delta::Linked { entity: made[4], before: below(made[0], 1), after: None }]);
    scene.despawn(made[2]).unwrap();
    let parent = below(made[0], 1);
    let cells = vec![name.of("one")];
    assert_eq!(newest(&scene), [Delta::Despawned { entity: made[2], cells, row: Some(2), parent }]);
}

#[test]
fn a_step_goes_from_the_past_to_the_future_and_back() {
    let (mut scene, _, health) = begun();
    assert_eq!((scene.past_step(0), scene.future_step(0)), (Ok(None), Ok(None)));
    let mut frame = scene.frame();
    let (cat, kitten) = (frame.spawn(&[health.of(9)]), frame.spawn(&[]));
    frame.set_parent(kitten, cat).insert(cat, health, 5).put("score", 1).remove(cat, health);
    frame.commit().unwrap();
    scene.put("score", 2).unwrap();
    let steps: Vec<FrameStep> = (0..2).map(|place| scene.past_step(place).unwrap().unwrap()).collect();
    assert_eq!((steps[0].tick_before, steps[1].tick_before), (1, 0));
    assert_eq!((steps[1].deltas.len(), scene.past_step(2)), (6, Ok(None)));
    assert_eq!([0, 1, 2].map(|place| scene.past_length(place).unwrap()), [Some(1), Some(6), None]);
    assert_eq!(scene.past_step(usize::MAX), Ok(None));
    scene.undo_by(2).unwrap();
    assert_eq!(scene.past_step(0), Ok(None));
    assert_eq!(scene.future_step(0).unwrap().as_ref(), Some(&steps[1]));
    assert_eq!(scene.future_step(1).unwrap().as_ref(), Some(&steps[0]));
    assert_eq!([0, 1, 2].map(|place| scene.future_length(place).unwrap()), [Some(6), Some(1), None]);
    for step in &steps {
        let undone = step.clone().undone();
        assert_eq!(undone.len(), step.deltas.len());
        assert_eq!(undone.rev().map(Delta::reversed).collect::<Vec<_>>(), step.deltas);
    }
    scene.redo_by(2).unwrap();
    assert_eq!(scene.past_step(1).unwrap().as_ref(), Some(&steps[1]));
    // In an open frame the last one that is done is told, and a load keeps them all.
    let saved = scene.save().unwrap();
    scene.line("begin").unwrap();
    scene.line("spawn").unwrap();
    for scene in [&scene, &Scene::load(&saved).unwrap()] {
        assert_eq!(scene.past_step(0).unwrap().as_ref(), Some(&steps[0]));
    }
}

#[test]
fn a_refused_call_leaves_the_steps() {
    let (mut scene, _, health) = begun();
    let cat = scene.spawn(&[health.of(i64::MAX)]).unwrap();
    let before = (scene.past_step(0), scene.past_step(1), scene.future_step(0));
    scene.set_parent(cat, cat).unwrap_err();
    scene.redo().unwrap_err();
    scene.remove_resource("score").unwrap_err();
    scene.system("grow", Filter::need(&[health]), &[Step::AddInt { to: health, by: 1 }]).unwrap();
    assert!(scene.advance().unwrap_err().to_string().contains("Overflow"));
    assert_eq!((scene.past_step(0), scene.past_step(1), scene.future_step(0)), before);
}

#[test]
fn frames_that_are_not_kept_are_none() {
    let (mut scene, ..) = begun();
    scene.set_depth(2).unwrap();
    for _ in 0..5 {
        scene.spawn(&[]).unwrap();
    }
    let ticks = (0..3).map(|place| scene.past_step(place).unwrap().map(|step| step.tick_before));
    assert_eq!(ticks.collect::<Vec<_>>(), [Some(4), Some(3), None]);
}

#[test]
fn a_long_step_is_whole() {
    let (mut scene, _, health) = begun();
    let mut frame = scene.frame();
    for number in 0..500 {
        frame.spawn(&[health.of(number)]);
    }
    let made = frame.commit().unwrap();
    let came = |(number, entity): (usize, &Entity)| Delta::Spawned {
        entity: *entity,
        cells: vec![health.of(number as i64)],
        row: None,
        parent: None,
    };
    assert_eq!(newest(&scene), made.iter().enumerate().map(came).collect::<Vec<_>>());
    let grow = Step::AddInt { to: health, by: 7 };
    scene.system("grow", Filter::need(&[health]), &[grow, Step::CountInto("All".to_owned())]).unwrap();
    for turn in 0..3 {
        scene.advance().unwrap();
        let int = |number: usize, turn: i64| Value::Int(number as i64 + 7 * turn);
        let set = |(number, entity): (usize, &Entity)| Delta::Set {
            entity: *entity,
            kind: health,
            before: int(number, turn),
            after: int(number, turn + 1),
        };
        let mut wanted: Vec<Delta> = made.iter().enumerate().map(set).collect();
        let before = (turn > 0).then_some(Value::Int(500));
        wanted.push(Delta::Resource { name: "All".to_owned(), before, after: Some(Value::Int(500)) });
        assert_eq!(newest(&scene), wanted);
    }
}

/// The components of the entity of a number: some have no text, and some texts are long.
fn cells_of(number: usize, [life, at, name, motto, seen]: [Kind; 5]) -> Vec<(Kind, Value)> {
    let count = number as i64;
    let all = [
        life.of(count),
        at.of([count, -count, 0]),
        name.of(format!("entity {number}")),
        motto.of("\u{65e5}".repeat(number % 40)),
        seen.of(()),
    ];
    all.into_iter().enumerate().filter(|(bit, _)| number >> bit & 1 == 0).map(|(_, cell)| cell).collect()
}

#[test]
fn a_long_step_is_read_whole() {
    const COUNT: usize = 10_000;
    let mut scene = Scene::new().unwrap();
    let shapes = [Shape::Int, Shape::Vec3, Shape::Text, Shape::Text, Shape::Tag];
    let names = ["Life", "At", "Name", "Motto", "Seen"];
    let kinds: [Kind; 5] = std::array::from_fn(|number| scene.declare(names[number], shapes[number]).unwrap());
    let mut frame = scene.frame();
    for number in 0..COUNT {
        frame.spawn(&cells_of(number, kinds));
    }
    frame.put("Title", "ten thousand").put("Long", "of many bytes ".repeat(500));
    let made = frame.commit().unwrap();
    let spawned = (0..COUNT).map(|number| {
        let cells = cells_of(number, kinds);
        Delta::Spawned { entity: made[number], cells, row: None, parent: None }
    });
    let put =
        |name: &str, value: String| Delta::Resource { name: name.to_owned(), before: None, after: Some(value.into()) };
    let resources = [put("Title", "ten thousand".to_owned()), put("Long", "of many bytes ".repeat(500))];
    let wanted: Vec<Delta> = spawned.chain(resources).collect();
    let step = scene.past_step(0).unwrap().unwrap();
    assert_eq!((step.tick_before, step.deltas == wanted), (0, true));
    scene.undo().unwrap();
    assert!(scene.future_step(0).unwrap().unwrap().deltas == wanted);
}
