//! Frames, and what refuses them.
use scene::{Entity, Error, Fault, Kind, Outcome, Place, Scene, Shape, Value};

/// A scene with a kind of each sort that is used here.
fn begun() -> (Scene, Kind, Kind) {
    let mut scene = Scene::new().unwrap();
    let name = scene.declare("Name", Shape::Text).unwrap();
    let health = scene.declare("Health", Shape::Int).unwrap();
    (scene, name, health)
}

fn entity(text: &str) -> Entity {
    text.parse().unwrap()
}

/// The place of a command of a frame.
fn command(command: u32) -> Option<Place> {
    Some(Place { phase: 0, queue: 0, command })
}

/// The number, the name and the place of a refusal.
fn refusal<T: std::fmt::Debug>(came: Result<T, Error>) -> (u32, &'static str, Option<Place>) {
    match came {
        Err(Error::Refused(refusal)) => (refusal.fault.number(), refusal.fault.name(), refusal.place),
        other => panic!("{other:?}"),
    }
}

#[test]
fn a_frame_is_one_step() {
    let (mut scene, name, health) = begun();
    let old = scene.spawn(&[name.of("old")]).unwrap();
    let mut frame = scene.frame();
    let cat = frame.spawn(&[name.of("cat"), health.of(9)]);
    let dog = frame.spawn(&[name.of("dog")]);
    frame.insert(dog, health, 7).insert(old, health, 1).set_parent(dog, cat).remove(old, name);
    let made = frame.commit().unwrap();
    assert_eq!(made, [entity("1v1"), entity("2v1")]);
    assert_eq!(scene.get(made[dog.place()], health), Ok(7));
    assert_eq!(refusal(scene.despawn(made[cat.place()])), (2, "HasChildren", command(0)));
    scene.undo().unwrap();
    assert_eq!(scene.rows().unwrap().len(), 1);
    assert_eq!(scene.get::<Value>(old, name), Ok(Value::from("old")));
    assert_eq!(refusal(scene.get::<i64>(old, health)), (3, "NotPresent", None));
}

#[test]
fn an_empty_frame_is_done() {
    let (mut scene, ..) = begun();
    assert_eq!(scene.frame().commit(), Ok(Vec::new()));
    scene.undo().unwrap();
    assert_eq!(refusal(scene.undo()), (15, "NothingToUndo", None));
}

#[test]
fn a_frame_that_is_let_go_does_nothing() {
    let (mut scene, name, _) = begun();
    let before = scene.line("show").unwrap();
    {
        let mut frame = scene.frame();
        frame.spawn(&[name.of("cat")]);
    }
    assert_eq!(scene.line("show").unwrap(), before);
    // None is open: a command by itself is done, and a frame can be begun.
    scene.spawn(&[]).unwrap();
    assert_eq!(scene.line("begin"), Ok("ok".to_owned()));
    assert_eq!(scene.line("commit"), Ok("done".to_owned()));
}

#[test]
fn a_refused_frame_does_nothing_and_is_gone() {
    let (mut scene, name, health) = begun();
    let cat = scene.spawn(&[health.of(9)]).unwrap();
    let before = scene.save().unwrap();
    let mut frame = scene.frame();
    frame.spawn(&[name.of("dog")]);
    frame.insert(cat, health, 1).despawn(entity("7v9")).insert(cat, health, 2);
    assert_eq!(refusal(frame.commit()), (1, "NoSuchEntity", command(2)));
    assert_eq!(scene.save().unwrap(), before);
    assert_eq!(scene.spawn(&[]), Ok(entity("1v1")));
}

#[test]
fn each_command_is_refused_by_its_rules() {
    let (mut scene, name, health) = begun();
    let cat = scene.spawn(&[health.of(9)]).unwrap();
    let kitten = scene.spawn(&[]).unwrap();
    scene.set_parent(kitten, cat).unwrap();
    let before = scene.save().unwrap();
    assert_eq!(refusal(scene.spawn(&[health.of("nine")])), (4, "WrongShape", command(0)));
    assert_eq!(refusal(scene.spawn(&[health.of(1), health.of(2)])), (6, "DuplicateKind", command(0)));
    assert_eq!(refusal(scene.insert(cat, name, 1)), (4, "WrongShape", command(0)));
    assert_eq!(refusal(scene.remove(kitten, health)), (3, "NotPresent", command(0)));
    assert_eq!(refusal(scene.despawn(cat)), (2, "HasChildren", command(0)));
    assert_eq!(refusal(scene.despawn_all(entity("0v2"))), (1, "NoSuchEntity", command(0)));
    assert_eq!(refusal(scene.set_parent(cat, cat)), (7, "SelfParent", command(0)));
    assert_eq!(refusal(scene.set_parent(cat, kitten)), (8, "Cycle", command(0)));
    assert_eq!(refusal(scene.remove_parent(cat)), (9, "NoParent", command(0)));
    assert_eq!(scene.save().unwrap(), before);
}

#[test]
fn a_kind_of_another_scene_is_refused() {
    let (_, _, second) = begun();
    let mut scene = Scene::new().unwrap();
    let cat = scene.spawn(&[]).unwrap();
    assert_eq!(refusal(scene.insert(cat, second, 1)), (5, "NoSuchKind", command(0)));
    assert_eq!(refusal(scene.get::<i64>(cat, second)), (5, "NoSuchKind", None));
    // The components that were given for a refused spawn are gone with it.
    assert_eq!(refusal(scene.spawn(&[second.of(1)])), (5, "NoSuchKind", command(0)));
    scene.spawn(&[]).unwrap();
}

#[test]
fn an_entity_of_another_frame_is_none() {
    let (mut scene, ..) = begun();
    let mut frame = scene.frame();
    let cat = frame.spawn(&[]);
    frame.commit().unwrap();
    let mut frame = scene.frame();
    frame.spawn(&[]);
    frame.despawn(cat);
    assert_eq!(refusal(frame.commit()), (12, "BadLocal", command(1)));
}

#[test]
fn generation_0_names_no_spawn() {
    let (mut scene, _, health) = begun();
    let never = entity("0v0");
    let mut frame = scene.frame();
    frame.spawn(&[]);
    frame.insert(never, health, 1);
    assert_eq!(refusal(frame.commit()), (1, "NoSuchEntity", command(1)));
    assert_eq!(refusal(scene.insert(never, health, 1)), (1, "NoSuchEntity", command(0)));
    assert_eq!(refusal(scene.get::<i64>(never, health)), (1, "NoSuchEntity", None));
}

#[test]
fn in_a_frame_of_lines_commands_go_by_lines() {
    let (mut scene, _, health) = begun();
    scene.line("begin").unwrap();
    assert_eq!(scene.line("spawn Health=9"), Ok("queued".to_owned()));
    assert!(matches!(scene.spawn(&[]), Err(Error::Bad(_))));
    assert!(matches!(scene.insert(entity("0v1"), health, 1), Err(Error::Bad(_))));
    assert!(matches!(scene.frame().commit(), Err(Error::Bad(_))));
    assert!(matches!(scene.undo(), Err(Error::Bad(_))));
    assert!(scene.changed().is_err() && scene.mark().is_err());
    assert!(matches!(scene.put("score", 5), Err(Error::Bad(_))));
    assert!(matches!(scene.advance(), Err(Error::Bad(_))));
    // What reads, reads the scene as it was before the frame.
    assert_eq!((scene.rows().unwrap().len(), scene.status().unwrap().in_frame), (0, true));
    assert!(matches!(scene.line("begin"), Err(Error::Bad(_))));
    assert_eq!(scene.line("insert +0 Health=8"), Ok("queued".to_owned()));
    assert_eq!(scene.line(" commit "), Ok("done 0v1".to_owned()));
    assert_eq!(scene.get(entity("0v1"), health), Ok(8));
    scene.line("begin").unwrap();
    scene.line("despawn 7v9").unwrap();
    assert!(scene.line("commit").is_err());
    scene.spawn(&[]).unwrap();
}

#[test]
fn a_dropped_frame_is_no_call() {
    let (mut scene, _, health) = begun();
    let cat = scene.spawn(&[health.of(9)]).unwrap();
    let history = scene.line("history").unwrap();
    assert!(!scene.drop_frame());
    for _ in 0..2 {
        scene.line("begin").unwrap();
        scene.line("insert 0v1 Health=5").unwrap();
        assert!(scene.drop_frame() && !scene.drop_frame());
        assert_eq!(scene.get(cat, health), Ok(9));
    }
    assert_eq!(scene.line("history").unwrap(), history);
    assert!(scene.line("commit").unwrap_err().to_string().starts_with("no frame is open"));
    scene.undo().unwrap();
    assert_eq!(scene.rows().unwrap().len(), 0);
}

#[test]
fn a_bad_call_says_why() {
    let (mut scene, _, _) = begun();
    scene.line("begin").unwrap();
    assert!(scene.undo().unwrap_err().to_string().starts_with("a frame is open"));
    assert_eq!(scene.line("get 7").unwrap_err().to_string(), "`7` is no entity, as 0v1");
    let answer = scene.play(b"jump").unwrap();
    assert_eq!(
        (answer.text.as_str(), answer.outcome),
        ("bad line\n", Outcome::Bad("no command is named jump".to_owned()))
    );
}

#[test]
fn a_line_and_a_call_are_refused_alike() {
    let (mut scene, _, health) = begun();
    let told = scene.line("insert 7v9 Health=1").unwrap_err();
    assert_eq!(scene.insert(entity("7v9"), health, 1), Err(told));
    let told = scene.line("undo").unwrap_err();
    assert_eq!(scene.undo(), Err(told));
    let told = scene.line("get 7v9").unwrap_err();
    assert_eq!(scene.get::<i64>(entity("7v9"), health), Err(told));
}

#[test]
fn errors_say_what_they_are() {
    let mut scene = Scene::new().unwrap();
    scene.line("calls 1").unwrap();
    scene.spawn(&[]).unwrap();
    let error = scene.line("undo").unwrap_err();
    assert_eq!(error.to_string(), "refused 17 HistoryFull 1");
    let refusal = error.refusal().unwrap();
    assert_eq!((refusal.fault, refusal.fields.as_str()), (Fault::HistoryFull, "1"));
    assert_eq!(std::error::Error::source(&error).unwrap().to_string(), error.to_string());
    assert_eq!(scene.undo().unwrap_err().to_string(), "refused 17 HistoryFull");
    let plain = [Error::NoMemory, Error::Closed, Error::Untold, Error::Lost, Error::Shared];
    for error in [Error::Bad(String::new())].into_iter().chain(plain) {
        assert!(!error.to_string().is_empty() && std::error::Error::source(&error).is_none());
    }
}

#[test]
fn a_large_frame_and_two_scenes() {
    let (mut scene, _, health) = begun();
    let mut other = Scene::new().unwrap();
    let mut frame = scene.frame();
    for number in 0..10_000 {
        frame.spawn(&[health.of(number)]);
    }
    let made = frame.commit().unwrap();
    assert_eq!(made.len(), 10_000);
    assert_eq!(scene.get(made[9_999], health), Ok(9_999));
    assert_eq!(other.rows().unwrap().len(), 0);
    drop(scene);
    other.spawn(&[]).unwrap();
}
