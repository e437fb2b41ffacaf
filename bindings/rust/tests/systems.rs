//! Systems, resources and requests.
use scene::{Entity, Error, Fault, Filter, Kind, Outcome, Resource, Scene, Shape, Step, Value};

/// Texts that a line couldn't have, or that something on the way could spoil.
const TEXTS: [&str; 10] = [
    "",
    " ",
    "two words",
    "a\r\nb\r",
    "\0",
    "\"\\\"",
    "\u{1}\u{1f}\t\u{8}\u{c}",
    "\u{7f}\u{85}\u{2028}",
    "{\"a\":1}",
    "\u{1f415}",
];

fn fault<T: std::fmt::Debug>(came: Result<T, Error>) -> Fault {
    came.unwrap_err().refusal().unwrap().fault
}

#[test]
fn resources_come_back_as_they_were() {
    let mut scene = Scene::new().unwrap();
    for (number, text) in TEXTS.iter().enumerate() {
        scene.put(&format!("Text{number}"), *text).unwrap();
        assert_eq!(scene.resource::<String>(&format!("Text{number}")).as_deref(), Ok(*text));
    }
    scene.undo_by(TEXTS.len()).unwrap();
    let link = Entity { index: 7, generation: u32::MAX };
    // Each with its ticks, where the last is put first, and the third once more.
    let resources = [
        ("Int", Value::Int(i64::MIN), 5, 5),
        ("Link", Value::Link(link), 4, 4),
        ("Tag", Value::Tag, 3, 6),
        ("Text", Value::Text("long \u{e9}".repeat(100)), 2, 2),
        ("Vec3", Value::Vec3([i64::MAX, -1, 0]), 1, 1),
    ];
    let wanted =
        resources.map(|(name, value, added, changed)| Resource { name: name.to_owned(), value, added, changed });
    for Resource { name, value, .. } in wanted.iter().rev() {
        scene.put(name, value.clone()).unwrap();
        assert_eq!(scene.resource::<Value>(name).as_ref(), Ok(value));
    }
    scene.put("Tag", ()).unwrap();
    assert_eq!(scene.resources().unwrap(), wanted);
    assert!(wanted.iter().all(|one| scene.resource_with_ticks(&one.name).as_ref() == Ok(one)));
    assert_eq!((scene.resource::<Entity>("Link"), scene.resource::<()>("Tag")), (Ok(link), Ok(())));
    assert_eq!(fault(scene.resource::<i64>("Text")), Fault::WrongShape);
    assert_eq!(fault(scene.resource::<i64>("Score")), Fault::NoSuchResource);
    assert_eq!(fault(scene.remove_resource("Score")), Fault::NoSuchResource);
    assert_eq!(fault(scene.put("two words", 1)), Fault::BadName);
    scene.remove_resource("Vec3").unwrap();
    assert_eq!(scene.resources().unwrap(), wanted[..4]);
}

#[test]
fn a_frame_has_resources_too() {
    let mut scene = Scene::new().unwrap();
    let name = scene.declare("Name", Shape::Text).unwrap();
    let mut frame = scene.frame();
    let cat = frame.spawn(&[name.of("cat")]);
    frame.put("Motto", "on\nward").put("Score", 5).insert(cat, name, "a cat").remove_resource("Score");
    let made = frame.commit().unwrap();
    assert_eq!(scene.get(made[0], name), Ok("a cat".to_owned()));
    assert_eq!(scene.resource("Motto"), Ok("on\nward".to_owned()));
    assert_eq!(scene.resources().unwrap().len(), 1);
    let before = scene.save().unwrap();
    let mut frame = scene.frame();
    frame.put("Motto", "back").remove_resource("Score");
    let error = frame.commit().unwrap_err();
    assert_eq!(error.to_string(), "refused 10 NoSuchResource at 0.0.1");
    assert_eq!(scene.save().unwrap(), before);
    scene.undo().unwrap();
    assert_eq!(scene.resources(), Ok(Vec::new()));
}

/// A scene with what moves, grows and dies, and its kinds: At, Speed, Health, Name.
fn begun() -> (Scene, [Kind; 4]) {
    let mut scene = Scene::new().unwrap();
    let at = scene.declare("At", Shape::Vec3).unwrap();
    let speed = scene.declare("Speed", Shape::Vec3).unwrap();
    let health = scene.declare("Health", Shape::Int).unwrap();
    let name = scene.declare("Name", Shape::Text).unwrap();
    (scene, [at, speed, health, name])
}

#[test]
fn an_advance_is_what_the_systems_say() {
    let (mut scene, [at, speed, health, name]) = begun();
    let cat = scene.spawn(&[at.of([0, 0, 0]), speed.of([1, -2, 3]), health.of(2)]).unwrap();
    let ghost = scene.spawn(&[at.of([5, 5, 5]), speed.of([1, 1, 1]), name.of("ghost")]).unwrap();
    let moving = Filter::need(&[at, speed]).without(&[name]);
    scene.system("move", moving, &[Step::AddVec { to: at, by: speed }, Step::CountInto("Moved".to_owned())]).unwrap();
    scene
        .system("age", Filter::need(&[health]), &[Step::AddInt { to: health, by: -1 }, Step::DespawnAtZero(health)])
        .unwrap();
    scene.phase().unwrap();
    let child = Step::SpawnChild(vec![name.of("a \"child\"\n;"), health.of(9)]);
    scene.system("grow", Filter::need(&[name]).without(&[health]), &[child]).unwrap();

    let made = scene.advance().unwrap();
    assert_eq!(scene.get(cat, at), Ok([1, -2, 3]));
    assert_eq!((scene.get(ghost, at), scene.get(cat, health)), (Ok([5, 5, 5]), Ok(1)));
    assert_eq!(scene.children_of(ghost).unwrap(), made);
    assert_eq!((scene.get(made[0], name), scene.get(made[0], health)), (Ok("a \"child\"\n;".to_owned()), Ok(9)));
    assert_eq!(scene.resource("Moved"), Ok(1));
    assert_eq!(scene.advance().unwrap().len(), 1);
    assert!(!scene.is_alive(cat).unwrap());
    scene.undo_by(2).unwrap();
    assert_eq!((scene.get(cat, at), scene.resources()), (Ok([0, 0, 0]), Ok(Vec::new())));
    scene.clear_systems().unwrap();
    assert_eq!(scene.advance(), Ok(Vec::new()));
    assert_eq!(scene.get(cat, health), Ok(2));
}

#[test]
fn an_advance_is_refused_by_its_rules() {
    let (mut scene, [at, speed, health, _]) = begun();
    let cat = scene.spawn(&[at.of([0, 0, 0]), speed.of([1, 0, 0]), health.of(i64::MAX)]).unwrap();
    let before = scene.save().unwrap();
    scene.system("grow", Filter::need(&[health]), &[Step::AddInt { to: health, by: 1 }]).unwrap();
    let error = scene.advance().unwrap_err();
    assert_eq!(error.to_string(), format!("refused 14 Overflow {cat} at 0.0.0"));
    assert_eq!(error, scene.line("advance").unwrap_err());
    let history = scene.line("history").unwrap();
    scene.system("shrink", Filter::need(&[health]), &[Step::AddInt { to: health, by: -1 }]).unwrap();
    let error = scene.advance().unwrap_err();
    assert_eq!(error.to_string(), "refused 21 Conflict 0 0 1");
    assert_eq!((error.refusal().unwrap().fault, error.refusal().unwrap().fields.as_str()), (Fault::Conflict, "0 0 1"));
    scene.clear_systems().unwrap();
    scene.system("empty", Filter::all(), &[]).unwrap();
    let error = scene.advance().unwrap_err();
    assert_eq!(error.to_string(), "refused 22 BadRule 0 0");
    assert_eq!(scene.advance(), Err(scene.line("advance").unwrap_err()));
    assert_eq!((scene.save().unwrap(), scene.line("history").unwrap()), (before, history));
    let mut other = Scene::new().unwrap();
    assert_eq!(
        fault(other.system("move", Filter::need(&[at]), &[Step::AddVec { to: at, by: speed }])),
        Fault::NoSuchKind
    );
}

#[test]
fn systems_are_checked_before_they_are_played() {
    let mut scene = Scene::new().unwrap();
    // In the setup too, which goes on.
    scene.check_systems().unwrap();
    let health = scene.declare("Health", Shape::Int).unwrap();
    let name = scene.declare("Name", Shape::Text).unwrap();
    let add = |to| [Step::AddInt { to, by: 1 }];
    scene.system("grow", Filter::need(&[health]), &add(health)).unwrap();
    scene.check_systems().unwrap();
    scene.system("shrink", Filter::need(&[health]), &add(health)).unwrap();
    let error = scene.check_systems().unwrap_err();
    assert_eq!((error.refusal().unwrap().fault, error.refusal().unwrap().place), (Fault::Conflict, None));
    assert_eq!(fault(scene.advance()), Fault::Conflict);
    // In another phase they go together.
    scene.clear_systems().unwrap();
    scene.system("grow", Filter::need(&[health]), &add(health)).unwrap();
    scene.phase().unwrap();
    scene.system("shrink", Filter::need(&[health]), &add(health)).unwrap();
    scene.check_systems().unwrap();
    scene.advance().unwrap();
    scene.system("wrong", Filter::need(&[name]), &add(name)).unwrap();
    assert_eq!((fault(scene.check_systems()), fault(scene.advance())), (Fault::BadRule, Fault::BadRule));
    assert_eq!(fault(scene.check_systems()), Fault::BadRule);
}

#[test]
fn a_check_changes_nothing() {
    let (mut scene, [_, _, health, _]) = begun();
    let cat = scene.spawn(&[health.of(i64::MAX)]).unwrap();
    scene.system("grow", Filter::need(&[health]), &[Step::AddInt { to: health, by: 1 }]).unwrap();
    let before = (scene.save().unwrap(), scene.status().unwrap());
    // What a row refuses, only an advance finds.
    scene.check_systems().unwrap();
    assert_eq!((scene.save().unwrap(), scene.status().unwrap()), before);
    scene.line("begin").unwrap();
    scene.check_systems().unwrap();
    assert!(scene.drop_frame());
    assert_eq!(fault(scene.advance()), Fault::Overflow);
    // The last answer stays.
    assert_eq!(scene.changed().unwrap().collect::<Vec<_>>(), [(cat, health)]);
}

#[test]
fn requests_do_what_their_lines_do() {
    let (mut scene, [_, _, health, name]) = begun();
    assert_eq!(scene.request(r#"{"do":"spawn","cells":{"Name":"Big House","Health":9}}"#), Ok("done 0v1".to_owned()));
    let house = Entity { index: 0, generation: 1 };
    assert_eq!((scene.get(house, name), scene.get(house, health)), (Ok("Big House".to_owned()), Ok(9)));
    assert_eq!(scene.request(r#"{"do":"undo"}"#), Ok("undone".to_owned()));
    let told = scene.line("undo").unwrap_err();
    assert_eq!(scene.request(r#"{"do":"undo"}"#), Err(told));
    let future = r#"{"answer":"steps","length":1,"steps":[{"tick":0,"deltas":1}]}"#;
    assert_eq!(scene.request(r#"{"do":"future","from":0,"count":9}"#).unwrap(), future);
    let told = scene.request(r#"{"do":"parentof","entity":"9v9"}"#).unwrap();
    assert_eq!(told, r#"{"answer":"refused","number":1,"name":"NoSuchEntity"}"#);
    scene.request(r#"{"do":"begin"}"#).unwrap();
    assert!(matches!(scene.spawn(&[]), Err(Error::Bad(_))));
    assert_eq!(scene.request(r#"{"do":"spawn","cells":{}}"#), Ok("queued".to_owned()));
    for misplaced in [r#"{"do":"undo"}"#, r#"{"do":"undo","count":1}"#, r#"{"do":"status"}"#] {
        assert!(scene.request(misplaced).unwrap_err().to_string().starts_with("a frame is open"));
    }
    assert!(scene.drop_frame());
    scene.line("jump").unwrap_err();
    let answer = scene.play_request(br#"{"do":"spawn","cells":{"Helth":1}}"#).unwrap();
    assert_eq!(answer.outcome, Outcome::Bad("\"cells.Helth\" is no key of the request".to_owned()));
    for bad in [&b"{"[..], b"", b"\xff", br#"{"do":"jump"}"#, b"undo"] {
        let answer = scene.play_request(bad).unwrap();
        assert!(matches!(&answer.outcome, Outcome::Bad(reason) if !reason.is_empty()), "{answer:?}");
    }
    assert_eq!((scene.rows().unwrap().len(), scene.status().unwrap().undo), (0, 0));
    let error = Scene::new().unwrap().request(r#"{"do":"load","text":"{\"scene\":3}"}"#).unwrap_err();
    assert_eq!(error.to_string(), "fault 53 BadVersion 3");
}
