//! Saving and loading.
use scene::{Error, Fault, Scene, Shape};

/// A scene with a past and a future.
fn edited() -> Scene {
    let mut scene = Scene::new().unwrap();
    let name = scene.declare("Name", Shape::Text).unwrap();
    let health = scene.declare("Health", Shape::Int).unwrap();
    let cat = scene.spawn(&[name.of("a \"cat\"\n"), health.of(9)]).unwrap();
    let dog = scene.spawn(&[name.of("\u{1f415}")]).unwrap();
    scene.set_parent(dog, cat).unwrap();
    scene.insert(cat, health, 5).unwrap();
    scene.undo().unwrap();
    scene
}

#[test]
fn a_loaded_scene_is_the_saved_one() {
    let mut scene = edited();
    let saved = scene.save().unwrap();
    assert!(!saved.contains('\n'));
    let mut other = Scene::load(&saved).unwrap();
    assert_eq!(other.save().unwrap(), saved);
    let kinds: Vec<_> = scene.kinds().collect();
    assert_eq!(other.kinds().collect::<Vec<_>>(), kinds);
    for step in [Scene::redo, Scene::undo, Scene::undo] {
        step(&mut scene).unwrap();
        step(&mut other).unwrap();
        assert_eq!(other.line("show"), scene.line("show"));
    }
    let health = other.kind("Health").unwrap();
    other.spawn(&[health.of(1)]).unwrap();
}

#[test]
fn a_text_with_white_space_is_loaded() {
    let scene = edited();
    let saved = scene.save().unwrap();
    let spaced = saved.replacen("\"kinds\":", "\r\n\t\"k\\u0069nds\" : ", 1) + "\n";
    assert_ne!(spaced, saved);
    let other = Scene::load(&spaced).unwrap();
    assert_eq!(other.kind("Health"), scene.kind("Health"));
    assert_eq!(other.save().unwrap(), saved);
}

#[test]
fn a_text_of_a_world_alone_is_loaded() {
    let mut scene = edited();
    let saved = scene.save_world().unwrap();
    assert_eq!(scene.line("dump").unwrap(), saved);
    let mut other = Scene::load(&saved).unwrap();
    assert_eq!(other.line("show"), scene.line("show"));
    assert_eq!(other.undo().unwrap_err().refusal().unwrap().fault, Fault::NothingToUndo);
    assert_eq!((other.save_world().unwrap(), other.status().unwrap().undo), (saved, 0));
}

#[test]
fn a_save_leaves_the_last_answer_and_an_open_frame() {
    let mut scene = edited();
    let (saved, world) = (scene.save().unwrap(), scene.save_world().unwrap());
    let status = scene.status().unwrap();
    scene.line("begin").unwrap();
    scene.line("spawn").unwrap();
    // It is the scene before the frame.
    assert_eq!((scene.save().unwrap(), scene.save_world().unwrap()), (saved.clone(), world));
    assert!(scene.status().unwrap().in_frame && scene.drop_frame());
    assert_eq!((scene.save().unwrap(), scene.status().unwrap()), (saved, status));
}

#[test]
fn a_save_ends_the_setup() {
    for save in [Scene::save, Scene::save_world] {
        let mut scene = Scene::new().unwrap();
        scene.declare("Name", Shape::Text).unwrap();
        assert!(Scene::load(&save(&scene).unwrap()).unwrap().kind("Name").is_some());
        assert!(matches!(scene.line("kind Late Tag"), Err(Error::Bad(_))));
    }
}

#[test]
fn saves_of_any_length_are_whole() {
    let mut scene = Scene::new().unwrap();
    // Around the room that is given at first, then shorter ones, then longer ones again.
    for length in [0, 16_000, 16_200, 16_300, 16_400, 10, 100_000, 110_000, 3] {
        scene.put("Text", "x".repeat(length)).unwrap();
        for saved in [scene.save().unwrap(), scene.save_world().unwrap()] {
            assert!(saved.starts_with('{') && saved.ends_with('}') && saved.contains(&"x".repeat(length)));
            assert_eq!(Scene::load(&saved).unwrap().resource("Text"), Ok("x".repeat(length)));
        }
    }
}

#[test]
fn what_is_too_long_is_refused_as_a_file_fault() {
    let mut scene = Scene::new().unwrap();
    // Each world is short enough, and both of them aren't.
    for text in ["x", "y"] {
        scene.put("Text", text.repeat(34_000_000)).unwrap();
    }
    for _ in 0..2 {
        let error = scene.save().unwrap_err();
        assert_eq!(error.to_string(), "fault 56 TooLong");
        assert_eq!((error.refusal().unwrap().fault, error.refusal().unwrap().place), (Fault::TooLong, None));
    }
    assert!(scene.save_world().unwrap().len() > 34_000_000);
    scene.set_depth(1).unwrap();
    scene.put("Text", "z").unwrap();
    assert!(scene.save().unwrap().len() > 34_000_000);
}

#[test]
fn a_line_loads_too() {
    let saved = edited().save().unwrap();
    let mut scene = Scene::new().unwrap();
    scene.declare("Other", Shape::Tag).unwrap();
    assert_eq!(scene.line(&format!("load   {saved}")), Ok("ok".to_owned()));
    assert_eq!((scene.kind("Other"), scene.kinds().count()), (None, 2));
    assert!(matches!(scene.line("kind Late Tag"), Err(Error::Bad(_))));
    scene.line("depth 1").unwrap();
    assert_eq!(scene.declare("Late", Shape::Tag).unwrap().number(), 2);
    let name = scene.kind("Name").unwrap();
    assert_eq!(scene.get("0v1".parse().unwrap(), name), Ok("a \"cat\"\n".to_owned()));
    scene.undo().unwrap();
    assert!(scene.undo().is_err());
}

#[test]
fn what_is_no_scene_is_refused_by_a_file_fault() {
    for (text, told) in [
        ("", "fault 50 NotJson"),
        ("{", "fault 50 NotJson"),
        ("[]", "fault 52 BadField \"\""),
        ("{\"scene\":3}", "fault 53 BadVersion 3"),
        ("{\"scene\":1,\"x\":0}", "fault 51 UnknownKey \"x\""),
    ] {
        let error = Scene::load(text).unwrap_err();
        assert_eq!(error.to_string(), told);
        assert_eq!(error.refusal().unwrap().place, None);
    }
    let saved = edited().save().unwrap();
    let spoilt = saved.replacen("\"generations\":[1,", "\"generations\":[0,", 1);
    assert_ne!(spoilt, saved);
    assert_eq!(Scene::load(&spoilt).unwrap_err().to_string(), "fault 40 BadWorld 2");
}

#[test]
fn a_refused_load_leaves_the_setup() {
    let mut scene = Scene::new().unwrap();
    let health = scene.declare("Health", Shape::Int).unwrap();
    assert!(scene.line("load {").is_err());
    assert_eq!(scene.kind("Health"), Some(health));
    scene.declare("Name", Shape::Text).unwrap();
    scene.spawn(&[health.of(9)]).unwrap();
}
