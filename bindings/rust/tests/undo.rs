//! Undo and redo, and what was changed.
use scene::{Error, Fault, Kind, Scene, Shape};

fn begun() -> (Scene, Kind, Kind) {
    let mut scene = Scene::new().unwrap();
    let name = scene.declare("Name", Shape::Text).unwrap();
    let health = scene.declare("Health", Shape::Int).unwrap();
    (scene, name, health)
}

#[test]
fn undo_gives_back_each_world() {
    let (mut scene, name, health) = begun();
    let mut texts = vec![scene.line("show").unwrap()];
    let cat = scene.spawn(&[name.of("cat"), health.of(9)]).unwrap();
    texts.push(scene.line("show").unwrap());
    let dog = scene.spawn(&[name.of("dog")]).unwrap();
    texts.push(scene.line("show").unwrap());
    scene.set_parent(dog, cat).unwrap();
    texts.push(scene.line("show").unwrap());
    scene.insert(dog, health, 7).unwrap();
    texts.push(scene.line("show").unwrap());
    scene.despawn_all(cat).unwrap();
    texts.push(scene.line("show").unwrap());
    for text in texts.iter().rev().skip(1) {
        scene.undo().unwrap();
        assert_eq!(&scene.line("show").unwrap(), text);
    }
    assert!(scene.undo().is_err());
    for text in &texts[1..] {
        scene.redo().unwrap();
        assert_eq!(&scene.line("show").unwrap(), text);
    }
    assert!(scene.redo().is_err());
}

#[test]
fn a_new_frame_ends_the_future() {
    let (mut scene, _, health) = begun();
    let cat = scene.spawn(&[health.of(9)]).unwrap();
    scene.insert(cat, health, 5).unwrap();
    scene.undo().unwrap();
    scene.insert(cat, health, 6).unwrap();
    assert_eq!(scene.redo().unwrap_err().refusal().unwrap().fault, Fault::NothingToRedo);
    assert_eq!(scene.get(cat, health), Ok(6));
}

#[test]
fn changed_lists_what_was_written() {
    let (mut scene, name, health) = begun();
    let cat = scene.spawn(&[name.of("cat"), health.of(9)]).unwrap();
    let all: Vec<_> = scene.changed().unwrap().collect();
    assert_eq!(all, [(cat, name), (cat, health)]);
    scene.mark().unwrap();
    assert_eq!(scene.changed().unwrap().next(), None);
    let dog = scene.spawn(&[name.of("dog")]).unwrap();
    scene.insert(cat, health, 9).unwrap();
    let since: Vec<_> = scene.changed().unwrap().collect();
    assert_eq!(since, [(dog, name), (cat, health)]);
    // What the calls list, a line lists too.
    assert_eq!(scene.line("changed").unwrap(), format!("changed 2\n{dog} Name\n{cat} Health"));
}

#[test]
fn after_an_undo_changed_is_refused() {
    let (mut scene, _, health) = begun();
    let cat = scene.spawn(&[health.of(9)]).unwrap();
    scene.mark().unwrap();
    scene.insert(cat, health, 5).unwrap();
    scene.undo().unwrap();
    match scene.changed() {
        Err(Error::Refused(refusal)) => assert_eq!((refusal.fault, refusal.place), (Fault::Rewound, None)),
        other => panic!("{:?}", other.map(Iterator::count)),
    }
    assert_eq!(scene.line("changed").unwrap_err().refusal().unwrap().fields, "1");
    scene.mark().unwrap();
    assert_eq!(scene.changed().unwrap().count(), 0);
}
