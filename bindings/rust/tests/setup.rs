//! What a scene has beside its entities: its kinds, and how far can be undone.
use scene::{Error, Fault, Kind, Scene, Shape};

fn fault<T: std::fmt::Debug>(came: Result<T, Error>) -> Fault {
    came.unwrap_err().refusal().unwrap().fault
}

/// Why a call is bad, in words.
fn reason<T: std::fmt::Debug>(came: Result<T, Error>) -> String {
    match came {
        Err(Error::Bad(reason)) => reason,
        other => panic!("{other:?}"),
    }
}

/// A scene of as many frames, each a spawn.
fn with_frames(count: usize) -> Scene {
    let mut scene = Scene::new().unwrap();
    for _ in 0..count {
        scene.spawn(&[]).unwrap();
    }
    scene
}

/// How many frames can be undone, and redone; and the depth.
fn lengths(scene: &Scene) -> (u64, u64, u32) {
    let status = scene.status().unwrap();
    (status.undo, status.redo, status.depth)
}

#[test]
fn kinds_have_their_shapes_and_numbers() {
    let mut scene = Scene::new().unwrap();
    let shapes = [Shape::Tag, Shape::Int, Shape::Vec3, Shape::Text, Shape::Link];
    let declared = shapes.map(|shape| scene.declare(&format!("Of_{shape}"), shape).unwrap());
    assert_eq!(declared.map(Kind::number), [0, 1, 2, 3, 4]);
    let kinds: Vec<_> = scene.kinds().collect();
    assert!(kinds.into_iter().eq(declared.into_iter().zip(shapes).map(|(kind, shape)| (
        kind,
        format!("Of_{shape}"),
        shape
    ))));
    // A line declares too, and the next number is the one behind it.
    scene.line("kind Lined Int").unwrap();
    assert_eq!(scene.declare("Last", Shape::Tag).unwrap().number(), 6);
}

#[test]
fn a_name_that_isnt_good_or_is_taken_is_refused() {
    let mut scene = Scene::new().unwrap();
    let longest = "a".repeat(32);
    let first = scene.declare(&longest, Shape::Int).unwrap();
    for name in ["", " ", "a b", " a", "9", "_a", "a-b", "a\n", "a\0", "\u{e9}", &"a".repeat(33)] {
        assert_eq!(fault(scene.declare(name, Shape::Int)), Fault::BadName, "{name}");
    }
    assert_eq!(fault(scene.declare(&longest, Shape::Text)), Fault::KindTaken);
    // Nothing of it was done, and the setup goes on.
    assert_eq!((scene.kinds().count(), scene.kind(&longest)), (1, Some(first)));
    for number in 1..64 {
        scene.declare(&format!("K{number}"), Shape::Int).unwrap();
    }
    assert_eq!(fault(scene.declare("K64", Shape::Int)), Fault::KindsFull);
    assert_eq!(fault(scene.declare("K1", Shape::Int)), Fault::KindTaken);
}

#[test]
fn behind_the_setup_kinds_are_declared_too() {
    let mut scene = with_frames(3);
    let first = scene.roots().unwrap()[0];
    scene.undo().unwrap();
    let late = scene.declare("Late", Shape::Int).unwrap();
    assert_eq!(fault(scene.declare("Late", Shape::Tag)), Fault::KindTaken);
    assert_eq!((lengths(&scene), late.number()), ((2, 1, 1_048_576), 0));
    scene.line("begin").unwrap();
    let later = scene.declare("Later", Shape::Text).unwrap();
    assert_eq!(scene.line("insert 0v1 Later=word").unwrap(), "queued");
    assert_eq!(scene.line("commit").unwrap(), "done");
    scene.insert(first, late, 7).unwrap();
    let mut loaded = Scene::load(&scene.save().unwrap()).unwrap();
    let last = loaded.declare("Last", Shape::Tag).unwrap();
    assert_eq!((last.number(), loaded.kinds().count()), (2, 3));
    for scene in [&mut scene, &mut loaded] {
        assert_eq!((scene.get(first, late), scene.get::<String>(first, later)), (Ok(7), Ok("word".to_owned())));
        scene.undo_by(4).unwrap();
        assert_eq!((scene.kind("Late"), scene.kind("Later")), (Some(late), Some(later)));
        assert_eq!(scene.rows().unwrap().len(), 0);
        scene.redo_by(3).unwrap();
        assert_eq!(fault(scene.get::<i64>(first, late)), Fault::NotPresent);
        scene.redo().unwrap();
        assert_eq!(scene.get(first, late), Ok(7));
    }
}

#[test]
fn a_kind_takes_back_nothing_of_an_open_frame() {
    let mut scene = with_frames(1);
    scene.line("begin").unwrap();
    scene.line("spawn").unwrap();
    let late = scene.request(r#"{"do":"declare","name":"Late","shape":"Int"}"#).unwrap();
    assert_eq!((late.as_str(), scene.line("spawn Late=5").unwrap().as_str()), ("ok", "queued"));
    assert!(scene.drop_frame());
    assert_eq!((scene.kind("Late").map(Kind::number), scene.rows().unwrap().len()), (Some(0), 1));
}

#[test]
fn a_depth_is_how_many_frames_can_be_undone() {
    let mut scene = with_frames(9);
    assert_eq!(lengths(&scene), (9, 0, 1_048_576));
    scene.set_depth(5).unwrap();
    assert_eq!(lengths(&scene), (5, 0, 5));
    // A greater one brings nothing back.
    scene.set_depth(1_048_576).unwrap();
    assert_eq!(lengths(&scene), (5, 0, 1_048_576));
    scene.undo_by(2).unwrap();
    scene.set_depth(2).unwrap();
    // What can be redone stays, and is cut as it is redone.
    assert_eq!(lengths(&scene), (2, 2, 2));
    scene.redo_by(2).unwrap();
    assert_eq!((lengths(&scene), scene.rows().unwrap().len()), ((2, 0, 2), 9));
    scene.undo_by(2).unwrap();
    assert_eq!((fault(scene.undo()), scene.rows().unwrap().len()), (Fault::NothingToUndo, 7));
}

#[test]
fn a_depth_is_set_in_the_setup_and_in_an_open_frame() {
    let mut scene = Scene::new().unwrap();
    scene.set_depth(1).unwrap();
    scene.declare("Health", Shape::Int).unwrap();
    for _ in 0..3 {
        scene.spawn(&[]).unwrap();
    }
    assert_eq!(lengths(&scene), (1, 0, 1));
    scene.line("begin").unwrap();
    scene.line("spawn").unwrap();
    scene.set_depth(3).unwrap();
    assert_eq!((scene.line("commit").unwrap(), lengths(&scene)), ("done 3v1".to_owned(), (2, 0, 3)));
    // A loaded scene has a depth of its own.
    let mut loaded = Scene::load(&scene.save().unwrap()).unwrap();
    loaded.set_depth(1).unwrap();
    assert_eq!((lengths(&loaded), lengths(&scene)), ((1, 0, 1), (2, 0, 3)));
}

#[test]
fn another_depth_is_bad_and_changes_nothing() {
    let mut scene = with_frames(3);
    // The words are of this call, not of the line before.
    scene.line("jump").unwrap_err();
    for depth in [0, 1_048_577, u32::MAX] {
        assert_eq!(reason(scene.set_depth(depth)), "a record is kept of 1 to 1,048,576 frames");
    }
    assert_eq!(lengths(&scene), (3, 0, 1_048_576));
}
