//! Steps of several frames, and following by moments.
use scene::{Error, Fault, Filter, Kind, Scene, Shape};

fn begun() -> (Scene, Kind, Kind) {
    let mut scene = Scene::new().unwrap();
    let name = scene.declare("Name", Shape::Text).unwrap();
    let health = scene.declare("Health", Shape::Int).unwrap();
    (scene, name, health)
}

fn fault<T: std::fmt::Debug>(came: Result<T, Error>) -> Fault {
    came.unwrap_err().refusal().unwrap().fault
}

/// How many frames can be undone, and redone.
fn lengths(scene: &Scene) -> (u64, u64) {
    let status = scene.status().unwrap();
    (status.undo, status.redo)
}

#[test]
fn a_step_takes_all_its_frames_or_none() {
    let (mut scene, _, health) = begun();
    let cat = scene.spawn(&[health.of(0)]).unwrap();
    for number in 1..=9 {
        scene.insert(cat, health, number).unwrap();
    }
    assert_eq!(fault(scene.undo_by(11)), Fault::NothingToUndo);
    assert_eq!((scene.get(cat, health), lengths(&scene)), (Ok(9), (10, 0)));
    scene.undo_by(4).unwrap();
    assert_eq!((scene.get(cat, health), lengths(&scene)), (Ok(5), (6, 4)));
    assert_eq!(fault(scene.redo_by(5)), Fault::NothingToRedo);
    scene.undo_by(0).unwrap();
    scene.redo_by(3).unwrap();
    assert_eq!((scene.get(cat, health), lengths(&scene)), (Ok(8), (9, 1)));
    scene.undo_by(9).unwrap();
    assert!(!scene.is_alive(cat).unwrap());
    assert_eq!(scene.status().unwrap().rewinds, 13);
    scene.line("begin").unwrap();
    assert!(matches!(scene.redo_by(1), Err(Error::Bad(_))));
    assert!(scene.drop_frame());
    scene.redo_by(10).unwrap();
    assert_eq!(scene.get(cat, health), Ok(9));
}

#[test]
fn a_step_that_would_pass_a_limit_of_calls_is_none() {
    let (mut scene, ..) = begun();
    scene.line("calls 5").unwrap();
    for _ in 0..3 {
        scene.spawn(&[]).unwrap();
    }
    assert_eq!(fault(scene.undo_by(3)), Fault::HistoryFull);
    assert_eq!((lengths(&scene), scene.line("history").unwrap().as_str()), ((3, 0), "history 3"));
    scene.undo_by(2).unwrap();
    assert_eq!(fault(scene.redo_by(1)), Fault::HistoryFull);
    assert_eq!(lengths(&scene), (1, 2));
}

#[test]
fn each_view_has_a_moment_of_its_own() {
    let (mut scene, name, health) = begun();
    let cat = scene.spawn(&[health.of(9)]).unwrap();
    let first = scene.now().unwrap();
    scene.insert(cat, health, 5).unwrap();
    let dog = scene.spawn(&[name.of("dog")]).unwrap();
    let second = scene.now().unwrap();
    scene.insert(cat, name, "cat").unwrap();
    let third = scene.now().unwrap();
    let all = Filter::all();
    assert_eq!(scene.changed_since(first, all).unwrap(), [(dog, name), (cat, name), (cat, health)]);
    assert_eq!(scene.added_since(first, all).unwrap(), [(dog, name), (cat, name)]);
    assert_eq!(scene.changed_since(second, all).unwrap(), [(cat, name)]);
    assert_eq!(scene.changed_since(first, Filter::need(&[health])).unwrap(), [(cat, name), (cat, health)]);
    assert_eq!(scene.added_since(first, all.without(&[health])).unwrap(), [(dog, name)]);
    assert_eq!(scene.changed_since(third, all).unwrap(), []);
    scene.undo().unwrap();
    for moment in [first, second, third] {
        let error = scene.changed_since(moment, all).unwrap_err();
        assert_eq!(error.to_string(), "refused 18 Rewound 1");
        assert_eq!(scene.added_since(moment, all), Err(error));
    }
    let now = scene.now().unwrap();
    scene.redo().unwrap();
    assert_eq!(scene.changed_since(now, all).unwrap(), [(cat, name)]);
    assert_eq!((now.rewinds, now.tick + 1), (1, scene.now().unwrap().tick));
}

#[test]
fn a_long_list_of_changes_is_whole() {
    let (mut scene, _, health) = begun();
    let moment = scene.now().unwrap();
    let mut frame = scene.frame();
    for number in 0..500 {
        frame.spawn(&[health.of(number)]);
    }
    let made = frame.commit().unwrap();
    let wanted: Vec<_> = made.iter().map(|entity| (*entity, health)).collect();
    assert_eq!(scene.changed_since(moment, Filter::all()).unwrap(), wanted);
}

#[test]
fn reads_leave_the_last_answer() {
    let (mut scene, name, health) = begun();
    let cat = scene.spawn(&[name.of("cat"), health.of(9)]).unwrap();
    let mut frame = scene.frame();
    frame.spawn(&[]);
    assert_eq!(frame.commit().unwrap().len(), 1);
    scene.line("begin").unwrap();
    scene.line("insert 0v1 Health=5").unwrap();
    assert_eq!((scene.get(cat, health), scene.get(cat, name)), (Ok(9), Ok("cat".to_owned())));
    assert_eq!(scene.tables(Filter::all()).unwrap().len(), 2);
    assert_eq!(scene.line("commit").unwrap(), "done");
    assert_eq!(scene.get(cat, health), Ok(5));
}

#[test]
fn a_scene_goes_to_other_threads() {
    let (mut scene, name, health) = begun();
    let cat = scene.spawn(&[name.of("cat"), health.of(0)]).unwrap();
    for number in 1..=8 {
        scene = std::thread::spawn(move || {
            assert_eq!(scene.get::<i64>(cat, health), Ok(number - 1));
            scene.insert(cat, health, number).unwrap();
            scene
        })
        .join()
        .unwrap();
    }
    std::thread::scope(|threads| {
        threads.spawn(|| scene.undo_by(3).unwrap());
    });
    assert_eq!(scene.get(cat, health), Ok(5));
    let saved = scene.save().unwrap();
    std::thread::spawn(move || drop(scene)).join().unwrap();
    assert_eq!(Scene::load(&saved).unwrap().get(cat, health), Ok(5));
}
