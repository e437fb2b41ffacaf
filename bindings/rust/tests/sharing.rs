//! Sharing: several threads read one scene at once, and it goes on behind that.
use scene::{
    Entity, Error, Fault, Filter, FrameStep, Kind, Resource, Row, Scene, Shape, SharedScene, Status, Step, Value,
};
use std::sync::Barrier;
use std::thread;

const COUNT: usize = 1500;
const THREADS: usize = 4;
const ROUNDS: usize = 8;

/// A scene of several tables, with a tree and resources, and with frames to undo and to redo.
fn begun() -> (Scene, Kind, Kind) {
    let mut scene = Scene::new().unwrap();
    let health = scene.declare("Health", Shape::Int).unwrap();
    let name = scene.declare("Name", Shape::Text).unwrap();
    let mut frame = scene.frame();
    let mut made = Vec::new();
    for number in 0..COUNT {
        let cells = [health.of(number as i64), name.of(format!("entity {number}"))];
        made.push(frame.spawn(&cells[..1 + number % 2]));
        if number > 3 {
            frame.set_parent(made[number], made[number / 3]);
        }
    }
    let made = frame.commit().unwrap();
    scene.put("motto", "onward").unwrap();
    scene.insert_all(made.iter().step_by(7).map(|entity| (*entity, health.of(-1)))).unwrap();
    scene.despawn_all(made[2]).unwrap();
    scene.insert(made[1], name, "another name").unwrap();
    scene.undo_by(2).unwrap();
    (scene, health, name)
}

/// All that is read of a scene.
#[derive(PartialEq)]
struct Seen {
    status: Status,
    rows: Vec<Row>,
    tree: Vec<(Entity, Option<Entity>, Vec<Entity>)>,
    roots: Vec<Entity>,
    resources: Vec<Resource>,
    found: Vec<(Entity, (i64, String))>,
    steps: Vec<FrameStep>,
    written: Vec<(Entity, Kind)>,
    saved: [String; 2],
}

fn seen(scene: &Scene, health: Kind, name: Kind) -> Seen {
    let rows: Vec<Row> = scene.rows().unwrap().collect();
    let tree = |row: &Row| {
        let entity = row.entity;
        assert_eq!(scene.kinds_of(entity).unwrap().contains(name), row.value(name).is_some());
        assert_eq!(scene.get::<Value>(entity, health).ok().as_ref(), row.value(health));
        (entity, scene.parent_of(entity).unwrap(), scene.children_of(entity).unwrap())
    };
    let past = (0..).map_while(|place| scene.past_step(place).unwrap());
    let future = (0..).map_while(|place| scene.future_step(place).unwrap());
    let mut moment = scene.now().unwrap();
    moment.tick -= 1;
    Seen {
        status: scene.status().unwrap(),
        tree: rows.iter().map(tree).collect(),
        rows,
        roots: scene.roots().unwrap(),
        resources: scene.resources().unwrap(),
        found: scene.query::<(i64, String)>([health, name]).unwrap().with_entities().collect(),
        steps: past.chain(future).collect(),
        written: scene.changed_since(moment, Filter::need(&[health])).unwrap(),
        saved: [scene.save().unwrap(), scene.save_world().unwrap()],
    }
}

#[test]
fn threads_read_at_once_what_was_there_before() {
    let (scene, health, name) = begun();
    let wanted = seen(&scene, health, name);
    assert!(wanted.steps.len() == 5 && !wanted.written.is_empty() && wanted.rows.len() > COUNT / 2);
    let shared = scene.share().unwrap();
    let (start, wanted) = (&Barrier::new(THREADS), &wanted);
    thread::scope(|threads| {
        for _ in 0..THREADS {
            let reader = shared.try_clone().unwrap();
            threads.spawn(move || {
                for _ in 0..ROUNDS {
                    start.wait();
                    let further = reader.try_clone().unwrap();
                    assert!(seen(&reader, health, name) == *wanted && seen(&further, health, name) == *wanted);
                }
            });
        }
        assert!(seen(&shared, health, name) == *wanted);
    });
    let mut scene = shared.into_scene().unwrap();
    assert!(seen(&scene, health, name) == *wanted);
    scene.redo_by(2).unwrap();
    scene.undo_by(2).unwrap();
    assert_eq!([scene.save().unwrap(), scene.save_world().unwrap()], wanted.saved);
    scene.undo_by(3).unwrap();
    assert_eq!((scene.rows().unwrap().len(), scene.status().unwrap().tick), (0, 0));
}

#[test]
fn a_scene_stays_shared_while_others_have_it() {
    let (scene, health, name) = begun();
    let wanted = seen(&scene, health, name);
    let first = scene.share().unwrap();
    let second = first.try_clone().unwrap();
    let third = second.try_clone().unwrap();
    let first = first.into_scene().unwrap_err();
    drop(second);
    let third = third.into_scene().unwrap_err();
    assert!(seen(&first, health, name) == wanted && seen(&third, health, name) == wanted);
    // The first one is let go first, and the one that is left goes on, in another thread.
    drop(first);
    let going_on = thread::spawn(move || {
        let mut scene = third.into_scene().unwrap();
        scene.undo().unwrap();
        scene
    });
    let mut scene = going_on.join().unwrap();
    scene.redo().unwrap();
    assert_eq!([scene.save().unwrap(), scene.save_world().unwrap()], wanted.saved);
    // It is shared as often as one likes.
    let shared = scene.share().unwrap().into_scene().unwrap().share().unwrap();
    let last = shared.try_clone().unwrap();
    drop(shared);
    thread::spawn(move || drop(last)).join().unwrap();
}

#[test]
fn clones_are_made_and_let_go_by_any_thread() {
    let (scene, health, _) = begun();
    let sum: i64 = scene.query::<i64>(health).unwrap().sum();
    let shared = scene.share().unwrap();
    thread::scope(|threads| {
        for _ in 0..THREADS {
            let reader = shared.try_clone().unwrap();
            threads.spawn(move || {
                let further: Vec<SharedScene> = (0..100).map(|_| reader.try_clone().unwrap()).collect();
                drop(reader);
                assert!(further.iter().step_by(30).all(|one| one.query::<i64>(health).unwrap().sum::<i64>() == sum));
            });
        }
    });
    shared.into_scene().unwrap().undo().unwrap();
}

#[test]
fn sharing_ends_the_setup() {
    let mut scene = Scene::new().unwrap();
    let health = scene.declare("Health", Shape::Int).unwrap();
    let shared = scene.share().unwrap();
    let reader = shared.try_clone().unwrap();
    assert_eq!((reader.kind("Health"), reader.kinds().count()), (Some(health), 1));
    assert_eq!((reader.status().unwrap().kinds, reader.rows().unwrap().len()), (1, 0));
    drop(reader);
    let mut scene = shared.into_scene().unwrap();
    let error = scene.line("kind Late Tag").unwrap_err();
    assert!(error.to_string().starts_with("the setup has ended"));
    scene.spawn(&[health.of(1)]).unwrap();
}

#[test]
fn a_frame_that_a_line_opened_stays_open() {
    let (mut scene, health, _) = begun();
    let before = scene.save_world().unwrap();
    scene.line("begin").unwrap();
    scene.line("spawn Health=8").unwrap();
    let shared = scene.share().unwrap();
    assert!(shared.status().unwrap().in_frame);
    assert_eq!(shared.save_world().unwrap(), before);
    let other = shared.try_clone().unwrap();
    drop(shared);
    let mut scene = other.into_scene().unwrap();
    assert!(matches!(scene.spawn(&[]), Err(Error::Bad(_))));
    let answer = scene.line("commit").unwrap();
    let made: Entity = answer.strip_prefix("done ").unwrap().parse().unwrap();
    assert_eq!(scene.get(made, health), Ok(8));
}

#[test]
fn what_a_scene_has_beside_its_world_stays() {
    let (mut scene, health, _) = begun();
    scene.mark().unwrap();
    let cat = scene.spawn(&[health.of(9)]).unwrap();
    scene.system("age", Filter::need(&[health]), &[Step::AddInt { to: health, by: -1 }]).unwrap();
    let shared = scene.share().unwrap();
    assert_eq!(shared.check_systems(), Ok(()));
    let mut scene = shared.into_scene().unwrap();
    assert_eq!(scene.changed().unwrap().collect::<Vec<_>>(), [(cat, health)]);
    scene.advance().unwrap();
    assert_eq!(scene.get(cat, health), Ok(8));
    scene.undo().unwrap();
    let error = scene.changed().unwrap_err();
    assert_eq!(error.refusal().map(|refusal| refusal.fault), Some(Fault::Rewound));
}
