//! Reading by columns, and by queries.
use scene::{Entity, Error, Fault, Filter, Kind, KindSet, Scene, Shape, Table, Value};

/// How many entities there are, so that a table takes several parts of a query.
const COUNT: i64 = 3000;

/// A scene with entities of four kind sets, each with its number as its health.
struct Level {
    scene: Scene,
    health: Kind,
    at: Kind,
    name: Kind,
    friend: Kind,
    hidden: Kind,
    made: Vec<Entity>,
}

fn has_place(number: i64) -> bool {
    number % 3 != 0
}

fn has_rest(number: i64) -> bool {
    number % 5 == 0
}

fn place_of(number: i64) -> [i64; 3] {
    [number, -number, 7]
}

/// The one before, as a link.
fn friend_of(number: i64) -> Entity {
    Entity { index: number as u32, generation: 9 }
}

fn level() -> Level {
    let mut scene = Scene::new().unwrap();
    let health = scene.declare("Health", Shape::Int).unwrap();
    let at = scene.declare("At", Shape::Vec3).unwrap();
    let name = scene.declare("Name", Shape::Text).unwrap();
    let friend = scene.declare("Friend", Shape::Link).unwrap();
    let hidden = scene.declare("Hidden", Shape::Tag).unwrap();
    let mut frame = scene.frame();
    for number in 0..COUNT {
        let mut cells = vec![health.of(number)];
        if has_place(number) {
            cells.push(at.of(place_of(number)));
        }
        if has_rest(number) {
            cells.extend([name.of(format!("the {number}th\n")), friend.of(friend_of(number)), hidden.of(())]);
        }
        frame.spawn(&cells);
    }
    let made = frame.commit().unwrap();
    Level { scene, health, at, name, friend, hidden, made }
}

fn fault<T: std::fmt::Debug>(came: Result<T, Error>) -> Fault {
    came.unwrap_err().refusal().unwrap().fault
}

#[test]
fn columns_are_what_was_written() {
    let Level { scene, health, at, name, friend, hidden, made } = level();
    let mut read = 0;
    for Table { kinds, rows } in scene.tables(Filter::all()).unwrap() {
        let entities = scene.entities(kinds).unwrap();
        let numbers: Vec<i64> = scene.column(kinds, health).unwrap();
        assert_eq!((entities.len(), numbers.len()), (rows, rows));
        for (entity, number) in entities.iter().zip(&numbers) {
            assert_eq!(made[*number as usize], *entity);
            assert_eq!((has_place(*number), has_rest(*number)), (kinds.contains(at), kinds.contains(name)));
        }
        if kinds.contains(at) {
            let places: Vec<[i64; 3]> = scene.column(kinds, at).unwrap();
            assert!(places.iter().zip(&numbers).all(|(place, number)| *place == place_of(*number)));
        }
        if kinds.contains(name) {
            let names: Vec<String> = scene.column(kinds, name).unwrap();
            assert!(names.iter().zip(&numbers).all(|(name, number)| *name == format!("the {number}th\n")));
            let friends: Vec<Entity> = scene.column(kinds, friend).unwrap();
            assert!(friends.iter().zip(&numbers).all(|(friend, number)| *friend == friend_of(*number)));
            assert_eq!(scene.column::<()>(kinds, hidden).unwrap().len(), rows);
            let friends: Vec<Value> = scene.column(kinds, friend).unwrap();
            assert!(friends.iter().zip(&numbers).all(|(friend, number)| *friend == Value::Link(friend_of(*number))));
        }
        let ticks = scene.ticks(kinds, health).unwrap();
        assert!(ticks.len() == rows && ticks.iter().all(|ticks| (ticks.added, ticks.changed) == (1, 1)));
        read += rows;
    }
    assert_eq!(read, made.len());
}

#[test]
fn a_column_that_isnt_there_is_refused() {
    let Level { scene, health, at, hidden, .. } = level();
    let mut other = Scene::new().unwrap();
    let mut kinds = (0..6).map(|number| other.declare(&format!("K{number}"), Shape::Int).unwrap());
    let sixth = kinds.nth(5).unwrap();
    let only = KindSet::of(&[health]);
    assert_eq!(fault(scene.column::<[i64; 3]>(only, at)), Fault::NotPresent);
    assert_eq!(fault(scene.column::<i64>(only, at)), Fault::WrongShape);
    assert_eq!(fault(scene.column::<i64>(only, sixth)), Fault::NoSuchKind);
    assert_eq!(fault(scene.ticks(only, at)), Fault::NotPresent);
    assert_eq!(fault(scene.query::<i64>(sixth).map(Iterator::count)), Fault::NoSuchKind);
    assert_eq!(fault(scene.query::<(i64, i64)>([health, at]).map(Iterator::count)), Fault::WrongShape);
    // A set that no entity has, has empty columns.
    let none = KindSet::of(&[health, hidden]);
    assert_eq!(scene.column::<i64>(none, health), Ok(Vec::new()));
    assert_eq!(scene.entities(none), Ok(Vec::new()));
}

#[test]
fn a_query_gives_each_row_once() {
    let Level { scene, health, at, name, friend, hidden, made } = level();
    let mut left = scene.query::<(i64, [i64; 3])>([health, at]).unwrap().with_entities();
    let mut seen = vec![false; made.len()];
    while let Some((entity, (number, place))) = left.next() {
        assert_eq!((made[number as usize], place_of(number)), (entity, place));
        assert!(has_place(number) && !std::mem::replace(&mut seen[number as usize], true));
        assert_eq!(left.len(), made.iter().skip(1).filter(|one| has_place(one.index.into())).count() - count(&seen));
    }
    assert_eq!(left.next(), None);
    assert_eq!(count(&seen) as i64, (0..COUNT).filter(|number| has_place(*number)).count() as i64);

    let all: Vec<i64> = scene.query(health).unwrap().collect();
    assert_eq!((all.len() as i64, all.iter().sum::<i64>()), (COUNT, COUNT * (COUNT - 1) / 2));
    let mut rest = 0;
    for (text, link, (), number, value) in
        scene.query::<(String, Entity, (), i64, Value)>([name, friend, hidden, health, at]).unwrap()
    {
        assert_eq!((text, link, value), (format!("the {number}th\n"), friend_of(number), place_of(number).into()));
        rest += 1;
    }
    assert_eq!(rest, (0..COUNT).filter(|number| has_place(*number) && has_rest(*number)).count());
    let plain: Vec<i64> = scene.query_without(health, &[at, hidden]).unwrap().collect();
    assert!(plain.iter().all(|number| !has_place(*number) && !has_rest(*number)));
    assert_eq!(plain.len(), (0..COUNT).filter(|number| !has_place(*number) && !has_rest(*number)).count());
}

fn count(seen: &[bool]) -> usize {
    seen.iter().filter(|seen| **seen).count()
}

#[test]
fn gathered_are_those_that_are_there() {
    let Level { mut scene, health, at, name, made, .. } = level();
    scene.despawn(made[4]).unwrap();
    let asked = [made[4], made[3], made[5], made[3], Entity { index: u32::MAX, generation: 1 }];
    let names: Vec<Option<String>> = scene.gather(&asked, name).unwrap();
    assert_eq!(names, [None, None, Some("the 5th\n".to_owned()), None, None]);
    assert_eq!(scene.gather::<i64>(&asked, health).unwrap(), [None, Some(3), Some(5), Some(3), None]);
    assert_eq!(scene.gather(&asked, at).unwrap(), [None, None, Some(place_of(5)), None, None]);
    assert_eq!(scene.gather::<i64>(&[], health), Ok(Vec::new()));
    assert_eq!(fault(scene.gather::<i64>(&asked, at)), Fault::WrongShape);
}

#[test]
fn the_tree_is_what_was_made() {
    let Level { mut scene, made, .. } = level();
    for child in &made[1..200] {
        scene.set_parent(*child, made[0]).unwrap();
    }
    // A child goes last.
    scene.set_parent(made[1], made[0]).unwrap();
    let wanted: Vec<Entity> = made[2..200].iter().chain([&made[1]]).copied().collect();
    assert_eq!(scene.children_of(made[0]).unwrap(), wanted);
    assert_eq!(scene.parent_of(made[2]).unwrap(), Some(made[0]));
    assert_eq!(scene.parent_of(made[0]).unwrap(), None);
    let roots: Vec<Entity> = [made[0]].iter().chain(&made[200..]).copied().collect();
    assert_eq!(scene.roots().unwrap(), roots);
    scene.despawn_all(made[0]).unwrap();
    assert_eq!((scene.children_of(made[0]), scene.parent_of(made[2])), (Ok(Vec::new()), Ok(None)));
    assert_eq!((scene.is_alive(made[2]), fault(scene.kinds_of(made[2]))), (Ok(false), Fault::NoSuchEntity));
    assert_eq!(scene.roots().unwrap(), made[200..]);
}

#[test]
fn a_read_ends_the_setup_as_each_call_does() {
    type Read = Box<dyn Fn(&Scene) -> bool>;
    let mut scene = Scene::new().unwrap();
    let health = scene.declare("Health", Shape::Int).unwrap();
    assert_eq!((scene.kind("Health"), scene.kinds().count()), (Some(health), 1));
    scene.declare("Name", Shape::Text).unwrap();
    assert_eq!(scene.tables(Filter::all()), Ok(Vec::new()));
    assert!(matches!(scene.line("kind Late Tag"), Err(Error::Bad(_))));
    let nobody = Entity { index: 0, generation: 1 };
    let mut reads: Vec<Read> = Vec::new();
    reads.push(Box::new(|scene| scene.status().unwrap().tick == 0));
    reads.push(Box::new(move |scene| !scene.is_alive(nobody).unwrap()));
    reads.push(Box::new(move |scene| fault(scene.get::<i64>(nobody, health)) == Fault::NoSuchEntity));
    reads.push(Box::new(|scene| scene.roots() == Ok(Vec::new()) && scene.resources() == Ok(Vec::new())));
    reads.push(Box::new(|scene| fault(scene.resource::<i64>("score")) == Fault::NoSuchResource));
    reads.push(Box::new(|scene| scene.now().unwrap().tick == 0 && scene.rows().unwrap().len() == 0));
    for read in reads {
        let mut scene = Scene::new().unwrap();
        scene.declare("Health", Shape::Int).unwrap();
        assert!(read(&scene));
        assert!(scene.line("kind Late Tag").unwrap_err().to_string().starts_with("the setup has ended"));
        scene.spawn(&[health.of(9)]).unwrap();
    }
}
