//! Columns of texts, as far as the room for their bytes goes, and beyond.
use scene::{Entity, Fault, Filter, Kind, KindSet, Scene, Shape, Value};

/// Texts with characters of one to four bytes, empty ones, and some longer than the room that is given at first.
fn text(number: usize) -> String {
    match number % 300 {
        7 => "\u{1f415}".repeat(10_000),
        8 => "x".repeat(16_384),
        9 => "y".repeat(16_385),
        rest => ["", "a", "\0", "\u{e9}\u{65e5}", "two words\n"][rest % 5].repeat(number % 4),
    }
}

fn with_texts(count: usize) -> (Scene, Kind, Vec<Entity>) {
    let mut scene = Scene::new().unwrap();
    let name = scene.declare("Name", Shape::Text).unwrap();
    let mut frame = scene.frame();
    for number in 0..count {
        frame.spawn(&[name.of(text(number))]);
    }
    let made = frame.commit().unwrap();
    (scene, name, made)
}

#[test]
fn texts_come_in_the_order_of_their_rows() {
    for count in [1, 2, 8, 10, 511, 512, 513, 1_300] {
        let (scene, name, made) = with_texts(count);
        let only = KindSet::of(&[name]);
        let wanted: Vec<String> = (0..count).map(text).collect();
        assert_eq!(scene.entities(only).unwrap(), made);
        assert!(scene.column::<String>(only, name).unwrap() == wanted, "{count}");
        assert!(scene.query::<String>(name).unwrap().eq(wanted.iter().cloned()), "{count}");
        assert!(scene.query::<Value>(name).unwrap().eq(wanted.iter().map(|text| Value::from(text.as_str()))));
        assert!(scene.rows().unwrap().zip(wanted).all(|(row, text)| row.value(name) == Some(&Value::Text(text))));
    }
}

#[test]
fn one_text_alone_may_be_longer_than_any_room() {
    let mut scene = Scene::new().unwrap();
    let name = scene.declare("Name", Shape::Text).unwrap();
    let long = "\u{65e5}\u{e9}a".repeat(200_000);
    for text in ["short", &long, "", &long] {
        scene.spawn(&[name.of(text)]).unwrap();
    }
    let texts: Vec<String> = scene.query(name).unwrap().collect();
    assert!(texts == ["short", &long, "", &long]);
}

#[test]
fn texts_go_with_other_columns() {
    let mut scene = Scene::new().unwrap();
    let [name, note] = ["Name", "Note"].map(|kind| scene.declare(kind, Shape::Text).unwrap());
    let health = scene.declare("Health", Shape::Int).unwrap();
    for number in 0..600 {
        let mut cells = vec![name.of(text(number)), health.of(number as i64)];
        if number % 2 == 0 {
            cells.push(note.of(text(number + 1)));
        }
        scene.spawn(&cells).unwrap();
    }
    let rows: Vec<(String, i64, String)> = scene.query([name, health, note]).unwrap().collect();
    assert_eq!(rows.len(), 300);
    for (first, number, second) in rows {
        assert!(first == text(number as usize) && second == text(number as usize + 1), "{number}");
    }
    let read: usize = scene.query_without::<String>(name, &[note]).unwrap().map(|_| 1).sum();
    assert_eq!(read, 300);
}

#[test]
fn a_column_of_texts_may_be_empty_or_none() {
    let mut scene = Scene::new().unwrap();
    let name = scene.declare("Name", Shape::Text).unwrap();
    let health = scene.declare("Health", Shape::Int).unwrap();
    let [names, lives] = [name, health].map(|kind| KindSet::of(&[kind]));
    // In the setup too, which it ends.
    assert_eq!(scene.column::<String>(names, name), Ok(Vec::new()));
    assert_eq!(scene.query::<String>(name).unwrap().next(), None);
    scene.spawn(&[health.of(1)]).unwrap();
    let fault = |came: Result<Vec<String>, scene::Error>| came.unwrap_err().refusal().unwrap().fault;
    assert_eq!(fault(scene.column(lives, name)), Fault::NotPresent);
    assert_eq!(fault(scene.column(lives, health)), Fault::WrongShape);
}

#[test]
fn texts_are_read_as_they_are_now() {
    let (mut scene, name, made) = with_texts(20);
    scene.insert_all(made.iter().map(|entity| (*entity, name.of(entity.to_string())))).unwrap();
    scene.despawn(made[0]).unwrap();
    let table = scene.tables(Filter::need(&[name])).unwrap()[0];
    let entities = scene.entities(table.kinds).unwrap();
    let texts: Vec<String> = entities.iter().map(Entity::to_string).collect();
    assert_eq!(scene.column::<String>(table.kinds, name), Ok(texts));
    scene.undo_by(2).unwrap();
    assert!(scene.column::<String>(table.kinds, name).unwrap() == (0..20).map(text).collect::<Vec<_>>());
}
