//! Entities, kinds, values, and the rows that have them.
use scene::{Cell, Entity, Fault, NoEntity, Row, Scene, Shape, Value};

/// Texts that a line couldn't have, or that something on the way could spoil.
const TEXTS: [&str; 14] = [
    "",
    " ",
    "two words",
    "\n",
    "a\r\nb\r",
    "\0",
    "a\0b",
    "\"\\\"",
    "\u{1}\u{1f}\t\u{8}\u{c}",
    "\u{7f}\u{85}\u{2028}",
    "@1/1 B=2",
    "\u{e9}\u{65e5}\u{1f415}",
    "row 0v1",
    "\\u0041",
];

#[test]
fn texts_come_back_as_they_were() {
    let mut scene = Scene::new().unwrap();
    let name = scene.declare("Name", Shape::Text).unwrap();
    let other = scene.declare("Other", Shape::Text).unwrap();
    for text in TEXTS {
        let entity = scene.spawn(&[name.of(text)]).unwrap();
        scene.insert(entity, other, text.to_owned()).unwrap();
        assert_eq!(scene.get::<String>(entity, name).as_deref(), Ok(text));
        assert_eq!(scene.get::<Value>(entity, other), Ok(Value::from(text)));
    }
    let rows: Vec<Row> = scene.rows().unwrap().collect();
    assert_eq!(rows.len(), TEXTS.len());
    for (row, text) in rows.iter().zip(TEXTS) {
        assert_eq!(row.value(name), Some(&Value::from(text)));
        assert_eq!(row.value(other), Some(&Value::from(text)));
    }
    let loaded = Scene::load(&scene.save().unwrap()).unwrap();
    assert_eq!(loaded.rows().unwrap().collect::<Vec<_>>(), rows);
}

#[test]
fn a_long_text_comes_back() {
    let mut scene = Scene::new().unwrap();
    let name = scene.declare("Name", Shape::Text).unwrap();
    let text = "a long text\u{e9} ".repeat(100_000);
    let entity = scene.spawn(&[name.of(text.as_str())]).unwrap();
    assert_eq!(scene.get(entity, name), Ok(text));
}

#[test]
fn values_come_back_as_they_were() {
    let mut scene = Scene::new().unwrap();
    let tag = scene.declare("T", Shape::Tag).unwrap();
    let int = scene.declare("I", Shape::Int).unwrap();
    let vec3 = scene.declare("V", Shape::Vec3).unwrap();
    let link = scene.declare("L", Shape::Link).unwrap();
    for number in [0, 1, -1, i64::MAX, i64::MIN] {
        let linked = Entity { index: u32::MAX, generation: number as u32 };
        let cells = [tag.of(()), int.of(number), vec3.of([number, 0, i64::MIN]), link.of(linked)];
        let entity = scene.spawn(&cells).unwrap();
        for (kind, value) in &cells {
            assert_eq!(scene.get::<Value>(entity, *kind).as_ref(), Ok(value));
        }
        let row = scene.rows().unwrap().last().unwrap();
        let read: Vec<_> = row.cells.iter().map(|cell| (cell.kind, cell.value.clone())).collect();
        assert_eq!((row.entity, read.as_slice()), (entity, cells.as_slice()));
    }
}

#[test]
fn entities_and_their_texts() {
    for (index, generation) in [(0, 1), (3, 1), (u32::MAX, u32::MAX), (10, 0)] {
        let entity = Entity { index, generation };
        assert_eq!(entity.to_string().parse(), Ok(entity));
    }
    assert_eq!("3v1".parse(), Ok(Entity { index: 3, generation: 1 }));
    for text in
        ["", "v", "3", "3v", "v1", "3v1v1", "+3v1", "3v-1", "03v1", "3v01", "3v1 ", "3V1", "4294967296v1", "\u{663}v1"]
    {
        assert_eq!(text.parse::<Entity>(), Err(NoEntity), "{text}");
    }
    let mut scene = Scene::new().unwrap();
    let first = scene.spawn(&[]).unwrap();
    scene.despawn(first).unwrap();
    let again = scene.spawn(&[]).unwrap();
    assert_eq!((first.index, first.generation, again.index, again.generation), (0, 1, 0, 2));
    let set = std::collections::HashSet::from([first, again, first]);
    assert_eq!(set.len(), 2);
}

#[test]
fn kinds_are_counted_and_found() {
    let mut scene = Scene::new().unwrap();
    for number in 0..64 {
        let kind = scene.declare(&format!("K{number}"), Shape::Int).unwrap();
        assert_eq!(kind.number(), number);
    }
    assert_eq!(scene.declare("K64", Shape::Int).unwrap_err().refusal().unwrap().fault, Fault::KindsFull);
    assert_eq!(scene.kind("K63").map(|kind| kind.number()), Some(63));
    let last = scene.kind("K63").unwrap();
    let entity = scene.spawn(&[last.of(1)]).unwrap();
    assert_eq!(scene.get(entity, last), Ok(1));
    let mut scene = Scene::new().unwrap();
    assert_eq!(scene.play(b"  kind   A  Int ").unwrap().text, "ok\n");
    assert_eq!(scene.kinds().count(), 1);
}

#[test]
fn rows_are_those_of_the_world() {
    let mut scene = Scene::new().unwrap();
    let name = scene.declare("Name", Shape::Text).unwrap();
    let health = scene.declare("Health", Shape::Int).unwrap();
    let cat = scene.spawn(&[health.of(9), name.of("cat")]).unwrap();
    let lamp = scene.spawn(&[]).unwrap();
    scene.insert(cat, health, 5).unwrap();
    scene.line("put row Text=row").unwrap();
    scene.set_parent(lamp, cat).unwrap();
    let rows: Vec<Row> = scene.rows().unwrap().collect();
    let named = Cell { kind: name, value: Value::from("cat"), added: 1, changed: 1 };
    let alive = Cell { kind: health, value: Value::Int(5), added: 1, changed: 3 };
    assert_eq!(rows, [Row { entity: lamp, cells: Vec::new() }, Row { entity: cat, cells: vec![named, alive] }]);
}

#[test]
fn lines_are_bytes() {
    let mut scene = Scene::new().unwrap();
    for (line, text) in [
        (&b""[..], ""),
        (b"   ", ""),
        (b"# \xe2\x82\xac", ""),
        (b"# \xff", "bad line\n"),
        (b"\0", "bad line\n"),
        (b"show\r", "bad line\n"),
        (b"show", "tick 0\ngens\nfree\n"),
    ] {
        assert_eq!(scene.play(line).unwrap().text, text);
    }
}
