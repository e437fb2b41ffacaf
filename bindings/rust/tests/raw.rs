//! The raw calls that take and fill lists, at the edges that the safe crate never comes to.
use scene_sys as raw;
use std::ptr;

/// Four texts: of no bytes, of one, with a byte 0, and of characters of two, three and four bytes.
const TEXTS: [&str; 4] = ["", "a", "b\0c", "\u{e9}\u{65e5}\u{1f415}"];

/// A scene of the library, which is closed at the end, with an integer, a text and a link as kinds.
struct Raw(*mut raw::scene);

impl Raw {
    fn new() -> Raw {
        let mut at = ptr::null_mut();
        // SAFETY: the library only writes to `at`.
        assert_eq!(unsafe { raw::scene_open(&mut at) }, raw::SCENE_DONE);
        let mut scene = Raw(at);
        let kinds = [("Life", raw::SCENE_INT), ("Name", raw::SCENE_TEXT), ("Aim", raw::SCENE_LINK)];
        for (number, (name, shape)) in (0..).zip(kinds) {
            assert_eq!(scene.declare(name.as_bytes(), shape), (raw::SCENE_DONE, number));
        }
        scene
    }

    /// The code, and the number of the kind; 99 where none is told.
    fn declare(&mut self, name: &[u8], shape: u32) -> (u32, u32) {
        let mut kind = 99;
        // SAFETY: all that is lent is there for the call, with its length.
        let code = unsafe { raw::scene_declare(&mut self.0, name.as_ptr(), name.len(), shape, &mut kind) };
        (code, kind)
    }

    /// The code, and the entity where one is told.
    fn spawn(&mut self, cells: &[raw::scene_cell], bytes: &[u8]) -> (u32, Option<raw::scene_entity>) {
        let (list, count, texts) = (cells.as_ptr(), cells.len(), bytes.as_ptr());
        let mut entity = raw::SCENE_NONE;
        // SAFETY: as in `declare`.
        let code = unsafe { raw::scene_spawn_cells(&mut self.0, list, count, texts, bytes.len(), &mut entity) };
        (code, (entity != raw::SCENE_NONE).then_some(entity))
    }

    fn insert(&mut self, entities: &[raw::scene_entity], cells: &[raw::scene_cell], bytes: &[u8]) -> u32 {
        let (targets, count, list) = (entities.as_ptr(), entities.len(), cells.as_ptr());
        // SAFETY: as in `declare`.
        unsafe { raw::scene_insert_cells(&mut self.0, targets, count, list, cells.len(), bytes.as_ptr(), bytes.len()) }
    }

    /// The code of a column of texts, the ends and the bytes that are told, and how many texts there are.
    fn texts(&mut self, from: usize, room: usize, bytes_room: usize) -> Lists<u8> {
        // SAFETY: as in `declare`.
        lists(b'?', room, bytes_room, |ends, bytes, told, total| unsafe {
            raw::scene_texts(&mut self.0, 2, 1, from, ends, room, bytes, bytes_room, told, total)
        })
    }

    /// The same of the rows of a step's deltas, whose components are told by their kinds.
    fn delta_rows(&mut self, (way, place): (u32, usize), from: usize, room: usize, cells_room: usize) -> Lists<u32> {
        // SAFETY: as in `declare`.
        let (code, ends, cells, total) = lists(cell(9, 9, 9, 9), room, cells_room, |ends, cells, told, total| unsafe {
            raw::scene_delta_rows(&mut self.0, way, place, from, ends, room, cells, cells_room, told, total)
        });
        (code, ends, cells.into_iter().map(|cell| cell.kind).collect(), total)
    }

    /// The same of the texts of a step's deltas.
    fn delta_texts(
        &mut self,
        (way, place): (u32, usize),
        which: u32,
        kind: u32,
        from: usize,
        room: usize,
    ) -> Lists<u8> {
        // SAFETY: as in `declare`.
        lists(b'?', room, 4, |ends, bytes, told, total| unsafe {
            raw::scene_delta_texts(&mut self.0, way, place, which, kind, from, ends, room, bytes, 4, told, total)
        })
    }

    /// The code, a part of the saved text of a version, and how long the text is.
    fn saved(&mut self, version: u32, from: usize, room: usize) -> (u32, Vec<u8>, usize) {
        let (mut bytes, mut total) = (vec![b'?'; room], 0);
        // SAFETY: as in `declare`.
        let code = unsafe { raw::scene_save_into(&mut self.0, version, from, bytes.as_mut_ptr(), room, &mut total) };
        (code, bytes, total)
    }

    /// The first entity that the last frame spawned.
    fn spawned(&mut self) -> (u32, u32, u32) {
        let mut entity = raw::SCENE_NONE;
        // SAFETY: as in `declare`.
        let code = unsafe { raw::scene_spawned(&mut self.0, 0, &mut entity) };
        (code, entity.index, entity.generation)
    }

    fn info(&mut self) -> raw::scene_info {
        let mut info = raw::scene_info::default();
        // SAFETY: as in `declare`.
        assert_eq!(unsafe { raw::scene_status(&mut self.0, &mut info) }, raw::SCENE_DONE);
        info
    }
}

impl Drop for Raw {
    fn drop(&mut self) {
        // SAFETY: the scene is this one's, and isn't used again.
        unsafe { raw::scene_close(&mut self.0) };
        assert!(self.0.is_null());
    }
}

/// The code of a call that tells lists, the ends and the items that are told, and how many lists there are.
type Lists<T> = (u32, Vec<usize>, Vec<T>, usize);

/// Lists, with room for so many and for so many items in all. What isn't told is as it was.
fn lists<T: Copy + PartialEq + std::fmt::Debug>(
    blank: T,
    room: usize,
    items_room: usize,
    call: impl FnOnce(*mut usize, *mut T, *mut usize, *mut usize) -> u32,
) -> Lists<T> {
    let (mut ends, mut items) = (vec![usize::MAX; room], vec![blank; items_room]);
    let (mut told, mut total) = (0, 0);
    let code = call(ends.as_mut_ptr(), items.as_mut_ptr(), &mut told, &mut total);
    assert!(ends[told..].iter().all(|end| *end == usize::MAX));
    ends.truncate(told);
    let length = ends.last().copied().unwrap_or(0);
    assert!(items[length..].iter().all(|item| *item == blank));
    items.truncate(length);
    (code, ends, items, total)
}

fn cell(kind: u32, shape: u32, x: i64, y: i64) -> raw::scene_cell {
    raw::scene_cell { kind, shape, x, y, z: 0 }
}

fn name(from: i64, length: i64) -> raw::scene_cell {
    cell(1, raw::SCENE_TEXT, from, length)
}

#[test]
fn a_kind_that_cant_be_is_bad_and_not_told() {
    let mut scene = Raw::new();
    assert_eq!(scene.declare(b"\xff", raw::SCENE_INT), (raw::SCENE_BAD, 99));
    for shape in [raw::SCENE_ABSENT, 6, u32::MAX] {
        assert_eq!(scene.declare(b"Good", shape), (raw::SCENE_BAD, 99));
    }
    for name in [&b""[..], b"a b", b"9", b"Life"] {
        assert_eq!(scene.declare(name, raw::SCENE_INT), (raw::SCENE_REFUSED, 99));
    }
    assert_eq!(scene.declare(b"Good", raw::SCENE_TAG), (raw::SCENE_DONE, 3));
}

#[test]
fn cells_that_name_no_component_are_bad() {
    let mut scene = Raw::new();
    let bytes = TEXTS.concat().into_bytes();
    let length = bytes.len() as i64;
    let (_, Some(entity)) = scene.spawn(&[name(0, length)], &bytes) else { panic!("the text is all bytes") };
    let bad = [
        name(0, length + 1),
        name(length + 1, 0),
        name(-1, 1),
        name(1, -1),
        name(i64::MAX, i64::MAX),
        name(i64::MIN, 0),
        // Parts of a character.
        name(length - 4, 3),
        name(length - 3, 3),
        cell(256, raw::SCENE_TEXT, 0, 1),
        cell(256, raw::SCENE_INT, 0, 0),
        cell(0, raw::SCENE_ABSENT, 0, 0),
        cell(2, raw::SCENE_LINK, -1, 1),
        cell(2, raw::SCENE_LINK, 0, 1 << 32),
    ];
    for cell in bad {
        assert_eq!(scene.spawn(&[cell], &bytes), (raw::SCENE_BAD, None), "{cell:?}");
        assert_eq!(scene.spawn(&[name(0, 0), cell], &bytes), (raw::SCENE_BAD, None), "{cell:?}");
        assert_eq!(scene.insert(&[entity], &[cell], &bytes), raw::SCENE_BAD, "{cell:?}");
    }
    assert_eq!(scene.info().tick, 1);
    // An empty text may end the bytes, and texts may be parts of each other.
    assert_eq!(scene.spawn(&[name(length, 0)], &bytes).0, raw::SCENE_DONE);
    assert_eq!(scene.insert(&[entity, entity], &[name(0, 2), name(1, 1)], &bytes), raw::SCENE_DONE);
}

#[test]
fn lists_of_other_lengths_are_bad_and_empty_ones_a_frame() {
    let mut scene = Raw::new();
    let (_, Some(entity)) = scene.spawn(&[], &[]) else { panic!("a spawn of nothing is done") };
    let life = cell(0, raw::SCENE_INT, 1, 0);
    assert_eq!(scene.insert(&[entity], &[], &[]), raw::SCENE_BAD);
    assert_eq!(scene.insert(&[], &[life], &[]), raw::SCENE_BAD);
    assert_eq!(scene.insert(&[entity; 2], &[life], &[]), raw::SCENE_BAD);
    assert_eq!(scene.info().tick, 1);
    assert_eq!((scene.insert(&[], &[], &[]), scene.info().undo), (raw::SCENE_DONE, 2));
}

#[test]
fn in_an_open_frame_a_spawn_is_told_as_its_commands_name_it() {
    let mut scene = Raw::new();
    // SAFETY: the scene is open.
    assert_eq!(unsafe { raw::scene_begin(&mut scene.0) }, raw::SCENE_DONE);
    for index in 0..2 {
        let made = raw::scene_entity { index, generation: 0 };
        assert_eq!(scene.spawn(&[name(0, 1)], b"a"), (raw::SCENE_DONE, Some(made)));
    }
    assert_eq!(scene.spawn(&[name(0, 2)], b"a"), (raw::SCENE_BAD, None));
    let life = cell(0, raw::SCENE_INT, 7, 0);
    assert_eq!(scene.insert(&[raw::scene_entity { index: 1, generation: 0 }], &[life], &[]), raw::SCENE_BAD);
    let mut told = life;
    let mut ticks = raw::scene_tick_pair::default();
    // SAFETY: as in `declare`.
    unsafe {
        let second = raw::scene_entity { index: 1, generation: 0 };
        assert_eq!(raw::scene_insert(&mut scene.0, second, life), raw::SCENE_DONE);
        assert_eq!(raw::scene_commit(&mut scene.0), raw::SCENE_DONE);
        let second = raw::scene_entity { index: 1, generation: 1 };
        assert_eq!(raw::scene_read(&mut scene.0, second, 0, &mut told, &mut ticks), raw::SCENE_DONE);
    }
    assert_eq!((told.x, ticks.added), (7, 1));
}

#[test]
fn texts_are_told_as_far_as_they_fit_whole() {
    let mut scene = Raw::new();
    assert_eq!(scene.texts(0, 4, 4), (raw::SCENE_BAD, vec![], vec![], 0));
    for text in TEXTS {
        assert_eq!(scene.spawn(&[name(0, text.len() as i64)], text.as_bytes()).0, raw::SCENE_DONE);
    }
    let all = TEXTS.concat().into_bytes();
    assert_eq!(scene.texts(0, 9, 99), (raw::SCENE_DONE, vec![0, 1, 4, 13], all.clone(), 4));
    assert_eq!(scene.texts(0, 4, 13), (raw::SCENE_DONE, vec![0, 1, 4, 13], all.clone(), 4));
    // No part of a text is told, and room for no bytes takes an empty one.
    assert_eq!(scene.texts(0, 4, 12), (raw::SCENE_DONE, vec![0, 1, 4], all[..4].to_vec(), 4));
    assert_eq!(scene.texts(0, 4, 0), (raw::SCENE_DONE, vec![0], vec![], 4));
    assert_eq!(scene.texts(0, 2, 99), (raw::SCENE_DONE, vec![0, 1], b"a".to_vec(), 4));
    assert_eq!(scene.texts(1, 0, 99), (raw::SCENE_DONE, vec![], vec![], 4));
    assert_eq!(scene.texts(3, 4, 8), (raw::SCENE_DONE, vec![], vec![], 4));
    assert_eq!(scene.texts(3, 4, 9), (raw::SCENE_DONE, vec![9], all[4..].to_vec(), 4));
    for from in [4, 5, usize::MAX] {
        assert_eq!(scene.texts(from, 4, 99), (raw::SCENE_DONE, vec![], vec![], 4));
    }
}

#[test]
fn texts_of_deltas_are_told_as_far_as_they_fit_whole() {
    let mut scene = Raw::new();
    let newest = (raw::SCENE_BACK, 0);
    assert_eq!(scene.delta_texts(newest, 1, 1, 0, 1), (raw::SCENE_BAD, vec![], vec![], 0));
    // SAFETY: as in `declare`; a name is one byte.
    unsafe {
        assert_eq!(raw::scene_begin(&mut scene.0), raw::SCENE_DONE);
        assert_eq!(scene.spawn(&[name(0, 3), cell(0, raw::SCENE_INT, 5, 0)], b"abc").0, raw::SCENE_DONE);
        assert_eq!(raw::scene_put_text(&mut scene.0, b"R".as_ptr(), 1, b"de".as_ptr(), 2), raw::SCENE_DONE);
        assert_eq!(scene.spawn(&[name(0, 1)], b"f").0, raw::SCENE_DONE);
        assert_eq!(raw::scene_commit(&mut scene.0), raw::SCENE_DONE);
    }
    let mut told = |which, kind, from, room| scene.delta_texts(newest, which, kind, from, room);
    // There is room for four bytes.
    assert_eq!(told(1, 1, 0, 9), (raw::SCENE_DONE, vec![3], b"abc".to_vec(), 3));
    assert_eq!(told(1, 1, 1, 9), (raw::SCENE_DONE, vec![2, 3], b"def".to_vec(), 3));
    assert_eq!(told(1, 1, 1, 1), (raw::SCENE_DONE, vec![2], b"de".to_vec(), 3));
    // Another kind is that of no text of a row, and means nothing else.
    assert_eq!(told(1, 0, 0, 9), (raw::SCENE_DONE, vec![0, 2, 2], b"de".to_vec(), 3));
    assert_eq!(told(0, 1, 0, 9), (raw::SCENE_DONE, vec![0, 0, 0], vec![], 3));
    assert_eq!(told(2, 1, 0, 9), (raw::SCENE_DONE, vec![0, 1, 1], b"R".to_vec(), 3));
    for from in [3, 4, usize::MAX] {
        assert_eq!(told(1, 1, from, 9), (raw::SCENE_DONE, vec![], vec![], 3));
    }
    assert_eq!(told(1, 256, 0, 9), (raw::SCENE_BAD, vec![], vec![], 0));
    for (step, code) in [((1, 0), raw::SCENE_REFUSED), ((0, 1), raw::SCENE_REFUSED), ((2, 0), raw::SCENE_BAD)] {
        assert_eq!(scene.delta_texts(step, 1, 1, 0, 9), (code, vec![], vec![], 0));
    }
}

#[test]
fn a_saved_text_is_told_part_by_part() {
    let mut scene = Raw::new();
    assert_eq!(scene.saved(1, 0, 0), (raw::SCENE_BAD, vec![], 0));
    assert_eq!(scene.spawn(&[name(0, 1)], b"a").0, raw::SCENE_DONE);
    for version in [1, 2] {
        let (_, _, total) = scene.saved(version, 0, 0);
        let (_, whole, _) = scene.saved(version, 0, total);
        let has_version = String::from_utf8_lossy(&whole).contains(&format!("\"scene\":{version}"));
        assert!(has_version && whole.ends_with(b"}\n"));
        let parts = (0..total).step_by(7).map(|from| scene.saved(version, from, 7.min(total - from)).1);
        assert_eq!(parts.collect::<Vec<_>>().concat(), whole);
        for from in [total, total + 1, usize::MAX] {
            assert_eq!(scene.saved(version, from, 3), (raw::SCENE_DONE, vec![b'?'; 3], total));
        }
    }
    for version in [0, 3, u32::MAX] {
        assert_eq!(scene.saved(version, 0, 9), (raw::SCENE_BAD, vec![b'?'; 9], 0));
    }
}

#[test]
fn what_sets_and_reads_leaves_the_last_answer() {
    let mut scene = Raw::new();
    assert_eq!(scene.spawn(&[name(0, 1)], b"a").0, raw::SCENE_DONE);
    assert_eq!(scene.spawned(), (raw::SCENE_DONE, 0, 1));
    let (mut why, mut total) = (raw::scene_refusal::default(), 0);
    let mut bytes = [0; 9];
    // SAFETY: as in `declare`.
    unsafe {
        let (s, at) = (&raw mut scene.0, bytes.as_mut_ptr());
        assert_eq!(raw::scene_set_depth(s, 1), raw::SCENE_DONE);
        assert_eq!(raw::scene_set_depth(s, 0), raw::SCENE_BAD);
        assert_eq!(raw::scene_check_systems(s, &mut why), raw::SCENE_DONE);
        assert_eq!(raw::scene_save_into(s, 2, 0, at, 9, &mut total), raw::SCENE_DONE);
        assert_eq!(raw::scene_save_into(s, 3, 0, at, 9, &mut total), raw::SCENE_BAD);
    }
    assert_eq!(scene.delta_rows((raw::SCENE_BACK, 0), 0, 1, 1), (raw::SCENE_DONE, vec![1], vec![1], 1));
    assert_eq!(scene.delta_texts((raw::SCENE_BACK, 0), 1, 1, 0, 1).2, b"a");
    assert_eq!(scene.texts(0, 1, 1).1, [1]);
    assert_eq!(scene.spawned(), (raw::SCENE_DONE, 0, 1));
}

#[test]
fn rows_of_deltas_are_told_as_far_as_they_fit_whole() {
    let mut scene = Raw::new();
    let cells = [cell(0, raw::SCENE_INT, 5, 0), name(0, 1), cell(2, raw::SCENE_LINK, 7, 9)];
    // SAFETY: the scene is open.
    unsafe {
        assert_eq!(raw::scene_begin(&mut scene.0), raw::SCENE_DONE);
        for count in [3, 0, 1] {
            assert_eq!(scene.spawn(&cells[..count], b"a").0, raw::SCENE_DONE);
        }
        assert_eq!(raw::scene_commit(&mut scene.0), raw::SCENE_DONE);
    }
    assert_eq!(scene.insert(&[raw::scene_entity { index: 0, generation: 1 }], &cells[..1], &[]), raw::SCENE_DONE);
    let mut told = |place, from, room, cells_room| scene.delta_rows((raw::SCENE_BACK, place), from, room, cells_room);
    assert_eq!(told(1, 0, 9, 9), (raw::SCENE_DONE, vec![3, 3, 4], vec![0, 1, 2, 0], 3));
    assert_eq!(told(1, 0, 9, 3), (raw::SCENE_DONE, vec![3, 3], vec![0, 1, 2], 3));
    assert_eq!(told(1, 0, 1, 9), (raw::SCENE_DONE, vec![3], vec![0, 1, 2], 3));
    assert_eq!(told(1, 0, 9, 2), (raw::SCENE_DONE, vec![], vec![], 3));
    assert_eq!(told(1, 1, 9, 0), (raw::SCENE_DONE, vec![0], vec![], 3));
    assert_eq!(told(1, 3, 9, 9), (raw::SCENE_DONE, vec![], vec![], 3));
    // A delta of a write has no row.
    assert_eq!(told(0, 0, 9, 9), (raw::SCENE_DONE, vec![0], vec![], 1));
    for (step, code) in [((0, 2), raw::SCENE_REFUSED), ((1, 0), raw::SCENE_REFUSED), ((2, 1), raw::SCENE_BAD)] {
        assert_eq!(scene.delta_rows(step, 0, 9, 9), (code, vec![], vec![], 0));
    }
}

#[test]
fn a_closed_scene_is_told_as_one() {
    let mut none = ptr::null_mut();
    let (mut number, mut why, mut total) = (0, raw::scene_refusal::default(), 0);
    let mut byte = 0;
    // SAFETY: null is a closed scene, and all that is lent is there for the call.
    unsafe {
        let name = b"Life".as_ptr();
        assert_eq!(raw::scene_declare(&mut none, name, 4, raw::SCENE_INT, &mut number), raw::SCENE_CLOSED);
        assert_eq!(raw::scene_declare(&mut none, name, 4, 9, &mut number), raw::SCENE_BAD);
        assert_eq!(raw::scene_set_depth(&mut none, 1), raw::SCENE_CLOSED);
        assert_eq!(raw::scene_set_depth(&mut none, 0), raw::SCENE_BAD);
        assert_eq!(raw::scene_check_systems(&mut none, &mut why), raw::SCENE_CLOSED);
        assert_eq!(raw::scene_save_into(&mut none, 2, 0, &mut byte, 1, &mut total), raw::SCENE_CLOSED);
    }
}
