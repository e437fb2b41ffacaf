//! The declarations of the calls. The header says of each what it gives and when.
use crate::*;

unsafe extern "C" {
    /// Writes a new scene to `*out`, or null where no memory was found. What `*out` was before isn't read.
    pub fn scene_open(out: *mut *mut scene) -> scene_code;
    /// Frees all of a scene, and puts null into `*s`, which may be null already.
    pub fn scene_close(s: *mut *mut scene);
    /// Plays a line of a script: `len` bytes of UTF-8 without the line break. The text of its answer is kept.
    pub fn scene_line(s: *mut *mut scene, line: *const u8, len: usize) -> scene_code;
    /// Plays a request: `len` bytes of a JSON object in place of a line, or a question. The text of the answer is kept.
    pub fn scene_request(s: *mut *mut scene, request: *const u8, len: usize) -> scene_code;
    /// The length of the text that is kept; its first `room` bytes go to `at`, which may be null where `room` is 0.
    pub fn scene_answer(s: *mut *mut scene, at: *mut u8, room: usize) -> usize;
    /// Keeps, as the text, why the last call that was answered was bad, in words.
    pub fn scene_bad_reason(s: *mut *mut scene) -> scene_code;
    /// Keeps, as the text, the last answer as one line of JSON.
    pub fn scene_answer_json(s: *mut *mut scene) -> scene_code;
    /// The length of the name of a fault; its first `room` bytes go to `at`, which may be null where `room` is 0.
    pub fn scene_fault_name(fault: u32, at: *mut u8, room: usize) -> usize;
    /// The version of the library, as [`SCENE_VERSION`].
    pub fn scene_version() -> u32;
    /// Shares a scene, which is only read then.
    pub fn scene_share(s: *mut *mut scene) -> scene_code;
    /// Gives a shared scene one pointer more, `*out`, which has to be null or a scene's, and whose scene is closed.
    pub fn scene_reader(s: *mut *mut scene, out: *mut *mut scene) -> scene_code;
    /// Makes a shared scene the one pointer's alone that is left, so that it changes again.
    pub fn scene_unshare(s: *mut *mut scene) -> scene_code;
    /// Declares a kind, at any time, and tells its number.
    pub fn scene_declare(s: *mut *mut scene, name: *const u8, len: usize, shape: u32, kind: *mut u32) -> scene_code;
    /// Sets of how many frames a record is kept, at any time: those beyond it are forgotten.
    pub fn scene_set_depth(s: *mut *mut scene, depth: u32) -> scene_code;
    /// Keeps, as the text, the scene with all that can be undone and redone.
    pub fn scene_save(s: *mut *mut scene) -> scene_code;
    /// Loads such a text, or one of a world alone, in the setup.
    pub fn scene_load(s: *mut *mut scene, text: *const u8, len: usize) -> scene_code;
    /// Opens a frame.
    pub fn scene_begin(s: *mut *mut scene) -> scene_code;
    /// Does the open frame, all of it or nothing.
    pub fn scene_commit(s: *mut *mut scene) -> scene_code;
    /// The entity at a place, from 0, of those that the last frame spawned.
    pub fn scene_spawned(s: *mut *mut scene, at: usize, out: *mut scene_entity) -> scene_code;
    /// Drops the open frame with its commands.
    pub fn scene_drop_frame(s: *mut *mut scene) -> scene_code;
    /// Takes the newest frame back.
    pub fn scene_undo(s: *mut *mut scene) -> scene_code;
    /// Does the newest frame that was taken back again.
    pub fn scene_redo(s: *mut *mut scene) -> scene_code;
    /// Takes the `count` newest frames back, all of them or none.
    pub fn scene_undo_by(s: *mut *mut scene, count: usize) -> scene_code;
    /// Does `count` frames that were taken back again, all of them or none.
    pub fn scene_redo_by(s: *mut *mut scene, count: usize) -> scene_code;
    /// Gives the next spawn a component that is no text.
    pub fn scene_with(s: *mut *mut scene, cell: scene_cell) -> scene_code;
    /// Gives the next spawn a component that is a text.
    pub fn scene_with_text(s: *mut *mut scene, kind: u32, text: *const u8, len: usize) -> scene_code;
    /// Spawns an entity with the components that were given.
    pub fn scene_spawn(s: *mut *mut scene) -> scene_code;
    /// Spawns an entity with `count` components, whose texts are parts of `bytes`, and tells it: in an open frame as
    /// that frame's commands name it.
    pub fn scene_spawn_cells(
        s: *mut *mut scene,
        cells: *const scene_cell,
        count: usize,
        bytes: *const u8,
        len: usize,
        out: *mut scene_entity,
    ) -> scene_code;
    /// Despawns an entity that has no children.
    pub fn scene_despawn(s: *mut *mut scene, entity: scene_entity) -> scene_code;
    /// Despawns an entity with all below it.
    pub fn scene_despawn_all(s: *mut *mut scene, entity: scene_entity) -> scene_code;
    /// Gives an entity a component that is no text, or writes the one of that kind.
    pub fn scene_insert(s: *mut *mut scene, entity: scene_entity, cell: scene_cell) -> scene_code;
    /// Gives an entity a component that is a text, or writes the one of that kind.
    pub fn scene_insert_text(
        s: *mut *mut scene,
        entity: scene_entity,
        kind: u32,
        text: *const u8,
        len: usize,
    ) -> scene_code;
    /// Gives `count` entities a component each, by a frame of its own. Texts are parts of `bytes`.
    pub fn scene_insert_cells(
        s: *mut *mut scene,
        entities: *const scene_entity,
        count: usize,
        cells: *const scene_cell,
        cell_count: usize,
        bytes: *const u8,
        len: usize,
    ) -> scene_code;
    /// Takes the component of a kind away.
    pub fn scene_remove(s: *mut *mut scene, entity: scene_entity, kind: u32) -> scene_code;
    /// Makes an entity the last child of another.
    pub fn scene_set_parent(s: *mut *mut scene, child: scene_entity, parent: scene_entity) -> scene_code;
    /// Takes an entity from its parent.
    pub fn scene_remove_parent(s: *mut *mut scene, child: scene_entity) -> scene_code;
    /// Puts a resource that is no text at a name, or writes the one that is there. The cell's kind means nothing.
    pub fn scene_put(s: *mut *mut scene, name: *const u8, name_len: usize, cell: scene_cell) -> scene_code;
    /// Puts a resource that is a text at a name, or writes the one that is there.
    pub fn scene_put_text(
        s: *mut *mut scene,
        name: *const u8,
        name_len: usize,
        text: *const u8,
        len: usize,
    ) -> scene_code;
    /// Takes the resource of a name away.
    pub fn scene_drop(s: *mut *mut scene, name: *const u8, name_len: usize) -> scene_code;
    /// Begins a phase of systems behind those that there are.
    pub fn scene_phase(s: *mut *mut scene) -> scene_code;
    /// Takes all systems away.
    pub fn scene_clear_systems(s: *mut *mut scene) -> scene_code;
    /// Plays all systems once, which is a frame.
    pub fn scene_advance(s: *mut *mut scene) -> scene_code;
    /// Whether [`scene_advance`] would take the systems that there are; else why not.
    pub fn scene_check_systems(s: *mut *mut scene, why: *mut scene_refusal) -> scene_code;
    /// Reads a component: into `*out`, and a text as the text that is kept. It ends the setup.
    pub fn scene_get(s: *mut *mut scene, entity: scene_entity, kind: u32, out: *mut scene_cell) -> scene_code;
    /// Notes this moment.
    pub fn scene_mark(s: *mut *mut scene) -> scene_code;
    /// Lists the components that were changed since the mark.
    pub fn scene_changed(s: *mut *mut scene) -> scene_code;
    /// The component at a place, from 0, of those that the last answer lists.
    pub fn scene_named(s: *mut *mut scene, at: usize, out: *mut scene_name) -> scene_code;
    /// Why the last call was refused.
    pub fn scene_refused(s: *mut *mut scene, out: *mut scene_refusal) -> scene_code;
    /// The numbers of a scene.
    pub fn scene_status(s: *mut *mut scene, out: *mut scene_info) -> scene_code;
    /// 1 where an entity is alive, else 0.
    pub fn scene_is_alive(s: *mut *mut scene, entity: scene_entity, out: *mut u32) -> scene_code;
    /// The kind set of an entity.
    pub fn scene_mask(s: *mut *mut scene, entity: scene_entity, out: *mut u64) -> scene_code;
    /// The parent of an entity, and [`SCENE_NONE`] where it has none.
    pub fn scene_parent(s: *mut *mut scene, entity: scene_entity, out: *mut scene_entity) -> scene_code;
    /// The children of an entity, in their order.
    pub fn scene_children(
        s: *mut *mut scene,
        entity: scene_entity,
        from: usize,
        at: *mut scene_entity,
        room: usize,
        total: *mut usize,
    ) -> scene_code;
    /// The entities that have no parent, by their index.
    pub fn scene_roots(
        s: *mut *mut scene,
        from: usize,
        at: *mut scene_entity,
        room: usize,
        total: *mut usize,
    ) -> scene_code;
    /// The kind sets that some entities have, of those that have all kinds of `need` and none of `without`.
    pub fn scene_tables(
        s: *mut *mut scene,
        need: u64,
        without: u64,
        from: usize,
        at: *mut scene_table,
        room: usize,
        total: *mut usize,
    ) -> scene_code;
    /// The entities that have just some kinds.
    pub fn scene_rows(
        s: *mut *mut scene,
        mask: u64,
        from: usize,
        at: *mut scene_entity,
        room: usize,
        total: *mut usize,
    ) -> scene_code;
    /// The integers of a kind, in the order of [`scene_rows`].
    pub fn scene_ints(
        s: *mut *mut scene,
        mask: u64,
        kind: u32,
        from: usize,
        at: *mut i64,
        room: usize,
        total: *mut usize,
    ) -> scene_code;
    /// The vectors of a kind, in the order of [`scene_rows`].
    pub fn scene_vec3s(
        s: *mut *mut scene,
        mask: u64,
        kind: u32,
        from: usize,
        at: *mut scene_vec3,
        room: usize,
        total: *mut usize,
    ) -> scene_code;
    /// The links of a kind, in the order of [`scene_rows`].
    pub fn scene_links(
        s: *mut *mut scene,
        mask: u64,
        kind: u32,
        from: usize,
        at: *mut scene_entity,
        room: usize,
        total: *mut usize,
    ) -> scene_code;
    /// The texts of a kind, in the order of [`scene_rows`]: their bytes, where each ends there, and how many are told.
    pub fn scene_texts(
        s: *mut *mut scene,
        mask: u64,
        kind: u32,
        from: usize,
        ends: *mut usize,
        room: usize,
        bytes: *mut u8,
        bytes_room: usize,
        told: *mut usize,
        total: *mut usize,
    ) -> scene_code;
    /// The ticks at which components of a kind were added, for `which` 0, or last changed, for 1.
    pub fn scene_ticks(
        s: *mut *mut scene,
        mask: u64,
        kind: u32,
        which: u32,
        from: usize,
        at: *mut u64,
        room: usize,
        total: *mut usize,
    ) -> scene_code;
    /// The shape of a kind, and its name, of at most 32 bytes.
    pub fn scene_kind(
        s: *mut *mut scene,
        kind: u32,
        shape: *mut u32,
        from: usize,
        at: *mut u8,
        room: usize,
        total: *mut usize,
    ) -> scene_code;
    /// A kind by its name.
    pub fn scene_kind_named(s: *mut *mut scene, name: *const u8, len: usize, out: *mut u32) -> scene_code;
    /// A component but for a text, and its ticks, with the last answer as it was.
    pub fn scene_read(
        s: *mut *mut scene,
        entity: scene_entity,
        kind: u32,
        out: *mut scene_cell,
        ticks: *mut scene_tick_pair,
    ) -> scene_code;
    /// The text that a component is.
    pub fn scene_read_text(
        s: *mut *mut scene,
        entity: scene_entity,
        kind: u32,
        from: usize,
        at: *mut u8,
        room: usize,
        total: *mut usize,
    ) -> scene_code;
    /// The components of a kind that `count` entities have, in the order of these.
    pub fn scene_gather(
        s: *mut *mut scene,
        entities: *const scene_entity,
        count: usize,
        kind: u32,
        at: *mut scene_cell,
        room: usize,
    ) -> scene_code;
    /// The name of a resource, by its place from 0 in the order of the names' bytes.
    pub fn scene_resources(
        s: *mut *mut scene,
        place: usize,
        from: usize,
        at: *mut u8,
        room: usize,
        total: *mut usize,
    ) -> scene_code;
    /// A resource but for a text, and its ticks, by its name.
    pub fn scene_resource(
        s: *mut *mut scene,
        name: *const u8,
        len: usize,
        out: *mut scene_cell,
        ticks: *mut scene_tick_pair,
    ) -> scene_code;
    /// The text that a resource is, by its name.
    pub fn scene_resource_text(
        s: *mut *mut scene,
        name: *const u8,
        len: usize,
        from: usize,
        at: *mut u8,
        room: usize,
        total: *mut usize,
    ) -> scene_code;
    /// This moment.
    pub fn scene_now(s: *mut *mut scene, out: *mut scene_moment) -> scene_code;
    /// The components that were changed since a moment, of the entities that the kind sets match.
    pub fn scene_changed_since(
        s: *mut *mut scene,
        moment: scene_moment,
        need: u64,
        without: u64,
        from: usize,
        at: *mut scene_name,
        room: usize,
        total: *mut usize,
    ) -> scene_code;
    /// The components that were added since a moment, of the entities that the kind sets match.
    pub fn scene_added_since(
        s: *mut *mut scene,
        moment: scene_moment,
        need: u64,
        without: u64,
        from: usize,
        at: *mut scene_name,
        room: usize,
        total: *mut usize,
    ) -> scene_code;
    /// What the kept frame at a place, from 0, on a way did: the tick before it, and its deltas in order.
    pub fn scene_step(
        s: *mut *mut scene,
        way: u32,
        place: usize,
        tick: *mut u64,
        from: usize,
        at: *mut scene_delta,
        room: usize,
        total: *mut usize,
    ) -> scene_code;
    /// The components of the rows that deltas of a step brought or took away, where those of each end, and how many
    /// deltas are told.
    pub fn scene_delta_rows(
        s: *mut *mut scene,
        way: u32,
        place: usize,
        from: usize,
        ends: *mut usize,
        room: usize,
        cells: *mut scene_cell,
        cells_room: usize,
        told: *mut usize,
        total: *mut usize,
    ) -> scene_code;
    /// A text of each delta of a step, as [`scene_delta_rows`] tells rows: for `which` 0 the one before it, 1 the one
    /// after it, 2 the name of its resource.
    pub fn scene_delta_texts(
        s: *mut *mut scene,
        way: u32,
        place: usize,
        which: u32,
        kind: u32,
        from: usize,
        ends: *mut usize,
        room: usize,
        bytes: *mut u8,
        bytes_room: usize,
        told: *mut usize,
        total: *mut usize,
    ) -> scene_code;
    /// The scene as a text: for `version` 1 its world alone, for 2 with all that can be undone and redone.
    pub fn scene_save_into(
        s: *mut *mut scene,
        version: u32,
        from: usize,
        at: *mut u8,
        room: usize,
        total: *mut usize,
    ) -> scene_code;
}
