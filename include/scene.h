/* Scenes for C. A scene takes the lines of a script one by one, or the same as calls, with no text on the way; each
 * change can be taken back. What a line does and answers, docs/SCRIPTS.md says; what is proved of these calls,
 * docs/PROVED.md.
 *
 *     scene *s;
 *     if (scene_open(&s) != SCENE_DONE) return 1;
 *     scene_line(&s, (const uint8_t *)"kind At Vec3", 12);
 *     scene_with(&s, (scene_cell){.kind = 0, .shape = SCENE_VEC3, .x = 1});
 *     scene_spawn(&s);
 *     scene_undo(&s);
 *     scene_close(&s);
 *
 * A `scene *` holds what scene_open or scene_reader put there, or NULL; only the library writes it, and a copy of it is
 * none. Each other call takes the address of that variable. Such a variable belongs to one thread, and to one call at a
 * time. Two scenes know nothing of each other, so two threads can have one each; and what scene_share shares, several
 * threads read at once, each by a variable of its own. No call starts a thread, waits, or reads a file or the clock.
 * There may be as many calls as a counter of 64 bits holds.
 *
 * The caller owns all bytes that it passes, which are read during the call alone, and all that it is given, which are
 * copies. An array whose length, count or room is 0 may be NULL, or anything: so the length of a text or a list can be
 * asked for. Each other pointer leads to what its type says. */
#ifndef SCENE_H
#define SCENE_H

#include <stddef.h>
#include <stdint.h>

#ifdef __cplusplus
extern "C" {
#endif

/* Only ever a pointer: what it points to is the library's. */
typedef struct scene scene;

/* The version of this header: 10,000 times its first number, 100 times its second, and its third. scene_version gives
 * that of the library. */
#define SCENE_VERSION 200

/* What a call came to. But for SCENE_DONE and SCENE_UNTOLD nothing was done. */
typedef enum scene_code {
    SCENE_DONE = 0,      /* done; or a question, answered */
    SCENE_NO_MEMORY = 1, /* memory was wanting; where the call would have ended the setup, the setup may be over */
    SCENE_CLOSED = 2,    /* the pointer is NULL; bad arguments, and reads of the last answer, give 4 first */
    SCENE_REFUSED = 3,   /* refused, by the rules of the world: scene_refused says why */
    SCENE_BAD = 4,       /* there is no such call here, as a commit without a begin, or its arguments name nothing */
    SCENE_UNTOLD = 5,    /* answered, but memory was wanting for the text alone: scene_refused says if it was refused,
                            scene_spawned and scene_named what it made. Only of scene_line, scene_request, scene_load,
                            scene_save and scene_advance */
    SCENE_LOST = 6,      /* memory was wanting, and the kinds or the scene that the setup had are lost */
    SCENE_SHARED = 7     /* the scene is shared, and this call would change it or its last answer; but for what
                            arguments alone say (SCENE_BAD, and SCENE_NO_MEMORY of a copy of them), which comes first */
} scene_code;

/* The shapes of components, and the numbers of a scene_cell that they use. */
typedef enum scene_shape {
    SCENE_TAG = 0,  /* none */
    SCENE_INT = 1,  /* x */
    SCENE_VEC3 = 2, /* x, y and z */
    SCENE_TEXT = 3, /* none: the text comes apart */
    SCENE_LINK = 4, /* x is the index of an entity, y its generation */
    SCENE_ABSENT = 5 /* of scene_gather and scene_step: there is no such component */
} scene_shape;

/* An entity. Its generation is 1 or more, and an index that is used again has a greater one: so an old entity never
 * names a newer one. With generation 0 it is, in a command, the entity that the open frame's queue spawned `index`
 * spawns in: SCENE_NEW(0) is the first. A variable that is all zeros is SCENE_NEW(0), so begin with SCENE_NONE, which
 * nothing is. */
typedef struct {
    uint32_t index;
    uint32_t generation;
} scene_entity;

#ifdef __cplusplus
#define SCENE_NEW(k) (scene_entity{(uint32_t)(k), 0})
#define SCENE_NONE (scene_entity{UINT32_MAX, UINT32_MAX})
#else
#define SCENE_NEW(k) ((scene_entity){(uint32_t)(k), 0})
#define SCENE_NONE ((scene_entity){UINT32_MAX, UINT32_MAX})
#endif

/* A component: its kind, by its place from 0 in the order in which the kinds were declared, its shape, and its
 * numbers. */
typedef struct {
    uint32_t kind;
    uint32_t shape;
    int64_t x, y, z;
} scene_cell;

/* A component by its entity and its kind. */
typedef struct {
    scene_entity entity;
    uint32_t kind;
} scene_name;

/* Why a call was refused: a fault of docs/MODEL.md, by its number, and, where it is one of a command, the command's
 * place. */
typedef struct {
    uint32_t fault;
    uint32_t has_place; /* 0 or 1; where it is 0, so is the place */
    uint32_t phase, queue, command;
} scene_refusal;

/* ---- a scene, line by line */

/* Writes a new scene to *out, or NULL where no memory was found: SCENE_DONE or SCENE_NO_MEMORY. What *out was before
 * isn't read, so a scene there has to be closed first. It is in the setup: limits are declared, or a scene text is
 * loaded, before the first other call; kinds then or at any later time. */
scene_code scene_open(scene **out);

/* Closes it: frees all of it, and puts NULL into *s. NULL is fine. */
void scene_close(scene **s);

/* Plays a line of a script: `len` bytes of UTF-8 without the line break. The text of its answer is kept. SCENE_BAD is a
 * bad line, of which scene_bad_reason says why. */
scene_code scene_line(scene **s, const uint8_t *line, size_t len);

/* Plays a request: `len` bytes of a JSON object in place of a line, whose texts have any characters, as
 * {"do":"put","name":"Motto","shape":"Text","value":"Big House"} (docs/SHELL.md, "Requests"). It does what scene_line
 * does with the line that it stands for, and keeps the text of that line's answer. `dropframe`, `declare`, and `undo`
 * and `redo` with a count do what scene_drop_frame, scene_declare and scene_undo_by do; their text is as of a line.
 * That of a question, as {"do":"status"}, is one line of JSON, also where it says `refused`: then it is SCENE_DONE, and
 * scene_refused tells nothing ("Questions").
 *
 * SCENE_BAD is a bad request, and changes nothing: the text that is kept says why, and where in it. Of one that is out
 * of place, as a commit without a begin, or a question in an open frame, scene_bad_reason says why, as of a line. */
scene_code scene_request(scene **s, const uint8_t *request, size_t len);

/* The length of the text that is kept; its first `room` bytes go to `at`, which may be NULL where `room` is 0.
 * scene_line, scene_request, scene_load, scene_save, scene_advance, scene_bad_reason, scene_answer_json and scene_get
 * of a text keep a text, and other calls that are answered an empty one. The text before stays where nothing was done
 * for want of memory or since the arguments name nothing, where a component is given to a spawn, where a frame is
 * dropped, where the depth is set, where systems are checked, and where the last answer is read (this call,
 * scene_spawned, scene_named, scene_refused). */
size_t scene_answer(scene **s, uint8_t *at, size_t room);

/* Says in words why the last call that was answered was SCENE_BAD, as a bad line, or a commit without a begin: the
 * words are the text of its answer then. SCENE_BAD where it wasn't, and SCENE_NO_MEMORY: then the text before stays. */
scene_code scene_bad_reason(scene **s);

/* Puts the last answer into one line of JSON (docs/SHELL.md, "JSON"), which is the text of its answer then; a text that
 * was asked for stands in it as a string. SCENE_NO_MEMORY: then the text before stays. */
scene_code scene_answer_json(scene **s);

/* The length of the name of a fault of docs/MODEL.md, by its number, as `NoSuchEntity` for 1; its first `room` bytes go
 * to `at`, which may be NULL where `room` is 0. It is ASCII, at most 32 bytes, without a byte 0 at the end, and empty
 * where no fault of a scene has the number. */
size_t scene_fault_name(uint32_t fault, uint8_t *at, size_t room);

/* The version of the library, as SCENE_VERSION. */
uint32_t scene_version(void);

/* ---- several readers of one scene */

/* Shares a scene, which is only read then: each call that would change it, or its last answer, is SCENE_SHARED and does
 * nothing; those that read, and of the last answer too, go on. One that is shared stays so, and takes no memory.
 * SCENE_NO_MEMORY: then it isn't shared. */
scene_code scene_share(scene **s);

/* Gives a shared scene one pointer more, *out, which is another variable and reads what *s reads, whichever of them is
 * closed first; what *out was before is closed, so it has to be NULL or a scene's. SCENE_BAD where the scene isn't
 * shared, and SCENE_NO_MEMORY: then *out stays. A pointer may go to another thread by all that orders memory, as a
 * thread's start or a lock. */
scene_code scene_reader(scene **s, scene **out);

/* Makes a scene the one pointer's alone that is left, which changes it again. SCENE_REFUSED while others have it: they
 * have to be closed before. scene_refused says nothing. It needs no memory. */
scene_code scene_unshare(scene **s);

/* ---- kinds, and how far can be undone */

/* Declares a kind, and tells its number, the next one. It goes at any time: in the setup, which goes on; of a loaded
 * scene; behind the setup, also in an open frame. It is no frame, and no undo takes it: each scene that an undo or a
 * redo leads to has the kind. Behind the setup the line `history`, and the limit that a line `calls` has set, count
 * from 0 again. SCENE_REFUSED for a name that isn't good (fault 30), is taken (31), or where there are 64 kinds (32);
 * SCENE_BAD for another shape than the five, and for a name that is no UTF-8. */
scene_code scene_declare(scene **s, const uint8_t *name, size_t len, uint32_t shape, uint32_t *kind);

/* Sets of how many frames a record is kept, 1 to 1,048,576, at any time. Of the frames that can be undone those beyond
 * it are forgotten, the oldest first; those that can be redone all stay. SCENE_BAD for another number. Behind the setup
 * the line `history`, and the limit that a line `calls` has set, count from 0 again. The last answer stays, and so does
 * an open frame. It needs no memory. */
scene_code scene_set_depth(scene **s, uint32_t depth);

/* ---- saving and loading */

/* Keeps, as the text of the answer, the scene with all that can be undone and redone. SCENE_REFUSED where that would be
 * longer than 67,108,864 bytes: the text of the answer is `fault 56 TooLong` then, and scene_refused says nothing. */
scene_code scene_save(scene **s);

/* Loads such a text, or one of a world alone, in the setup. SCENE_REFUSED: the text of the answer says why, and
 * scene_refused nothing. SCENE_BAD for bytes that are no UTF-8. */
scene_code scene_load(scene **s, const uint8_t *text, size_t len);

/* ---- frames: commands that are done together, all or none, and can be undone together */

/* Opens a frame. SCENE_BAD where one is open. */
scene_code scene_begin(scene **s);

/* Does the open frame. SCENE_REFUSED: none of it is done, and the frame is gone. SCENE_BAD where none is open. */
scene_code scene_commit(scene **s);

/* The entity at a place, from 0, of those that the last frame spawned; SCENE_BAD, and *out is as it was, behind the
 * last one. Ask before the next call that does something. */
scene_code scene_spawned(scene **s, size_t at, scene_entity *out);

/* Drops the open frame with its commands: nothing of it is done, and no call is made. SCENE_BAD where none is open. The
 * last answer stays, and so do components that were given to a spawn. It needs no memory. */
scene_code scene_drop_frame(scene **s);

/* Takes the newest frame back; does the newest one that was taken back again. */
scene_code scene_undo(scene **s);
scene_code scene_redo(scene **s);

/* The same of the `count` newest frames, all of them or none, as a drag is one step for a user. SCENE_REFUSED where
 * there are fewer (fault 15, 16), or where one would pass the limit of calls that a line `calls` has set (17);
 * SCENE_NO_MEMORY; and in an open frame SCENE_BAD, as scene_undo is. Each is a call as scene_undo makes one, and the
 * answer tells of all. A `count` of 0 takes nothing back, and ends the setup as others do. */
scene_code scene_undo_by(scene **s, size_t count);
scene_code scene_redo_by(scene **s, size_t count);

/* ---- commands: put into the open frame, or, where none is open, a frame each */

/* Gives the next spawn a component. They are gone with that spawn, whatever becomes of it. In each call that takes a
 * text, SCENE_BAD is one that is no UTF-8, or a kind of 256 or more; SCENE_NO_MEMORY comes only of others. */
scene_code scene_with(scene **s, scene_cell cell);
scene_code scene_with_text(scene **s, uint32_t kind, const uint8_t *text, size_t len);

/* Spawns an entity with these components. */
scene_code scene_spawn(scene **s);

/* Spawns an entity with `count` components, and tells it in *out; in an open frame *out is the SCENE_NEW(k) that it has
 * there. On another code than SCENE_DONE *out is as it was. A cell of the shape SCENE_TEXT has its text in `bytes`: x
 * is where it begins, y how long it is. SCENE_BAD for a cell that names no component, as one whose text is no UTF-8 or
 * isn't in `bytes`; SCENE_NO_MEMORY may come of such a list too. What scene_with has given stays. */
scene_code scene_spawn_cells(scene **s, const scene_cell *cells, size_t count, const uint8_t *bytes, size_t len,
                             scene_entity *out);

/* Despawns an entity that has no children; and one with all below it. */
scene_code scene_despawn(scene **s, scene_entity entity);
scene_code scene_despawn_all(scene **s, scene_entity entity);

/* Gives an entity a component, or writes the one of that kind that it has. */
scene_code scene_insert(scene **s, scene_entity entity, scene_cell cell);
scene_code scene_insert_text(scene **s, scene_entity entity, uint32_t kind, const uint8_t *text, size_t len);

/* Gives `count` entities a component each, cells[i] to entities[i], or writes the one of that kind: a frame of its own,
 * all or nothing, also where `count` is 0. Texts are as of scene_spawn_cells. SCENE_BAD for a cell that names no
 * component, and where `cell_count` is another number or above 67,108,864. In an open frame it is answered SCENE_BAD,
 * and scene_bad_reason says why. SCENE_REFUSED: the place of scene_refused is that of the first that can't be
 * written. */
scene_code scene_insert_cells(scene **s, const scene_entity *entities, size_t count, const scene_cell *cells,
                              size_t cell_count, const uint8_t *bytes, size_t len);

/* Takes the component of a kind away. */
scene_code scene_remove(scene **s, scene_entity entity, uint32_t kind);

/* Makes an entity the last child of another; takes it from its parent. */
scene_code scene_set_parent(scene **s, scene_entity child, scene_entity parent);
scene_code scene_remove_parent(scene **s, scene_entity child);

/* Puts a resource at a name, or writes the one that is there, of any shape; the cell's kind means nothing. And takes
 * one away. SCENE_BAD for a name or a text that is no UTF-8; fault 30 for a name that isn't good, as a kind's is. */
scene_code scene_put(scene **s, const uint8_t *name, size_t name_len, scene_cell cell);
scene_code scene_put_text(scene **s, const uint8_t *name, size_t name_len, const uint8_t *text, size_t len);
scene_code scene_drop(scene **s, const uint8_t *name, size_t name_len);

/* ---- systems (docs/MODEL.md, "The rule of systems"): scene_request and scene_line add one to the last phase */

/* Begins a phase behind those that there are; takes all systems away; plays all of them once, which is a frame, and
 * keeps the text of the answer. */
scene_code scene_phase(scene **s);
scene_code scene_clear_systems(scene **s);
scene_code scene_advance(scene **s);

/* Whether scene_advance would take the systems that there are: SCENE_REFUSED where a system breaks a rule (fault 22),
 * or two of a phase don't go together (fault 21), and *why tells the fault. It only reads: the scene and the last
 * answer stay. In the setup there are no systems, and it is SCENE_DONE. It copies the systems: SCENE_NO_MEMORY where
 * there is no memory for that. */
scene_code scene_check_systems(scene **s, scene_refusal *why);

/* ---- the last answer: scene_spawned, scene_named and scene_refused tell of the last call that was answered, not of
 * one that was SCENE_BAD for its arguments, gave a component to a spawn, dropped a frame, or found no memory */

/* Reads a component: into *out, and a text as the text of the answer. SCENE_REFUSED where there is none, and *out is
 * as it was: the entity isn't alive, there is no such kind, or it hasn't this component; SCENE_BAD for a kind of 256
 * or more. It ends the setup. */
scene_code scene_get(scene **s, scene_entity entity, uint32_t kind, scene_cell *out);

/* Notes this moment. */
scene_code scene_mark(scene **s);

/* Lists the components that were changed since the mark, or since the beginning where there was none. SCENE_REFUSED
 * where something was undone since. */
scene_code scene_changed(scene **s);

/* The component at a place, from 0, of those that the last answer lists; SCENE_BAD, and *out is as it was, behind the
 * last. */
scene_code scene_named(scene **s, size_t at, scene_name *out);

/* Why the last call was refused; SCENE_BAD, and *out is as it was, where it wasn't, or where a scene text has the
 * fault, which the text of the answer tells. */
scene_code scene_refused(scene **s, scene_refusal *out);

/* ---- reading a scene as it is: these calls change nothing, neither the scene nor the last answer, and need no memory
 * but for a list where it is said: SCENE_NO_MEMORY then. In the setup there is nothing to read but kinds: SCENE_BAD,
 * and nowhere else but where it is said. On any other code than SCENE_DONE what would be written stays as it was.
 * scene_refused tells nothing of them.
 *
 * A list is told from the item `from` on: as many items as there are, and as fit into `room`, go to `at`, in their
 * order, and *total is how many there are in all. Where `room` is 0, `at` may be NULL, or anything. So a list of
 * unknown length is asked for with room 0, and then again. Lists of rows stay as they are while nothing but reads is
 * called. */

/* The numbers of a scene. */
typedef struct {
    uint64_t tick;     /* how many frames there were, as the last one's number */
    uint64_t rewinds;  /* how many undos there were; with the tick it tells whether something was done or undone */
    uint64_t undo;     /* how many frames can be undone, */
    uint64_t redo;     /* and how many redone */
    uint32_t slots;    /* how many indices were used, */
    uint32_t limit;    /* and how many can be */
    uint32_t kinds;    /* how many kinds there are */
    uint32_t depth;    /* of how many frames a record is kept */
    uint32_t in_frame; /* 1 where a frame is open, else 0 */
} scene_info;

/* A kind set that some entities have, and how many: kind k is bit k, so scene_with of the kinds 0 and 2 gives 5. */
typedef struct {
    uint64_t mask;
    uint64_t rows;
} scene_table;

/* A vector, and the ticks at which a component was added and last changed. */
typedef struct {
    int64_t x, y, z;
} scene_vec3;

typedef struct {
    uint64_t added, changed;
} scene_tick_pair;

scene_code scene_status(scene **s, scene_info *out);

/* 1 where an entity is alive, else 0. */
scene_code scene_is_alive(scene **s, scene_entity entity, uint32_t *out);

/* The kind set of an entity. SCENE_REFUSED where it isn't alive. */
scene_code scene_mask(scene **s, scene_entity entity, uint64_t *out);

/* The parent of an entity, and SCENE_NONE where it has none, as where it isn't alive; and its children, in their
 * order. */
scene_code scene_parent(scene **s, scene_entity entity, scene_entity *out);
scene_code scene_children(scene **s, scene_entity entity, size_t from, scene_entity *at, size_t room, size_t *total);

/* The entities that have no parent, by their index, for which it looks at each index: memory for the list is needed. */
scene_code scene_roots(scene **s, size_t from, scene_entity *at, size_t room, size_t *total);

/* The tables: the kind sets that some entities have, of those that have all kinds of `need` and none of `without`,
 * ascending: memory for the list is needed. */
scene_code scene_tables(scene **s, uint64_t need, uint64_t without, size_t from, scene_table *at, size_t room,
                        size_t *total);

/* The entities that have just these kinds; and, in the same order, their components of a kind: so the items of one
 * place are a row. SCENE_BAD where the kind isn't of the shape, or not in the set. */
scene_code scene_rows(scene **s, uint64_t mask, size_t from, scene_entity *at, size_t room, size_t *total);
scene_code scene_ints(scene **s, uint64_t mask, uint32_t kind, size_t from, int64_t *at, size_t room, size_t *total);
scene_code scene_vec3s(scene **s, uint64_t mask, uint32_t kind, size_t from, scene_vec3 *at, size_t room,
                       size_t *total);
scene_code scene_links(scene **s, uint64_t mask, uint32_t kind, size_t from, scene_entity *at, size_t room,
                       size_t *total);

/* The texts of a kind of these rows, from the row `from` on: their bytes one behind the other in `bytes`, and in
 * ends[i] where the i-th of them ends there. As many are told as `room` has places and as fit whole into `bytes_room`:
 * *told is how many, so that one asks on from `from` + *told. One alone that is too long is read by scene_read_text. */
scene_code scene_texts(scene **s, uint64_t mask, uint32_t kind, size_t from, size_t *ends, size_t room, uint8_t *bytes,
                       size_t bytes_room, size_t *told, size_t *total);

/* The ticks at which these components were added, for `which` 0, or last changed, for 1. */
scene_code scene_ticks(scene **s, uint64_t mask, uint32_t kind, uint32_t which, size_t from, uint64_t *at, size_t room,
                       size_t *total);

/* The shape of a kind, and its name, ASCII of 1 to 32 bytes; and a kind by its name, UTF-8. SCENE_BAD where there is no
 * such kind. In the setup they tell the kinds so far. */
scene_code scene_kind(scene **s, uint32_t kind, uint32_t *shape, size_t from, uint8_t *at, size_t room, size_t *total);
scene_code scene_kind_named(scene **s, const uint8_t *name, size_t len, uint32_t *out);

/* A component, as scene_get reads it but for a text, which scene_read_text tells. SCENE_REFUSED where there is none, as
 * where the entity isn't alive, or for scene_read_text no text; SCENE_BAD for a kind of 256 or more. */
scene_code scene_read(scene **s, scene_entity entity, uint32_t kind, scene_cell *out, scene_tick_pair *ticks);
scene_code scene_read_text(scene **s, scene_entity entity, uint32_t kind, size_t from, uint8_t *at, size_t room,
                           size_t *total);

/* The components of a kind that `count` entities have, in the order of the entities, as many as fit into `room`: of
 * each, what scene_read tells, and the shape SCENE_ABSENT where there is none, as where the entity isn't alive.
 * SCENE_BAD for a kind of 256 or more. */
scene_code scene_gather(scene **s, const scene_entity *entities, size_t count, uint32_t kind, scene_cell *at,
                        size_t room);

/* The name of a resource, by its place from 0 in the order of the names' bytes. SCENE_BAD behind the last one. Memory
 * for the list of names is needed. */
scene_code scene_resources(scene **s, size_t place, size_t from, uint8_t *at, size_t room, size_t *total);

/* A resource by its name, as scene_read and scene_read_text tell a component; the kind of the cell is 0. SCENE_REFUSED
 * where there is none of that name, or for scene_resource_text no text. */
scene_code scene_resource(scene **s, const uint8_t *name, size_t len, scene_cell *out, scene_tick_pair *ticks);
scene_code scene_resource_text(scene **s, const uint8_t *name, size_t len, size_t from, uint8_t *at, size_t room,
                               size_t *total);

/* A moment, which a view keeps to ask later what was written since: as many can be kept as one likes. */
typedef struct {
    uint64_t rewinds, tick;
} scene_moment;

scene_code scene_now(scene **s, scene_moment *out);

/* The components that were changed since a moment, those included that were added, and those that were added: of the
 * entities that have all kinds of `need` and none of `without`, in the order of scene_tables and scene_rows, then by
 * kind. SCENE_REFUSED where something was undone since, so that a view reads all anew. Rows of tables in which nothing
 * was written since aren't read. Memory for the list is needed. */
scene_code scene_changed_since(scene **s, scene_moment moment, uint64_t need, uint64_t without, size_t from,
                               scene_name *at, size_t room, size_t *total);
scene_code scene_added_since(scene **s, scene_moment moment, uint64_t need, uint64_t without, size_t from,
                             scene_name *at, size_t room, size_t *total);

/* A way along the frames that are kept: from the newest that can be undone, or from the next that can be redone. */
typedef enum scene_way {
    SCENE_BACK = 0,
    SCENE_ON = 1
} scene_way;

/* What a delta did (docs/JOURNAL.md, "The six deltas"). */
typedef enum scene_change {
    SCENE_SPAWNED = 0,   /* the entity came, with the components that scene_delta_rows tells */
    SCENE_DESPAWNED = 1, /* it went with these, from its parent too */
    SCENE_SHIFTED = 2,   /* a component came, of kind after.kind, or went: before.kind; the other is SCENE_ABSENT */
    SCENE_SET = 3,       /* a component was written */
    SCENE_LINKED = 4,    /* the parent is another, or the place among its children */
    SCENE_RESOURCE = 5   /* a resource came, went or was written; the entity is SCENE_NONE */
} scene_change;

/* A delta of a frame. Where there is no such component or parent, SCENE_ABSENT and SCENE_NONE; the components of a row
 * and texts come apart. A place is from 0, and 0 where there is none. */
typedef struct scene_delta {
    uint32_t change; /* a scene_change */
    scene_entity entity;
    uint32_t place;             /* of SCENE_DESPAWNED and SCENE_SHIFTED: the row's, in the table that it left */
    scene_cell before, after;   /* of SCENE_SHIFTED and SCENE_SET, and of SCENE_RESOURCE with the kind 0 */
    scene_entity parent_before; /* of SCENE_DESPAWNED and SCENE_LINKED, and the place among its children, */
    uint32_t place_before;      /* counted without the entity */
    scene_entity parent_after;  /* of SCENE_LINKED */
    uint32_t place_after;
} scene_delta;

/* What a frame did that is kept: the one at a place, from 0, on a way; the tick of the scene before it, and its deltas
 * in the order in which they were made, which led from that scene to the one behind the frame. So a view follows a
 * frame or a redo by the deltas at place 0 of SCENE_BACK, and an undo by those at place 0 of SCENE_ON from the last to
 * the first, with before and after exchanged. SCENE_REFUSED where there is no such frame, SCENE_BAD for another way. */
scene_code scene_step(scene **s, uint32_t way, size_t place, uint64_t *tick, size_t from, scene_delta *at, size_t room,
                      size_t *total);

/* The components of the rows that the deltas of a step brought or took away, from the delta `from` on: one behind the
 * other in `cells`, by kind in each row, and in ends[i] where those of the i-th delta end there; others have none. As
 * many deltas are told as `room` has places and as have all in `cells_room`: *told is how many, so that one asks on
 * from `from` + *told, and *total how many the step has. SCENE_REFUSED where there is no such step, SCENE_BAD for
 * another way. */
scene_code scene_delta_rows(scene **s, uint32_t way, size_t place, size_t from, size_t *ends, size_t room,
                            scene_cell *cells, size_t cells_room, size_t *told, size_t *total);

/* A text of each delta, told as by scene_delta_rows: for `which` 0 the one before it, for 1 the one after it, and for 2
 * the name of its resource; empty where it has none. Of a row it is that of the component of `kind`, which means
 * nothing else; SCENE_BAD for one of 256 or more. */
scene_code scene_delta_texts(scene **s, uint32_t way, size_t place, uint32_t which, uint32_t kind, size_t from,
                             size_t *ends, size_t room, uint8_t *bytes, size_t bytes_room, size_t *told,
                             size_t *total);

/* The scene as a text that scene_load reads: for `version` 1 its world alone, for 2 all that can be undone and redone
 * too, as scene_save keeps it. SCENE_REFUSED where it would be longer than 67,108,864 bytes, SCENE_BAD for another
 * version. Each call makes the whole text, so have room for it: SCENE_NO_MEMORY where there is none for that. */
scene_code scene_save_into(scene **s, uint32_t version, size_t from, uint8_t *at, size_t room, size_t *total);

#ifdef __cplusplus
}
#endif
#endif
