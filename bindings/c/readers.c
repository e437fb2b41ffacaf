/* One scene that several threads read at once, each by a pointer of its own, while one of them tries all that would
 * change it. What each reads has to be what was read before the scene was shared. First comes what one thread sees of
 * sharing: when it is refused, what stays, and who goes on.
 *
 *     readers [THREADS ENTITIES ROUNDS]      4 threads, 4000 entities and 25 rounds where none are given
 *
 * The status is 1, with a line for each check that fails, and 2 where memory or a thread is wanting. */
#define _POSIX_C_SOURCE 200809L
#include "checks.h"

#include <pthread.h>
#include <stdlib.h>

enum { COUNT, AT, NAME, FRIEND, MARK, KINDS };
enum { ROOTS = 4, FAN = 3, FAMILY = 3, MOST_THREADS = 16, ROOM = 1 << 23, PLACES = 1 << 16, WORLD_ROOM = 4096 };

static const char *const kind_names[KINDS] = {"Count", "At", "Name", "Friend", "Mark"};
static const uint32_t shapes[KINDS] = {SCENE_INT, SCENE_VEC3, SCENE_TEXT, SCENE_LINK, SCENE_TAG};
static const char *const age = "{\"do\":\"system\",\"name\":\"age\",\"need\":[\"Count\"],\"without\":[],"
                               "\"steps\":[{\"step\":\"addint\",\"to\":\"Count\",\"by\":-1}]}";
static const scene_entity first = {0, 1}, second = {1, 1}, third = {2, 1};

/* How much is read, which main sets; and from which moment on changes are listed. */
static size_t threads = 4, entities = 4000, rounds = 25;
static scene_moment moment;

static void must(bool fact, const char *what)
{
    if (fact) return;
    fprintf(stderr, "readers: %s\n", what);
    exit(2);
}

static scene_cell number(int64_t value)
{
    return (scene_cell){COUNT, SCENE_INT, value, 0, 0};
}

static scene_info status_of(scene **s)
{
    scene_info info = {0};
    CHECK(scene_status(s, &info) == SCENE_DONE);
    return info;
}

/* ---- the scene that is read */

static void open_with_kinds(scene **s)
{
    CHECK(scene_open(s) == SCENE_DONE);
    for (uint32_t kind = 0; kind < KINDS; kind++) {
        uint32_t told = KINDS;
        CHECK(declare(s, kind_names[kind], shapes[kind], &told) == SCENE_DONE && told == kind);
    }
}

/* The components of an entity, whose name is so long; and how many there are. */
static size_t cells_of(int64_t place, int64_t len, scene_cell *cells)
{
    size_t count = 0;
    cells[count++] = number(3 * place);
    if (place % 3 != 0) cells[count++] = (scene_cell){AT, SCENE_VEC3, place, -place, 7};
    if (place % 4 != 1) cells[count++] = (scene_cell){NAME, SCENE_TEXT, 0, len, 0};
    if (place % 5 == 0) cells[count++] = (scene_cell){FRIEND, SCENE_LINK, place / 2, 1, 0};
    if (place % 7 == 0) cells[count++] = (scene_cell){MARK, SCENE_TAG, 0, 0, 0};
    return count;
}

/* All entities in one frame, some roots, and each other one below one before it. */
static void spawn_all(scene **s)
{
    scene_cell cells[KINDS];
    scene_entity made;
    char name[32];
    CHECK(scene_begin(s) == SCENE_DONE);
    for (size_t place = 0; place < entities; place++) {
        int len = snprintf(name, sizeof name, "entity %zu", place);
        size_t count = cells_of((int64_t)place, len, cells);
        CHECK(scene_spawn_cells(s, cells, count, bytes(name), (size_t)len, &made) == SCENE_DONE);
    }
    for (size_t place = ROOTS; place < entities; place++)
        CHECK(scene_set_parent(s, SCENE_NEW(place), SCENE_NEW((place - ROOTS) / FAN)) == SCENE_DONE);
    CHECK(scene_commit(s) == SCENE_DONE);
}

/* Frames in which components, entities and resources come, go and are written. */
static void change_some(scene **s)
{
    CHECK(scene_put(s, bytes("score"), 5, number(7)) == SCENE_DONE);
    CHECK(scene_put_text(s, bytes("motto"), 5, bytes("onward"), 6) == SCENE_DONE);
    CHECK(scene_now(s, &moment) == SCENE_DONE && scene_begin(s) == SCENE_DONE);
    for (uint32_t place = 0; place < entities; place += 7)
        CHECK(scene_insert(s, (scene_entity){place, 1}, number(-(int64_t)place)) == SCENE_DONE);
    for (uint32_t place = 1; place < entities; place += 6)
        CHECK(scene_remove(s, (scene_entity){place, 1}, AT) == SCENE_DONE);
    CHECK(scene_commit(s) == SCENE_DONE && scene_despawn_all(s, second) == SCENE_DONE);
    CHECK(scene_insert_text(s, third, NAME, bytes("another name"), 12) == SCENE_DONE);
    CHECK(scene_put_text(s, bytes("motto"), 5, bytes("ever"), 4) == SCENE_DONE);
}

/* A last frame that spawns, whose answer is a text too. */
static void spawn_family(scene **s)
{
    scene_entity made = SCENE_NONE;
    CHECK(scene_begin(s) == SCENE_DONE);
    for (uint32_t place = 0; place < FAMILY; place++) {
        CHECK(scene_with(s, number(place)) == SCENE_DONE && scene_spawn(s) == SCENE_DONE);
        if (place > 0) CHECK(scene_set_parent(s, SCENE_NEW(place), SCENE_NEW(0)) == SCENE_DONE);
    }
    CHECK(play(s, "commit") == SCENE_DONE && scene_answer(s, NULL, 0) > 5);
    CHECK(scene_spawned(s, FAMILY - 1, &made) == SCENE_DONE && scene_spawned(s, FAMILY, &made) == SCENE_BAD);
}

static void make_scene(scene **s)
{
    open_with_kinds(s);
    spawn_all(s);
    CHECK(request(s, age) == SCENE_DONE);
    change_some(s);
    spawn_family(s);
    CHECK(status_of(s).undo == 8 && status_of(s).redo == 0);
}

/* Some frames are taken back, and one of them done again: so there are steps on both ways, and the last answer lists
 * what that one wrote. */
static void go_back(scene **s)
{
    scene_name name = {SCENE_NONE, KINDS};
    CHECK(scene_undo_by(s, 3) == SCENE_DONE && scene_now(s, &moment) == SCENE_DONE && scene_mark(s) == SCENE_DONE);
    CHECK(scene_redo(s) == SCENE_DONE && play(s, "changed") == SCENE_DONE && scene_answer(s, NULL, 0) > 0);
    CHECK(scene_named(s, 0, &name) == SCENE_DONE && same_entity(name.entity, third) && name.kind == NAME);
    CHECK(status_of(s).undo == 6 && status_of(s).redo == 2);
}

/* ---- a walk, which reads all of a scene, and sums it up */

struct walk {
    scene **s;
    uint64_t sum;
    void *room;
    size_t *ends;
};

static void add(struct walk *walk, const void *at, size_t len)
{
    const uint8_t *byte = at;
    for (size_t place = 0; place < len; place++) walk->sum = (walk->sum ^ byte[place]) * 1099511628211u;
}

static void add_number(struct walk *walk, uint64_t value)
{
    add(walk, &value, sizeof value);
}

/* Adds a list that fits into the room. Its call is given `at`, `room` and `&total`. */
#define ADD_LIST(walk, item, call)                                              \
    do {                                                                        \
        item *at = (walk)->room;                                                \
        size_t room = ROOM / sizeof(item), total = 0;                           \
        CHECK((call) == SCENE_DONE && total <= room);                           \
        add((walk), at, (total < room ? total : room) * sizeof(item));          \
        add_number((walk), total);                                              \
    } while (0)

/* Adds lists one behind the other, which all fit. Their call is given `ends`, `at`, `room`, `&told` and `&total`. */
#define ADD_LISTS(walk, item, call)                                             \
    do {                                                                        \
        item *at = (walk)->room;                                                \
        size_t *ends = (walk)->ends, room = ROOM / sizeof(item);                \
        size_t told = 0, total = 0;                                             \
        CHECK((call) == SCENE_DONE && told == total);                           \
        add((walk), ends, told * sizeof *ends);                                 \
        add((walk), at, (told > 0 ? ends[told - 1] : 0) * sizeof(item));        \
        add_number((walk), total);                                              \
    } while (0)

static void walk_numbers(struct walk *walk)
{
    scene_moment now = {0, 0};
    scene_refusal why;
    scene_info info = status_of(walk->s);
    const uint64_t numbers[] = {info.tick,  info.rewinds, info.undo,  info.redo,    info.slots,
                                info.limit, info.kinds,   info.depth, info.in_frame};
    CHECK(scene_now(walk->s, &now) == SCENE_DONE && scene_check_systems(walk->s, &why) == SCENE_DONE);
    add(walk, numbers, sizeof numbers);
    add(walk, &now, sizeof now);
    for (uint32_t kind = 0; kind < KINDS; kind++) {
        uint32_t shape = SCENE_ABSENT, found = KINDS;
        const char *name = kind_names[kind];
        ADD_LIST(walk, uint8_t, scene_kind(walk->s, kind, &shape, 0, at, room, &total));
        CHECK(scene_kind_named(walk->s, bytes(name), strlen(name), &found) == SCENE_DONE && found == kind);
        CHECK(shape == shapes[kind]);
    }
}

static void walk_column(struct walk *walk, uint64_t mask, uint32_t kind)
{
    scene **s = walk->s;
    switch (shapes[kind]) {
    case SCENE_INT: ADD_LIST(walk, int64_t, scene_ints(s, mask, kind, 0, at, room, &total)); break;
    case SCENE_VEC3: ADD_LIST(walk, scene_vec3, scene_vec3s(s, mask, kind, 0, at, room, &total)); break;
    case SCENE_LINK: ADD_LIST(walk, scene_entity, scene_links(s, mask, kind, 0, at, room, &total)); break;
    case SCENE_TEXT:
        ADD_LISTS(walk, uint8_t, scene_texts(s, mask, kind, 0, ends, PLACES, at, room, &told, &total));
        break;
    default: break;
    }
    for (uint32_t which = 0; which < 2; which++)
        ADD_LIST(walk, uint64_t, scene_ticks(s, mask, kind, which, 0, at, room, &total));
}

static void walk_tables(struct walk *walk)
{
    scene_table tables[1 << KINDS];
    size_t count = 0;
    CHECK(scene_tables(walk->s, 0, 0, 0, tables, 1 << KINDS, &count) == SCENE_DONE && count > 0);
    add(walk, tables, count * sizeof *tables);
    for (size_t place = 0; place < count; place++) {
        uint64_t mask = tables[place].mask;
        ADD_LIST(walk, scene_entity, scene_rows(walk->s, mask, 0, at, room, &total));
        for (uint32_t kind = 0; kind < KINDS; kind++)
            if (mask >> kind & 1) walk_column(walk, mask, kind);
    }
    ADD_LIST(walk, scene_table, scene_tables(walk->s, 1 << NAME, 1 << AT, 0, at, room, &total));
}

/* Each index is asked for, also those of entities that are gone. */
static void walk_tree(struct walk *walk)
{
    uint32_t slots = status_of(walk->s).slots;
    ADD_LIST(walk, scene_entity, scene_roots(walk->s, 0, at, room, &total));
    for (uint32_t index = 0; index < slots; index++) {
        scene_entity entity = {index, 1}, parent = SCENE_NONE;
        uint64_t mask = 0;
        uint32_t alive = 2;
        scene_code code = scene_mask(walk->s, entity, &mask);
        CHECK(scene_is_alive(walk->s, entity, &alive) == SCENE_DONE && (code == SCENE_DONE) == (alive == 1));
        CHECK(scene_parent(walk->s, entity, &parent) == SCENE_DONE);
        add_number(walk, mask);
        add_number(walk, alive);
        add(walk, &parent, sizeof parent);
        ADD_LIST(walk, scene_entity, scene_children(walk->s, entity, 0, at, room, &total));
    }
}

static void walk_component(struct walk *walk, scene_entity entity, uint32_t kind)
{
    scene_cell cell = {0};
    scene_tick_pair ticks = {0, 0};
    add_number(walk, scene_read(walk->s, entity, kind, &cell, &ticks));
    add(walk, &cell, sizeof cell);
    add(walk, &ticks, sizeof ticks);
    if (cell.shape == SCENE_TEXT)
        ADD_LIST(walk, uint8_t, scene_read_text(walk->s, entity, kind, 0, at, room, &total));
}

/* The components of each kind, of all entities at once, and one by one. */
static void walk_components(struct walk *walk)
{
    uint32_t slots = status_of(walk->s).slots;
    scene_entity *asked = (void *)walk->ends;
    scene_cell *cells = walk->room;
    for (uint32_t index = 0; index < slots; index++) asked[index] = (scene_entity){index, 1};
    for (uint32_t kind = 0; kind < KINDS; kind++) {
        CHECK(scene_gather(walk->s, asked, slots, kind, cells, slots) == SCENE_DONE);
        add(walk, cells, slots * sizeof *cells);
        for (uint32_t index = 0; index < slots; index++) walk_component(walk, asked[index], kind);
    }
}

static void walk_resources(struct walk *walk)
{
    uint8_t name[32];
    size_t place = 0, len;
    for (; scene_resources(walk->s, place, 0, name, sizeof name, &len) == SCENE_DONE; place++) {
        scene_cell cell = {0};
        scene_tick_pair ticks = {0, 0};
        CHECK(scene_resource(walk->s, name, len, &cell, &ticks) == SCENE_DONE);
        add(walk, name, len);
        add(walk, &cell, sizeof cell);
        add(walk, &ticks, sizeof ticks);
        if (cell.shape == SCENE_TEXT)
            ADD_LIST(walk, uint8_t, scene_resource_text(walk->s, name, len, 0, at, room, &total));
    }
    CHECK(place == 2);
}

static void walk_step(struct walk *walk, uint32_t way, size_t place)
{
    scene **s = walk->s;
    uint64_t tick = 0;
    ADD_LIST(walk, scene_delta, scene_step(s, way, place, &tick, 0, at, room, &total));
    ADD_LISTS(walk, scene_cell, scene_delta_rows(s, way, place, 0, ends, PLACES, at, room, &told, &total));
    for (uint32_t which = 0; which < 3; which++)
        ADD_LISTS(walk, uint8_t,
                  scene_delta_texts(s, way, place, which, NAME, 0, ends, PLACES, at, room, &told, &total));
    add_number(walk, tick);
}

static void walk_steps(struct walk *walk)
{
    scene_info info = status_of(walk->s);
    for (size_t place = 0; place < info.undo; place++) walk_step(walk, SCENE_BACK, place);
    for (size_t place = 0; place < info.redo; place++) walk_step(walk, SCENE_ON, place);
}

/* What was written since the moment, and that an undo came behind an older one. */
static void walk_changes(struct walk *walk)
{
    scene **s = walk->s;
    scene_name name;
    size_t count = 0;
    CHECK(scene_changed_since(s, moment, 0, 0, 0, &name, 1, &count) == SCENE_DONE && count > 0);
    ADD_LIST(walk, scene_name, scene_changed_since(s, moment, 0, 0, 0, at, room, &total));
    ADD_LIST(walk, scene_name, scene_changed_since(s, moment, 1 << NAME, 1 << MARK, 0, at, room, &total));
    ADD_LIST(walk, scene_name, scene_added_since(s, moment, 0, 0, 0, at, room, &total));
    if (moment.rewinds > 0)
        CHECK(scene_changed_since(s, (scene_moment){0, 0}, 0, 0, 0, &name, 1, &count) == SCENE_REFUSED);
}

static void walk_texts(struct walk *walk)
{
    for (uint32_t version = 1; version < 3; version++)
        ADD_LIST(walk, uint8_t, scene_save_into(walk->s, version, 0, at, room, &total));
}

static void walk_answer(struct walk *walk)
{
    scene_entity made;
    scene_name name;
    scene_refusal why = {0};
    size_t len = scene_answer(walk->s, walk->room, ROOM);
    add(walk, walk->room, len < ROOM ? len : ROOM);
    for (size_t at = 0; scene_spawned(walk->s, at, &made) == SCENE_DONE; at++) add(walk, &made, sizeof made);
    for (size_t at = 0; scene_named(walk->s, at, &name) == SCENE_DONE; at++) add(walk, &name, sizeof name);
    add_number(walk, scene_refused(walk->s, &why));
    add(walk, &why, sizeof why);
}

static const struct part {
    const char *name;
    void (*read)(struct walk *walk);
} parts[] = {
    {"numbers", walk_numbers},
    {"tables", walk_tables},
    {"the tree", walk_tree},
    {"components", walk_components},
    {"resources", walk_resources},
    {"steps", walk_steps},
    {"changes", walk_changes},
    {"texts", walk_texts},
    {"the last answer", walk_answer},
};

enum { PARTS = sizeof parts / sizeof *parts };

struct sums {
    uint64_t of[PARTS];
};

static uint64_t sum_of(scene **s, void (*read)(struct walk *walk))
{
    struct walk walk = {s, 14695981039346656037u, malloc(ROOM), malloc(PLACES * sizeof(size_t))};
    must(walk.room != NULL && walk.ends != NULL, "there is no room");
    read(&walk);
    free(walk.room);
    free(walk.ends);
    return walk.sum;
}

static struct sums sums_of(scene **s)
{
    struct sums sums;
    for (size_t part = 0; part < PARTS; part++) sums.of[part] = sum_of(s, parts[part].read);
    return sums;
}

/* Compares a walk with another one, part by part. */
static void reads_as(scene **s, const struct sums *wanted)
{
    struct sums sums = sums_of(s);
    for (size_t part = 0; part < PARTS; part++)
        check(sums.of[part] == wanted->of[part], __FILE__, __LINE__, parts[part].name);
}

/* ---- what a shared scene doesn't take */

#define SHARED(call) CHECK((call) == SCENE_SHARED)

static void try_commands(scene **s)
{
    const scene_cell cell = number(1);
    scene_entity made = SCENE_NONE;
    SHARED(scene_with(s, cell));
    SHARED(scene_with_text(s, NAME, bytes("a"), 1));
    SHARED(scene_spawn(s));
    SHARED(scene_spawn_cells(s, &cell, 1, bytes("a"), 1, &made));
    SHARED(scene_despawn(s, first));
    SHARED(scene_despawn_all(s, first));
    SHARED(scene_insert(s, first, cell));
    SHARED(scene_insert_text(s, first, NAME, bytes("a"), 1));
    SHARED(scene_insert_cells(s, &first, 1, &cell, 1, bytes("a"), 1));
    SHARED(scene_remove(s, first, COUNT));
    SHARED(scene_set_parent(s, third, first));
    SHARED(scene_remove_parent(s, third));
    SHARED(scene_put(s, bytes("score"), 5, cell));
    SHARED(scene_put_text(s, bytes("score"), 5, bytes("a"), 1));
    SHARED(scene_drop(s, bytes("score"), 5));
    CHECK(same_entity(made, SCENE_NONE));
}

/* Lines and requests aren't looked at, so that bad ones are no answer either. */
static void try_other_calls(scene **s)
{
    scene_cell cell = number(99);
    uint32_t kind = 99;
    SHARED(play(s, "spawn"));
    SHARED(play(s, "get 0v1"));
    SHARED(scene_line(s, bytes("\xff"), 1));
    SHARED(request(s, "{\"do\":\"undo\"}"));
    SHARED(request(s, "{"));
    SHARED(scene_bad_reason(s));
    SHARED(scene_answer_json(s));
    SHARED(declare(s, "Late", SCENE_INT, &kind));
    SHARED(scene_set_depth(s, 1));
    SHARED(scene_save(s));
    SHARED(scene_load(s, bytes("{}"), 2));
    SHARED(scene_begin(s));
    SHARED(scene_commit(s));
    SHARED(scene_drop_frame(s));
    SHARED(scene_undo(s));
    SHARED(scene_redo(s));
    SHARED(scene_undo_by(s, 0));
    SHARED(scene_redo_by(s, 1));
    SHARED(scene_phase(s));
    SHARED(scene_clear_systems(s));
    SHARED(scene_advance(s));
    SHARED(scene_get(s, first, COUNT, &cell));
    SHARED(scene_mark(s));
    SHARED(scene_changed(s));
    CHECK(kind == 99 && cell.x == 99);
}

/* What arguments alone say comes first. */
static void try_badly(scene **s)
{
    scene_cell cell = {.kind = 256, .shape = SCENE_INT, .x = 99};
    scene_entity made = SCENE_NONE;
    uint32_t kind = 99;
    CHECK(scene_with(s, cell) == SCENE_BAD && scene_insert(s, first, cell) == SCENE_BAD);
    CHECK(scene_spawn_cells(s, &cell, 1, bytes(""), 0, &made) == SCENE_BAD && same_entity(made, SCENE_NONE));
    CHECK(scene_insert_cells(s, &first, 1, &cell, 0, bytes(""), 0) == SCENE_BAD);
    CHECK(scene_remove(s, first, 256) == SCENE_BAD && scene_get(s, first, 256, &cell) == SCENE_BAD && cell.x == 99);
    CHECK(scene_with_text(s, NAME, bytes("\xff"), 1) == SCENE_BAD);
    CHECK(scene_put(s, bytes("\xff"), 1, number(1)) == SCENE_BAD && scene_drop(s, bytes("\xff"), 1) == SCENE_BAD);
    CHECK(declare(s, "Late", SCENE_ABSENT, &kind) == SCENE_BAD && kind == 99);
    CHECK(scene_set_depth(s, 0) == SCENE_BAD && scene_load(s, bytes("\xff"), 1) == SCENE_BAD);
}

static void try_changes(scene **s)
{
    try_commands(s);
    try_other_calls(s);
    try_badly(s);
}

/* ---- what one thread sees */

/* A scene of two frames, whose last answer is known. */
static void open_small(scene **s)
{
    open_with_kinds(s);
    CHECK(scene_with(s, number(9)) == SCENE_DONE && scene_spawn(s) == SCENE_DONE);
    leave_an_answer(s);
}

/* Puts the text of a world into a room, and gives its length. */
static size_t world_of(scene **s, uint8_t *room)
{
    size_t len = 0;
    CHECK(scene_save_into(s, 1, 0, room, WORLD_ROOM, &len) == SCENE_DONE && len <= WORLD_ROOM);
    return len;
}

static bool has_world(scene **s, const uint8_t *wanted, size_t len)
{
    uint8_t room[WORLD_ROOM];
    return world_of(s, room) == len && memcmp(room, wanted, len) == 0;
}

/* By one pointer alone: it can be shared and unshared as often as one likes, and nothing is lost. */
static void share_alone(void)
{
    scene *s, *none = NULL, *reader = NULL;
    CHECK(scene_share(&none) == SCENE_CLOSED && scene_unshare(&none) == SCENE_CLOSED && none == NULL);
    CHECK(scene_reader(&none, &reader) == SCENE_CLOSED && reader == NULL);
    open_small(&s);
    CHECK(scene_reader(&s, &reader) == SCENE_BAD && reader == NULL && scene_unshare(&s) == SCENE_DONE);
    CHECK(scene_share(&s) == SCENE_DONE && scene_share(&s) == SCENE_DONE && has_that_answer(&s));
    try_changes(&s);
    CHECK(has_that_answer(&s) && tick_of(&s) == 2 && status_of(&s).undo == 2);
    CHECK(scene_unshare(&s) == SCENE_DONE && scene_unshare(&s) == SCENE_DONE && has_that_answer(&s));
    CHECK(scene_share(&s) == SCENE_DONE && scene_unshare(&s) == SCENE_DONE && scene_undo_by(&s, 2) == SCENE_DONE);
    CHECK(scene_undo(&s) == SCENE_REFUSED && refused_by(&s, 15));
    scene_close(&s);
}

/* While others have it, it stays shared; then it goes back, and on again, as one that never was shared. */
static void unshare_last(void)
{
    uint8_t before[WORLD_ROOM], behind[WORLD_ROOM];
    scene *s, *reader = NULL, *other = NULL;
    open_small(&s);
    size_t len = world_of(&s, before);
    leave_an_answer(&s);
    size_t len_behind = world_of(&s, behind);
    CHECK(scene_share(&s) == SCENE_DONE && scene_reader(&s, &reader) == SCENE_DONE);
    CHECK(scene_reader(&reader, &other) == SCENE_DONE && scene_share(&other) == SCENE_DONE);
    CHECK(scene_unshare(&s) == SCENE_REFUSED && scene_unshare(&reader) == SCENE_REFUSED);
    CHECK(has_that_answer(&s) && has_that_answer(&reader) && has_that_answer(&other));
    scene_close(&reader);
    CHECK(reader == NULL && scene_unshare(&s) == SCENE_REFUSED && scene_undo(&s) == SCENE_SHARED);
    CHECK(has_world(&s, behind, len_behind) && has_world(&other, behind, len_behind));
    scene_close(&other);
    CHECK(scene_unshare(&s) == SCENE_DONE && has_that_answer(&s) && scene_undo(&s) == SCENE_DONE);
    CHECK(has_world(&s, before, len) && scene_redo(&s) == SCENE_DONE && has_world(&s, behind, len_behind));
    scene_close(&s);
}

/* What a pointer held before is closed where it becomes a reader, and else stays. */
static void replace_scenes(void)
{
    scene *s, *other;
    open_small(&s);
    open_small(&other);
    leave_an_answer(&other);
    CHECK(scene_reader(&s, &other) == SCENE_BAD && tick_of(&other) == 3 && scene_share(&s) == SCENE_DONE);
    CHECK(scene_reader(&s, &other) == SCENE_DONE && tick_of(&other) == 2);
    /* A reader that becomes one of the same scene is one, as before. */
    CHECK(scene_reader(&s, &other) == SCENE_DONE && tick_of(&other) == 2 && scene_unshare(&s) == SCENE_REFUSED);
    scene_close(&other);
    CHECK(scene_unshare(&s) == SCENE_DONE && scene_undo(&s) == SCENE_DONE);
    scene_close(&s);
}

/* Whichever pointer is left has the scene. */
static void close_first(void)
{
    scene *s, *reader = NULL;
    open_small(&s);
    CHECK(scene_share(&s) == SCENE_DONE && scene_reader(&s, &reader) == SCENE_DONE);
    scene_close(&s);
    CHECK(s == NULL && scene_spawn(&reader) == SCENE_SHARED && has_that_answer(&reader) && tick_of(&reader) == 2);
    CHECK(scene_unshare(&reader) == SCENE_DONE && scene_spawn(&reader) == SCENE_DONE && tick_of(&reader) == 3);
    CHECK(scene_undo_by(&reader, 3) == SCENE_DONE && scene_redo(&reader) == SCENE_DONE && tick_of(&reader) == 1);
    CHECK(scene_share(&reader) == SCENE_DONE && scene_reader(&reader, &s) == SCENE_DONE);
    scene_close(&reader);
    scene_close(&s);
}

/* A setup goes on behind it: kinds are read, and what would end the setup doesn't. */
static void share_in_the_setup(void)
{
    scene *s, *reader = NULL;
    scene_info info;
    scene_refusal why;
    uint32_t kind = 99;
    open_with_kinds(&s);
    CHECK(scene_share(&s) == SCENE_DONE && scene_reader(&s, &reader) == SCENE_DONE);
    CHECK(scene_kind_named(&reader, bytes("Name"), 4, &kind) == SCENE_DONE && kind == NAME);
    CHECK(scene_status(&reader, &info) == SCENE_BAD && scene_check_systems(&reader, &why) == SCENE_DONE);
    try_changes(&s);
    scene_close(&reader);
    CHECK(scene_unshare(&s) == SCENE_DONE && scene_status(&s, &info) == SCENE_BAD);
    CHECK(declare(&s, "Late", SCENE_INT, &kind) == SCENE_DONE && kind == KINDS && scene_spawn(&s) == SCENE_DONE);
    scene_close(&s);
}

/* A frame stays open, with its commands and with what was given to the next spawn; reads tell nothing of it. */
static void share_in_a_frame(void)
{
    scene *s, *reader = NULL;
    scene_entity made;
    scene_cell cell;
    open_small(&s);
    CHECK(scene_begin(&s) == SCENE_DONE && scene_despawn(&s, first) == SCENE_DONE);
    CHECK(scene_with(&s, number(8)) == SCENE_DONE && scene_share(&s) == SCENE_DONE);
    CHECK(scene_reader(&s, &reader) == SCENE_DONE && status_of(&reader).in_frame == 1);
    try_changes(&s);
    try_changes(&reader);
    CHECK(scene_read(&reader, first, COUNT, &cell, &(scene_tick_pair){0, 0}) == SCENE_DONE && cell.x == 9);
    scene_close(&s);
    CHECK(scene_unshare(&reader) == SCENE_DONE && status_of(&reader).in_frame == 1);
    CHECK(scene_spawn(&reader) == SCENE_DONE && scene_commit(&reader) == SCENE_DONE);
    CHECK(scene_spawned(&reader, 0, &made) == SCENE_DONE && scene_spawned(&reader, 1, &made) == SCENE_BAD);
    CHECK(scene_get(&reader, made, COUNT, &cell) == SCENE_DONE && cell.x == 8);
    CHECK(scene_get(&reader, first, COUNT, &cell) == SCENE_REFUSED && refused_by(&reader, 1));
    scene_close(&reader);
}

/* ---- several threads */

struct reader {
    pthread_t thread;
    scene *s;
    pthread_barrier_t *start;
    const struct sums *wanted;
    bool tries_changes;
};

/* All threads begin each round at once, and make and close a further pointer in each. */
static void *read_rounds(void *given)
{
    struct reader *reader = given;
    for (size_t round = 0; round < rounds; round++) {
        scene *further = NULL;
        pthread_barrier_wait(reader->start);
        CHECK(scene_reader(&reader->s, &further) == SCENE_DONE && scene_unshare(&reader->s) == SCENE_REFUSED);
        if (reader->tries_changes) try_changes(&reader->s);
        reads_as(round % 2 == 0 ? &reader->s : &further, reader->wanted);
        scene_close(&further);
    }
    scene_close(&reader->s);
    return NULL;
}

static void read_at_once(scene **s)
{
    struct reader readers[MOST_THREADS];
    pthread_barrier_t start;
    struct sums wanted = sums_of(s);
    CHECK(scene_share(s) == SCENE_DONE);
    must(pthread_barrier_init(&start, NULL, (unsigned)threads) == 0, "there is no barrier");
    for (size_t at = 0; at < threads; at++) {
        readers[at] = (struct reader){.start = &start, .wanted = &wanted, .tries_changes = at == 0};
        CHECK(scene_reader(s, &readers[at].s) == SCENE_DONE);
        int wrong = pthread_create(&readers[at].thread, NULL, read_rounds, &readers[at]);
        must(wrong == 0, "a thread can't be started");
    }
    reads_as(s, &wanted);
    for (size_t at = 0; at < threads; at++) pthread_join(readers[at].thread, NULL);
    pthread_barrier_destroy(&start);
    CHECK(scene_unshare(s) == SCENE_DONE);
    reads_as(s, &wanted);
}

/* Behind all that, it is changed, taken back and done again as one that never was shared. */
static void go_on(scene **s)
{
    scene_entity made;
    uint64_t texts = sum_of(s, walk_texts);
    CHECK(scene_redo_by(s, 2) == SCENE_DONE && scene_undo_by(s, 3) == SCENE_DONE && scene_redo(s) == SCENE_DONE);
    CHECK(sum_of(s, walk_texts) == texts);
    CHECK(scene_advance(s) == SCENE_DONE && scene_spawn(s) == SCENE_DONE && scene_spawned(s, 0, &made) == SCENE_DONE);
    CHECK(scene_undo_by(s, status_of(s).undo) == SCENE_DONE && tick_of(s) == 0);
}

int main(int count, char **words)
{
    scene *s;
    if (count > 3) {
        threads = strtoul(words[1], NULL, 10);
        entities = strtoul(words[2], NULL, 10);
        rounds = strtoul(words[3], NULL, 10);
    }
    must(threads > 0 && threads <= MOST_THREADS, "there are too many threads");
    must(entities > ROOTS && entities <= PLACES / 2, "there are too many entities");
    share_alone();
    unshare_last();
    replace_scenes();
    close_first();
    share_in_the_setup();
    share_in_a_frame();
    make_scene(&s);
    read_at_once(&s);
    go_back(&s);
    read_at_once(&s);
    go_on(&s);
    scene_close(&s);
    if (failed) return failed;
    printf("%zu threads read %zu entities %zu times each, as one does alone\n", threads, entities, 2 * rounds);
    return 0;
}
