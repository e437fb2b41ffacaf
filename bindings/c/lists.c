/* The calls that take and tell lists: spawns with all their components, frames of writes, and columns of texts. Each is
 * tried as it is meant, at its edges, and where it is refused or bad: then nothing is done, and the last answer stays.
 *
 * The status is 1, with a line for each check that fails. */
#include "checks.h"

#include <stdlib.h>

enum { NAME, AT, LIFE, MARK, AIM, NOTE, KINDS };
enum { MOST_WRITES = 67108864 };

/* Any UTF-8: a byte 0, a quote, a line break, and characters of two, three and four bytes. */
static const uint8_t any_text[] = "a\0b \"q\"\n\xc3\xb3 \xe2\x82\xac \xf0\x9f\x8f\xa0";
enum { ANY_LEN = sizeof any_text - 1, LAST_CHARACTER = ANY_LEN - 4 };

static scene_cell number(uint32_t kind, int64_t value)
{
    return (scene_cell){.kind = kind, .shape = SCENE_INT, .x = value};
}

static scene_cell part(uint32_t kind, int64_t from, int64_t len)
{
    return (scene_cell){.kind = kind, .shape = SCENE_TEXT, .x = from, .y = len};
}

static scene_entity entity(uint32_t index)
{
    return (scene_entity){index, 1};
}

static void open_with_kinds(scene **s)
{
    static const char *const names[KINDS] = {"Name", "At", "Life", "Mark", "Aim", "Note"};
    static const uint32_t shapes[KINDS] = {SCENE_TEXT, SCENE_VEC3, SCENE_INT, SCENE_TAG, SCENE_LINK, SCENE_TEXT};
    CHECK(scene_open(s) == SCENE_DONE);
    for (uint32_t kind = 0; kind < KINDS; kind++) {
        uint32_t told = KINDS;
        CHECK(declare(s, names[kind], shapes[kind], &told) == SCENE_DONE && told == kind);
    }
}

static scene_code spawn(scene **s, const scene_cell *cells, size_t count, scene_entity *out)
{
    return scene_spawn_cells(s, cells, count, any_text, ANY_LEN, out);
}

/* Whether an entity has this text of a kind. */
static bool has_text(scene **s, scene_entity of, uint32_t kind, const uint8_t *text, size_t len)
{
    uint8_t room[64];
    size_t total;
    return scene_read_text(s, of, kind, 0, room, sizeof room, &total) == SCENE_DONE && total == len
        && memcmp(room, text, len) == 0;
}

static bool has_number(scene **s, scene_entity of, uint32_t kind, int64_t value)
{
    scene_cell cell;
    scene_tick_pair ticks;
    return scene_read(s, of, kind, &cell, &ticks) == SCENE_DONE && cell.shape == SCENE_INT && cell.x == value;
}

static bool has_mask(scene **s, scene_entity of, uint64_t wanted)
{
    uint64_t mask;
    return scene_mask(s, of, &mask) == SCENE_DONE && mask == wanted;
}

/* ---- spawns */

/* All shapes, and parts of the bytes that lie over each other. */
static void spawn_with_all(scene **s)
{
    scene_cell cells[KINDS] = {
        part(NAME, 0, ANY_LEN), {.kind = AT, .shape = SCENE_VEC3, .x = 1, .y = -2, .z = INT64_MIN},
        number(LIFE, INT64_MAX), {.kind = MARK, .shape = SCENE_TAG, .x = 7},
        {.kind = AIM, .shape = SCENE_LINK, .x = UINT32_MAX, .y = 3}, part(NOTE, LAST_CHARACTER, 4),
    };
    scene_cell read;
    scene_tick_pair ticks;
    scene_entity made = SCENE_NONE, spawned;
    CHECK(spawn(s, cells, KINDS, &made) == SCENE_DONE && same_entity(made, entity(0)));
    CHECK(scene_spawned(s, 0, &spawned) == SCENE_DONE && same_entity(made, spawned) && answers(s, ""));
    CHECK(has_mask(s, made, 63) && has_text(s, made, NAME, any_text, ANY_LEN));
    CHECK(has_text(s, made, NOTE, any_text + LAST_CHARACTER, 4) && has_number(s, made, LIFE, INT64_MAX));
    CHECK(scene_read(s, made, AT, &read, &ticks) == SCENE_DONE && read.x == 1 && read.y == -2 && read.z == INT64_MIN);
    CHECK(scene_read(s, made, AIM, &read, &ticks) == SCENE_DONE && read.x == UINT32_MAX && read.y == 3);
    CHECK(scene_read(s, made, MARK, &read, &ticks) == SCENE_DONE && read.shape == SCENE_TAG && read.x == 0);
    CHECK(scene_undo(s) == SCENE_DONE && scene_mask(s, made, &(uint64_t){0}) == SCENE_REFUSED);
    CHECK(scene_redo(s) == SCENE_DONE && has_text(s, made, NAME, any_text, ANY_LEN));
}

/* No components, some in any order, and an empty text at the very end; what scene_with gave is for scene_spawn. */
static void spawn_with_few(scene **s)
{
    scene_cell cells[] = {number(LIFE, 5), part(NAME, ANY_LEN, 0)};
    scene_entity made = SCENE_NONE;
    CHECK(scene_with(s, number(LIFE, 9)) == SCENE_DONE);
    CHECK(spawn(s, cells, 0, &made) == SCENE_DONE && same_entity(made, entity(1)) && has_mask(s, made, 0));
    CHECK(scene_spawn_cells(s, cells, 0, any_text, 0, &made) == SCENE_DONE && same_entity(made, entity(2)));
    CHECK(spawn(s, cells, 2, &made) == SCENE_DONE && has_mask(s, made, 1 << LIFE | 1 << NAME));
    CHECK(has_number(s, made, LIFE, 5) && has_text(s, made, NAME, any_text, 0));
    CHECK(scene_spawn(s) == SCENE_DONE && has_number(s, entity(4), LIFE, 9) && has_mask(s, entity(4), 1 << LIFE));
}

/* In an open frame there is no entity yet, but the queue has a name for it, which counts its spawns of any call. What
 * is bad isn't counted, and the next queue counts anew. */
static void spawn_in_a_frame(scene **s)
{
    scene_cell cell = number(LIFE, 1), bad = number(256, 1);
    scene_entity first = {8, 9}, second = {8, 9}, other = {8, 9}, made;
    CHECK(scene_begin(s) == SCENE_DONE && spawn(s, &cell, 1, &first) == SCENE_DONE && same_entity(first, SCENE_NEW(0)));
    CHECK(answers(s, "") && scene_spawned(s, 0, &other) == SCENE_BAD && scene_spawn(s) == SCENE_DONE);
    CHECK(spawn(s, &bad, 1, &second) == SCENE_BAD && same_entity(second, (scene_entity){8, 9}));
    CHECK(spawn(s, &cell, 1, &second) == SCENE_DONE && same_entity(second, SCENE_NEW(2)));
    CHECK(scene_set_parent(s, second, first) == SCENE_DONE && play(s, "queue") == SCENE_DONE);
    CHECK(spawn(s, &cell, 1, &other) == SCENE_DONE && same_entity(other, SCENE_NEW(0)));
    CHECK(scene_insert(s, other, number(LIFE, 8)) == SCENE_DONE && scene_commit(s) == SCENE_DONE);
    CHECK(scene_spawned(s, 2, &made) == SCENE_DONE && same_entity(made, entity(7)) && has_number(s, made, LIFE, 1));
    CHECK(scene_parent(s, made, &made) == SCENE_DONE && same_entity(made, entity(5)));
    CHECK(has_number(s, entity(8), LIFE, 8));
    CHECK(scene_undo(s) == SCENE_DONE && has_mask(s, entity(4), 1 << LIFE));
}

/* A cell that names no component is bad, alone and behind others, and then nothing is done. */
static void spawn_badly(scene **s)
{
    const scene_cell bad[] = {
        part(NAME, 0, ANY_LEN + 1), part(NAME, ANY_LEN + 1, 0), part(NAME, -1, 1), part(NAME, 1, -1),
        part(NAME, INT64_MAX, INT64_MAX), part(NAME, INT64_MIN, 0), part(NAME, 1, INT64_MAX),
        part(NAME, LAST_CHARACTER, 3), part(NAME, LAST_CHARACTER + 1, 3), part(256, 0, 1), part(UINT32_MAX, 0, 1),
        number(256, 1), {.kind = LIFE, .shape = SCENE_ABSENT}, {.kind = LIFE, .shape = 6},
        {.kind = LIFE, .shape = UINT32_MAX}, {.kind = AIM, .shape = SCENE_LINK, .x = -1},
        {.kind = AIM, .shape = SCENE_LINK, .y = 4294967296}, {.kind = AIM, .shape = SCENE_LINK, .x = INT64_MIN},
    };
    scene_entity made = {8, 9}, of = entity(0);
    scene *none = NULL;
    leave_an_answer(s);
    uint64_t tick = tick_of(s);
    for (size_t at = 0; at < sizeof bad / sizeof *bad; at++) {
        scene_cell cells[] = {part(NOTE, 0, 1), bad[at]};
        CHECK(spawn(s, &bad[at], 1, &made) == SCENE_BAD && spawn(s, cells, 2, &made) == SCENE_BAD);
        CHECK(scene_insert_cells(s, &of, 1, &bad[at], 1, any_text, ANY_LEN) == SCENE_BAD);
        CHECK(made.index == 8 && made.generation == 9 && has_that_answer(s) && tick_of(s) == tick);
        CHECK(spawn(&none, &bad[at], 1, &made) == SCENE_BAD);
        CHECK(scene_insert_cells(&none, &of, 1, &bad[at], 1, any_text, ANY_LEN) == SCENE_BAD);
    }
    CHECK(scene_bad_reason(s) == SCENE_BAD && spawn(&none, bad, 0, &made) == SCENE_CLOSED && made.index == 8);
}

static void spawn_refused(void)
{
    scene_cell twice[] = {number(LIFE, 1), number(LIFE, 2)}, good = number(LIFE, 3);
    scene_cell unknown = number(KINDS, 1), large = number(255, 1), shape = number(NAME, 1), text = part(LIFE, 0, 1);
    scene_entity made = {8, 9};
    scene *s;
    open_with_kinds(&s);
    CHECK(play(&s, "slots 1") == SCENE_DONE);
    CHECK(spawn(&s, twice, 2, &made) == SCENE_REFUSED && refused_at(&s, 6, 0) && made.index == 8);
    CHECK(spawn(&s, &unknown, 1, &made) == SCENE_REFUSED && refused_at(&s, 5, 0));
    CHECK(spawn(&s, &large, 1, &made) == SCENE_REFUSED && refused_at(&s, 5, 0));
    CHECK(spawn(&s, &shape, 1, &made) == SCENE_REFUSED && refused_at(&s, 4, 0));
    CHECK(spawn(&s, &text, 1, &made) == SCENE_REFUSED && refused_at(&s, 4, 0) && made.index == 8);
    CHECK(spawn(&s, &good, 1, &made) == SCENE_DONE && same_entity(made, entity(0)));
    made = SCENE_NONE;
    CHECK(spawn(&s, &good, 1, &made) == SCENE_REFUSED && refused_at(&s, 11, 0) && same_entity(made, SCENE_NONE));
    CHECK(tick_of(&s) == 1);
    scene_close(&s);
}

/* ---- frames of writes */

/* Each entity gets its own component, of any shape, and all of it is one frame. */
static void insert_all(scene **s)
{
    scene_entity to[] = {entity(1), entity(4), entity(0), entity(2), entity(1), entity(1)};
    scene_cell cells[] = {number(LIFE, 1), number(LIFE, 4), part(NAME, 0, 3), {.kind = MARK, .shape = SCENE_TAG},
                          part(NOTE, LAST_CHARACTER, 4), number(LIFE, 2)};
    uint64_t tick = tick_of(s);
    CHECK(scene_insert_cells(s, to, 6, cells, 6, any_text, ANY_LEN) == SCENE_DONE && tick_of(s) == tick + 1);
    CHECK(answers(s, "") && scene_spawned(s, 0, &(scene_entity){0, 0}) == SCENE_BAD);
    CHECK(has_number(s, entity(1), LIFE, 2) && has_text(s, entity(1), NOTE, any_text + LAST_CHARACTER, 4));
    CHECK(has_number(s, entity(4), LIFE, 4) && has_text(s, entity(0), NAME, any_text, 3));
    CHECK(has_mask(s, entity(1), 1 << LIFE | 1 << NOTE) && has_mask(s, entity(2), 1 << MARK));
    CHECK(scene_undo(s) == SCENE_DONE && has_mask(s, entity(1), 0) && has_number(s, entity(4), LIFE, 9));
    CHECK(has_text(s, entity(0), NAME, any_text, ANY_LEN) && has_mask(s, entity(2), 0));
    CHECK(scene_redo(s) == SCENE_DONE && has_number(s, entity(1), LIFE, 2));
    CHECK(has_text(s, entity(0), NAME, any_text, 3));
    CHECK(scene_insert_cells(s, to, 0, cells, 0, any_text, 0) == SCENE_DONE && tick_of(s) == tick + 2);
    CHECK(scene_undo(s) == SCENE_DONE && tick_of(s) == tick + 1);
}

/* The first that can't be written is told, and none is. */
static void insert_refused(scene **s)
{
    scene_entity to[] = {entity(4), entity(1), entity(77)};
    scene_cell cells[] = {number(LIFE, 100), number(LIFE, 100), number(LIFE, 100)};
    uint64_t tick = tick_of(s);
    CHECK(scene_insert_cells(s, to, 3, cells, 3, any_text, 0) == SCENE_REFUSED && refused_at(s, 1, 2));
    to[0] = SCENE_NONE;
    CHECK(scene_insert_cells(s, to, 3, cells, 3, any_text, 0) == SCENE_REFUSED && refused_at(s, 1, 0));
    to[0] = entity(4);
    to[2] = SCENE_NEW(0);
    CHECK(scene_insert_cells(s, to, 3, cells, 3, any_text, 0) == SCENE_REFUSED && refused_at(s, 12, 2));
    cells[1] = number(KINDS, 1);
    CHECK(scene_insert_cells(s, to, 3, cells, 3, any_text, 0) == SCENE_REFUSED && refused_at(s, 5, 1));
    cells[1] = part(LIFE, 0, 1);
    CHECK(scene_insert_cells(s, to, 3, cells, 3, any_text, 1) == SCENE_REFUSED && refused_at(s, 4, 1));
    CHECK(has_number(s, entity(4), LIFE, 4) && has_number(s, entity(1), LIFE, 2) && tick_of(s) == tick);
}

/* Lists of different lengths, and more cells than a frame has places, are bad, and the last answer stays. */
static void insert_unequal(scene **s)
{
    scene_entity to[] = {entity(4), entity(1)};
    scene_cell cells[] = {number(LIFE, 100), number(LIFE, 100)};
    size_t many = (size_t)MOST_WRITES + 1;
    scene *none = NULL;
    /* Nobody writes to them, so they take no memory but their addresses. */
    scene_entity *all = malloc(many * sizeof *all);
    scene_cell *each = malloc(many * sizeof *each);
    leave_an_answer(s);
    CHECK(scene_insert_cells(s, to, 2, cells, 1, any_text, 0) == SCENE_BAD);
    CHECK(scene_insert_cells(s, to, 1, cells, 2, any_text, 0) == SCENE_BAD);
    CHECK(scene_insert_cells(s, to, 0, cells, 1, any_text, 0) == SCENE_BAD);
    CHECK(scene_insert_cells(s, to, 1, cells, 0, any_text, 0) == SCENE_BAD);
    CHECK(scene_insert_cells(&none, to, 1, cells, 2, any_text, 0) == SCENE_BAD);
    CHECK(scene_insert_cells(&none, to, 2, cells, 2, any_text, 0) == SCENE_CLOSED);
    if (all != NULL && each != NULL) CHECK(scene_insert_cells(s, all, many, each, many, any_text, 0) == SCENE_BAD);
    CHECK(has_number(s, entity(4), LIFE, 4) && has_that_answer(s) && scene_bad_reason(s) == SCENE_BAD);
    free(all);
    free(each);
}

/* A frame of its own can't be done in an open one, which stays as it was; that is an answer. */
static void insert_in_a_frame(scene **s)
{
    scene_entity to = entity(4);
    scene_cell cell = number(LIFE, 50);
    scene_info info;
    CHECK(scene_begin(s) == SCENE_DONE && scene_insert(s, to, number(LIFE, 40)) == SCENE_DONE);
    CHECK(scene_insert_cells(s, &to, 1, &cell, 1, any_text, 0) == SCENE_BAD);
    CHECK(scene_bad_reason(s) == SCENE_DONE && scene_answer(s, NULL, 0) > 0);
    CHECK(scene_insert_cells(s, &to, 0, &cell, 0, any_text, 0) == SCENE_BAD);
    CHECK(scene_status(s, &info) == SCENE_DONE && info.in_frame == 1 && has_number(s, to, LIFE, 4));
    CHECK(scene_commit(s) == SCENE_DONE && has_number(s, to, LIFE, 40) && scene_undo(s) == SCENE_DONE);
    CHECK(has_number(s, to, LIFE, 4));
}

/* Both end the setup, where their arguments name something, also of a scene that was loaded. */
static void end_the_setup(void)
{
    scene_entity made = SCENE_NONE, to = entity(0);
    scene_cell cell = number(0, 1), bad = part(0, 0, ANY_LEN + 1);
    uint32_t kind = 99;
    uint8_t text[4096];
    size_t len;
    scene *s, *loaded;
    CHECK(scene_open(&s) == SCENE_DONE && scene_insert_cells(&s, &to, 1, &bad, 1, any_text, 1) == SCENE_BAD);
    CHECK(spawn(&s, &bad, 1, &made) == SCENE_BAD && same_entity(made, SCENE_NONE));
    CHECK(declare(&s, "Life", SCENE_INT, &kind) == SCENE_DONE && kind == 0);
    CHECK(scene_insert_cells(&s, &to, 1, &cell, 1, any_text, 0) == SCENE_REFUSED && refused_at(&s, 1, 0));
    CHECK(play(&s, "kind More Int") == SCENE_BAD);
    CHECK(spawn(&s, &cell, 1, &made) == SCENE_DONE && same_entity(made, to) && tick_of(&s) == 1);
    CHECK(scene_save_into(&s, 2, 0, text, sizeof text, &len) == SCENE_DONE && len <= sizeof text);
    CHECK(scene_open(&loaded) == SCENE_DONE && scene_load(&loaded, text, len) == SCENE_DONE);
    CHECK(scene_insert_cells(&loaded, &to, 1, &cell, 1, any_text, 0) == SCENE_DONE && has_number(&loaded, to, 0, 1));
    CHECK(spawn(&loaded, &cell, 1, &made) == SCENE_DONE && same_entity(made, entity(1)) && tick_of(&loaded) == 3);
    scene_close(&loaded);
    scene_close(&s);
    CHECK(spawn(&s, &cell, 1, &made) == SCENE_CLOSED && same_entity(made, entity(1)));
}

/* ---- columns of texts */

enum { ROWS = 7, NO_SIZE = 77 };
static const char *const column[ROWS] = {"", "lamp", "\xc5\x81\xc3\xb3""d\xc5\xba", "a longer text", "", "b", "cc"};

/* What a column of texts is told into, and which begins full of marks. */
struct told {
    size_t ends[ROWS + 1];
    uint8_t room[64];
    size_t count, total;
};

static void mark(struct told *told)
{
    for (size_t at = 0; at <= ROWS; at++) told->ends[at] = NO_SIZE;
    memset(told->room, '_', sizeof told->room);
    told->count = told->total = NO_SIZE;
}

/* Whether these are the texts of the rows from one on, and nothing behind them was written. */
static bool are_told(const struct told *told, size_t from, size_t count)
{
    size_t end = 0;
    if (told->count != count || told->total != ROWS) return false;
    for (size_t at = 0; at < count; at++) {
        const char *text = column[from + at];
        if (told->ends[at] != end + strlen(text) || memcmp(told->room + end, text, strlen(text)) != 0) return false;
        end += strlen(text);
    }
    for (size_t at = count; at <= ROWS; at++)
        if (told->ends[at] != NO_SIZE) return false;
    for (size_t at = end; at < sizeof told->room; at++)
        if (told->room[at] != '_') return false;
    return true;
}

static bool is_unwritten(const struct told *told)
{
    struct told marked;
    mark(&marked);
    return memcmp(told->ends, marked.ends, sizeof marked.ends) == 0
        && memcmp(told->room, marked.room, sizeof marked.room) == 0 && told->count == NO_SIZE
        && told->total == NO_SIZE;
}

static scene_code tell(scene **s, uint64_t mask, uint32_t kind, size_t from, size_t room, size_t bytes_room,
                       struct told *told)
{
    mark(told);
    return scene_texts(s, mask, kind, from, told->ends, room, told->room, bytes_room, &told->count, &told->total);
}

/* How many of the rows from one on fit. */
static size_t fitting(size_t from, size_t room, size_t bytes_room)
{
    size_t count = 0;
    for (; from < ROWS && count < room && strlen(column[from]) <= bytes_room; from++, count++)
        bytes_room -= strlen(column[from]);
    return count;
}

/* Each beginning, with each room for places and for bytes. */
static void tell_each_part(scene **s)
{
    struct told told;
    for (size_t from = 0; from <= ROWS + 1; from++)
        for (size_t room = 0; room <= ROWS + 1; room++)
            for (size_t bytes_room = 0; bytes_room <= 32; bytes_room++) {
                CHECK(tell(s, 1, NAME, from, room, bytes_room, &told) == SCENE_DONE);
                CHECK(are_told(&told, from, fitting(from, room, bytes_room)));
            }
    CHECK(tell(s, 1, NAME, SIZE_MAX, ROWS, 32, &told) == SCENE_DONE && are_told(&told, 0, 0));
}

/* A whole column, as one reads it: on from what was told, and what doesn't fit alone by itself. */
static void tell_whole(scene **s)
{
    size_t alone = 0;
    struct told told;
    for (size_t from = 0; from < ROWS; from += told.count) {
        CHECK(tell(s, 1, NAME, from, 2, 8, &told) == SCENE_DONE && are_told(&told, from, told.count));
        if (told.count != 0) continue;
        CHECK(has_text(s, entity((uint32_t)from), NAME, bytes(column[from]), strlen(column[from])));
        alone++;
        told.count = 1;
    }
    CHECK(alone == 1);
}

/* Where there is no such column all stays as it was, with the last answer. */
static void tell_no_column(scene **s)
{
    struct told told;
    scene *none = NULL;
    leave_an_answer(s);
    CHECK(tell(s, 1 << LIFE, LIFE, 0, ROWS, 32, &told) == SCENE_BAD && is_unwritten(&told));
    CHECK(tell(s, 1 << LIFE, NAME, 0, ROWS, 32, &told) == SCENE_BAD && is_unwritten(&told));
    CHECK(tell(s, (uint64_t)1 << KINDS, KINDS, 0, ROWS, 32, &told) == SCENE_BAD && is_unwritten(&told));
    CHECK(tell(s, UINT64_MAX, 64, 0, ROWS, 32, &told) == SCENE_BAD && is_unwritten(&told));
    CHECK(tell(s, UINT64_MAX, 256, 0, ROWS, 32, &told) == SCENE_BAD && is_unwritten(&told));
    CHECK(tell(&none, 1, NAME, 0, ROWS, 32, &told) == SCENE_CLOSED && is_unwritten(&told));
    CHECK(tell(s, 1 << NAME | 1 << LIFE, NAME, 0, ROWS, 32, &told) == SCENE_DONE && told.total == 0 && told.count == 0);
    CHECK(told.ends[0] == NO_SIZE && told.room[0] == '_' && tell(s, 1, NAME, 0, 1, 1, &told) == SCENE_DONE);
    CHECK(has_that_answer(s));
}

static void tell_texts(void)
{
    scene *s;
    struct told told;
    scene_entity made;
    open_with_kinds(&s);
    CHECK(tell(&s, 1, NAME, 0, ROWS, 32, &told) == SCENE_BAD && is_unwritten(&told));
    for (size_t row = 0; row < ROWS; row++) {
        scene_cell cell = part(NAME, 0, (int64_t)strlen(column[row]));
        CHECK(scene_spawn_cells(&s, &cell, 1, bytes(column[row]), strlen(column[row]), &made) == SCENE_DONE);
    }
    tell_each_part(&s);
    tell_whole(&s);
    tell_no_column(&s);
    CHECK(scene_begin(&s) == SCENE_DONE && tell(&s, 1, NAME, 1, 1, 4, &told) == SCENE_DONE && are_told(&told, 1, 1));
    scene_close(&s);
}

int main(void)
{
    scene *s;
    open_with_kinds(&s);
    spawn_with_all(&s);
    spawn_with_few(&s);
    spawn_in_a_frame(&s);
    insert_all(&s);
    insert_refused(&s);
    insert_unequal(&s);
    insert_in_a_frame(&s);
    spawn_badly(&s);
    scene_close(&s);
    spawn_refused();
    end_the_setup();
    tell_texts();
    return failed;
}
