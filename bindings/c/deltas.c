/* What the deltas of two frames tell: each field of each, the rows that came and went, and the texts. Then the same of
 * the way on, and the codes at the edges, where nothing is written.
 *
 * The status is 1, with a line for each check that fails. */
#include "checks.h"

enum { NAME, LIFE, AT, AIM, KINDS };
enum { NO_SIZE = 77 };

static const scene_cell absent = {.shape = SCENE_ABSENT};

static scene_cell number(uint32_t kind, int64_t value)
{
    return (scene_cell){.kind = kind, .shape = SCENE_INT, .x = value};
}

static scene_cell text_cell(uint32_t kind)
{
    return (scene_cell){.kind = kind, .shape = SCENE_TEXT};
}

static scene_entity entity(uint32_t index)
{
    return (scene_entity){index, 1};
}

static bool same_cell(scene_cell one, scene_cell other)
{
    return one.kind == other.kind && one.shape == other.shape && one.x == other.x && one.y == other.y
        && one.z == other.z;
}

/* ---- the frames */

/* Two entities, one below the other, and two resources. */
static void make_first_frame(scene **s)
{
    scene_cell cells[] = {number(LIFE, 5), {.kind = NAME, .shape = SCENE_TEXT, .x = 1, .y = 4}};
    scene_entity made = SCENE_NONE;
    CHECK(scene_begin(s) == SCENE_DONE && scene_spawn_cells(s, cells, 2, bytes("_lamp_"), 6, &made) == SCENE_DONE);
    CHECK(scene_spawn(s) == SCENE_DONE && scene_set_parent(s, SCENE_NEW(1), SCENE_NEW(0)) == SCENE_DONE);
    CHECK(scene_put(s, bytes("score"), 5, number(9, 7)) == SCENE_DONE);
    CHECK(scene_put_text(s, bytes("motto"), 5, bytes("onward"), 6) == SCENE_DONE && scene_commit(s) == SCENE_DONE);
}

/* A delta of each sort, of each shape. */
static void make_second_frame(scene **s)
{
    scene_cell aim = {.kind = AIM, .shape = SCENE_LINK, .x = 3, .y = 2};
    scene_cell at = {.kind = AT, .shape = SCENE_VEC3, .x = 1, .y = -2, .z = 3};
    CHECK(scene_begin(s) == SCENE_DONE);
    CHECK(scene_insert_text(s, entity(0), NAME, bytes("a\0\xc5\x82"), 4) == SCENE_DONE);
    CHECK(scene_insert(s, entity(1), aim) == SCENE_DONE);
    CHECK(scene_insert_text(s, entity(1), NAME, bytes("b"), 1) == SCENE_DONE);
    CHECK(scene_remove(s, entity(0), LIFE) == SCENE_DONE && scene_drop(s, bytes("score"), 5) == SCENE_DONE);
    CHECK(scene_put_text(s, bytes("motto"), 5, bytes("ever"), 4) == SCENE_DONE);
    CHECK(scene_with(s, at) == SCENE_DONE && scene_spawn(s) == SCENE_DONE);
    CHECK(scene_set_parent(s, SCENE_NEW(0), entity(0)) == SCENE_DONE && scene_despawn(s, entity(1)) == SCENE_DONE);
    CHECK(scene_remove_parent(s, SCENE_NEW(0)) == SCENE_DONE && scene_commit(s) == SCENE_DONE);
}

/* ---- what is told */

/* A delta by its place in a step. */
static scene_delta told(scene **s, uint32_t way, size_t place, size_t at)
{
    scene_delta delta = {.change = NO_SIZE};
    uint64_t tick;
    size_t total = 0;
    CHECK(scene_step(s, way, place, &tick, at, &delta, 1, &total) == SCENE_DONE && at < total);
    return delta;
}

/* Whether a step began at a tick. */
static bool began_at(scene **s, uint32_t way, size_t place, uint64_t wanted)
{
    uint64_t tick = NO_SIZE;
    size_t total = 0;
    return scene_step(s, way, place, &tick, 0, &(scene_delta){0}, 0, &total) == SCENE_DONE && tick == wanted;
}

/* Whether it is of a component, and no parent. */
static bool is_of_cells(scene_delta delta, uint32_t change, scene_entity of, uint32_t place, scene_cell before,
                        scene_cell after)
{
    return delta.change == change && same_entity(delta.entity, of) && delta.place == place
        && same_cell(delta.before, before) && same_cell(delta.after, after)
        && same_entity(delta.parent_before, SCENE_NONE) && delta.place_before == 0
        && same_entity(delta.parent_after, SCENE_NONE) && delta.place_after == 0;
}

/* Whether it is of a parent, and no component. */
static bool is_of_parents(scene_delta delta, uint32_t change, scene_entity of, uint32_t place, scene_entity before,
                          uint32_t place_before, scene_entity after, uint32_t place_after)
{
    return delta.change == change && same_entity(delta.entity, of) && delta.place == place
        && same_cell(delta.before, absent) && same_cell(delta.after, absent)
        && same_entity(delta.parent_before, before) && delta.place_before == place_before
        && same_entity(delta.parent_after, after) && delta.place_after == place_after;
}

/* Whether a text of a delta is this one, and the only one that has room. */
static bool has_text(scene **s, uint32_t way, size_t place, size_t at, uint32_t which, uint32_t kind, const char *text,
                     size_t len)
{
    uint8_t room[17] = "________________";
    size_t end = NO_SIZE, count = NO_SIZE, total = NO_SIZE;
    CHECK(scene_delta_texts(s, way, place, which, kind, at, &end, 1, room, 16, &count, &total) == SCENE_DONE);
    return count == 1 && total > at && end == len && memcmp(room, text, len) == 0 && room[len] == '_';
}

static bool has_no_text(scene **s, uint32_t way, size_t place, size_t at, uint32_t which, uint32_t kind)
{
    return has_text(s, way, place, at, which, kind, "", 0);
}

/* Whether a delta has a row of so many components, which go to `cells`, of three places, and the only one with room. */
static bool has_row(scene **s, uint32_t way, size_t place, size_t at, scene_cell *cells, size_t len)
{
    size_t end = NO_SIZE, count = NO_SIZE, total = NO_SIZE;
    for (size_t k = 0; k < 3; k++) cells[k] = absent;
    CHECK(scene_delta_rows(s, way, place, at, &end, 1, cells, 3, &count, &total) == SCENE_DONE);
    for (size_t k = len; k < 3; k++) CHECK(same_cell(cells[k], absent));
    return count == 1 && total > at && end == len;
}

static bool has_no_row(scene **s, uint32_t way, size_t place, size_t at)
{
    return has_row(s, way, place, at, (scene_cell[3]){{0}}, 0);
}

/* Whether a step has no delta at a place or behind it. */
static bool ends_before(scene **s, uint32_t way, size_t place, size_t at, size_t wanted)
{
    scene_cell cell = absent;
    uint8_t room = '_';
    size_t end = NO_SIZE, count = NO_SIZE, total = NO_SIZE;
    CHECK(scene_delta_rows(s, way, place, at, &end, 1, &cell, 1, &count, &total) == SCENE_DONE && count == 0);
    CHECK(total == wanted && end == NO_SIZE && same_cell(cell, absent));
    count = total = NO_SIZE;
    CHECK(scene_delta_texts(s, way, place, 1, NAME, at, &end, 1, &room, 1, &count, &total) == SCENE_DONE);
    return count == 0 && total == wanted && end == NO_SIZE && room == '_';
}

/* Whether there is no such step: then nothing is written. */
static bool has_no_step(scene **s, uint32_t way, size_t place)
{
    scene_cell cell = absent;
    uint8_t room = '_';
    size_t end = NO_SIZE, count = NO_SIZE, total = NO_SIZE;
    CHECK(scene_delta_rows(s, way, place, 0, &end, 1, &cell, 1, &count, &total) == SCENE_REFUSED);
    CHECK(scene_delta_texts(s, way, place, 1, NAME, 0, &end, 1, &room, 1, &count, &total) == SCENE_REFUSED);
    return end == NO_SIZE && count == NO_SIZE && total == NO_SIZE && same_cell(cell, absent) && room == '_';
}

/* The first frame, at a place of a way. */
static void tell_first(scene **s, uint32_t way, size_t place)
{
    scene_cell row[3];
    CHECK(is_of_cells(told(s, way, place, 0), SCENE_SPAWNED, entity(0), 0, absent, absent));
    CHECK(has_row(s, way, place, 0, row, 2));
    CHECK(same_cell(row[0], text_cell(NAME)) && same_cell(row[1], number(LIFE, 5)));
    CHECK(is_of_cells(told(s, way, place, 1), SCENE_SPAWNED, entity(1), 0, absent, absent));
    CHECK(has_no_row(s, way, place, 1));
    CHECK(has_text(s, way, place, 0, 1, NAME, "lamp", 4) && has_no_text(s, way, place, 0, 0, NAME));
    CHECK(has_no_text(s, way, place, 0, 1, LIFE) && has_no_text(s, way, place, 0, 1, AT));
    CHECK(has_no_text(s, way, place, 0, 2, NAME) && has_no_text(s, way, place, 1, 1, NAME));
    CHECK(has_no_text(s, way, place, 0, 1, 255) && has_no_text(s, way, place, 0, 3, NAME));
    CHECK(is_of_parents(told(s, way, place, 2), SCENE_LINKED, entity(1), 0, SCENE_NONE, 0, entity(0), 0));
    CHECK(has_no_row(s, way, place, 2) && has_no_text(s, way, place, 2, 1, NAME));
    CHECK(is_of_cells(told(s, way, place, 3), SCENE_RESOURCE, SCENE_NONE, 0, absent, number(0, 7)));
    CHECK(has_text(s, way, place, 3, 2, 255, "score", 5) && has_no_text(s, way, place, 3, 1, 0));
    CHECK(has_no_row(s, way, place, 3));
    CHECK(is_of_cells(told(s, way, place, 4), SCENE_RESOURCE, SCENE_NONE, 0, absent, text_cell(0)));
    CHECK(has_text(s, way, place, 4, 1, 255, "onward", 6) && has_no_text(s, way, place, 4, 0, 0));
    CHECK(has_no_row(s, way, place, 4) && has_text(s, way, place, 4, 2, 0, "motto", 5));
    CHECK(has_no_text(s, way, place, 4, 3, 0) && has_no_text(s, way, place, 4, UINT32_MAX, 0));
    CHECK(ends_before(s, way, place, 5, 5) && ends_before(s, way, place, SIZE_MAX, 5));
}

/* The components of the second frame. */
static void tell_cells_of_second(scene **s, uint32_t way, size_t place)
{
    scene_cell aim = {.kind = AIM, .shape = SCENE_LINK, .x = 3, .y = 2};
    CHECK(is_of_cells(told(s, way, place, 0), SCENE_SET, entity(0), 0, text_cell(NAME), text_cell(NAME)));
    CHECK(has_text(s, way, place, 0, 0, LIFE, "lamp", 4) && has_text(s, way, place, 0, 1, 255, "a\0\xc5\x82", 4));
    CHECK(has_no_text(s, way, place, 0, 2, NAME) && has_no_row(s, way, place, 0));
    CHECK(is_of_cells(told(s, way, place, 1), SCENE_SHIFTED, entity(1), 0, absent, aim));
    CHECK(has_no_text(s, way, place, 1, 0, AIM) && has_no_text(s, way, place, 1, 1, AIM));
    CHECK(has_no_row(s, way, place, 1));
    CHECK(is_of_cells(told(s, way, place, 2), SCENE_SHIFTED, entity(1), 0, absent, text_cell(NAME)));
    CHECK(has_text(s, way, place, 2, 1, 0, "b", 1) && has_no_text(s, way, place, 2, 0, NAME));
    CHECK(is_of_cells(told(s, way, place, 3), SCENE_SHIFTED, entity(0), 0, number(LIFE, 5), absent));
    CHECK(is_of_cells(told(s, way, place, 4), SCENE_RESOURCE, SCENE_NONE, 0, number(0, 7), absent));
    CHECK(has_text(s, way, place, 4, 2, 0, "score", 5) && has_no_text(s, way, place, 4, 0, 0));
    CHECK(is_of_cells(told(s, way, place, 5), SCENE_RESOURCE, SCENE_NONE, 0, text_cell(0), text_cell(0)));
    CHECK(has_text(s, way, place, 5, 0, 0, "onward", 6) && has_text(s, way, place, 5, 1, 7, "ever", 4));
    CHECK(has_text(s, way, place, 5, 2, 0, "motto", 5));
}

/* Its rows and parents. */
static void tell_rows_of_second(scene **s, uint32_t way, size_t place)
{
    scene_cell at = {.kind = AT, .shape = SCENE_VEC3, .x = 1, .y = -2, .z = 3}, row[3];
    CHECK(is_of_cells(told(s, way, place, 6), SCENE_SPAWNED, entity(2), 0, absent, absent));
    CHECK(has_row(s, way, place, 6, row, 1) && same_cell(row[0], at));
    CHECK(is_of_parents(told(s, way, place, 7), SCENE_LINKED, entity(2), 0, SCENE_NONE, 0, entity(0), 1));
    CHECK(is_of_parents(told(s, way, place, 8), SCENE_DESPAWNED, entity(1), 0, entity(0), 0, SCENE_NONE, 0));
    CHECK(has_row(s, way, place, 8, row, 2));
    CHECK(same_cell(row[0], text_cell(NAME)) && row[1].kind == AIM && row[1].x == 3 && row[1].y == 2);
    CHECK(has_text(s, way, place, 8, 0, NAME, "b", 1) && has_no_text(s, way, place, 8, 1, NAME));
    CHECK(is_of_parents(told(s, way, place, 9), SCENE_LINKED, entity(2), 0, entity(0), 0, SCENE_NONE, 0));
    CHECK(ends_before(s, way, place, 10, 10) && has_no_row(s, way, place, 9));
}

/* ---- places */

/* The row that a delta takes away leaves its place in its table, where the last one comes; a child leaves its place
 * among the others, who stay in their order. */
static void tell_places(void)
{
    scene_delta deltas[4] = {{0}};
    uint64_t tick;
    size_t total;
    scene *s;
    CHECK(scene_open(&s) == SCENE_DONE && play(&s, "kind Mark Tag") == SCENE_DONE && scene_begin(&s) == SCENE_DONE);
    for (uint32_t at = 0; at < 5; at++) CHECK(scene_spawn(&s) == SCENE_DONE);
    for (uint32_t at = 1; at < 5; at++) CHECK(scene_set_parent(&s, SCENE_NEW(at), SCENE_NEW(0)) == SCENE_DONE);
    CHECK(scene_commit(&s) == SCENE_DONE && scene_begin(&s) == SCENE_DONE);
    CHECK(scene_despawn(&s, entity(2)) == SCENE_DONE && scene_despawn(&s, entity(4)) == SCENE_DONE);
    CHECK(scene_insert(&s, entity(3), (scene_cell){.shape = SCENE_TAG}) == SCENE_DONE);
    CHECK(scene_set_parent(&s, entity(1), entity(0)) == SCENE_DONE && scene_commit(&s) == SCENE_DONE);
    CHECK(scene_step(&s, SCENE_BACK, 0, &tick, 0, deltas, 4, &total) == SCENE_DONE && total == 4);
    CHECK(is_of_parents(deltas[0], SCENE_DESPAWNED, entity(2), 2, entity(0), 1, SCENE_NONE, 0));
    CHECK(is_of_parents(deltas[1], SCENE_DESPAWNED, entity(4), 2, entity(0), 2, SCENE_NONE, 0));
    CHECK(is_of_cells(deltas[2], SCENE_SHIFTED, entity(3), 2, absent, (scene_cell){.shape = SCENE_TAG}));
    CHECK(is_of_parents(deltas[3], SCENE_LINKED, entity(1), 0, entity(0), 0, entity(0), 1));
    scene_close(&s);
}

/* ---- many at once */

enum { PLACES = 8, BYTES = 32 };

/* What rows or texts are told into, and which begins full of marks. */
static struct page {
    size_t ends[PLACES], told, total;
    scene_cell cells[PLACES];
    uint8_t text[BYTES];
} page;

static void clear_page(void)
{
    for (size_t at = 0; at < PLACES; at++) page.cells[at] = absent, page.ends[at] = NO_SIZE;
    memset(page.text, '_', sizeof page.text);
    page.told = page.total = NO_SIZE;
}

static scene_code ask_rows(scene **s, uint32_t way, size_t place, size_t from, size_t room, size_t cells_room)
{
    clear_page();
    return scene_delta_rows(s, way, place, from, page.ends, room, page.cells, cells_room, &page.told, &page.total);
}

static scene_code ask_texts(scene **s, uint32_t way, size_t place, uint32_t which, size_t from, size_t room,
                            size_t bytes_room)
{
    clear_page();
    return scene_delta_texts(s, way, place, which, NAME, from, page.ends, room, page.text, bytes_room, &page.told,
                             &page.total);
}

/* Whether so many were told, with these ends, and no place behind them was written. */
static bool told_ends(const size_t *ends, size_t count)
{
    bool same = page.told == count && memcmp(page.ends, ends, count * sizeof *ends) == 0;
    for (size_t at = count; at < PLACES; at++) same = same && page.ends[at] == NO_SIZE;
    size_t last = count == 0 ? 0 : ends[count - 1];
    for (size_t at = last; at < PLACES; at++) same = same && same_cell(page.cells[at], absent);
    return same;
}

static bool told_text(const char *text, size_t len)
{
    return memcmp(page.text, text, len) == 0 && page.text[len] == '_';
}

/* The first frame, of two components, none, and three deltas that are no rows, by pages of any length. */
static void tell_many_of_first(scene **s, uint32_t way, size_t place)
{
    static const size_t rows[] = {2, 2, 2, 2, 2}, none[] = {0, 0, 0, 0}, names[] = {4, 4, 4, 4, 10};
    static const size_t of_names[] = {0, 0, 0, 5, 10};
    CHECK(ask_rows(s, way, place, 0, PLACES, PLACES) == SCENE_DONE && page.total == 5 && told_ends(rows, 5));
    CHECK(same_cell(page.cells[0], text_cell(NAME)) && same_cell(page.cells[1], number(LIFE, 5)));
    CHECK(ask_rows(s, way, place, 0, 2, 2) == SCENE_DONE && page.total == 5 && told_ends(rows, 2));
    CHECK(ask_rows(s, way, place, 0, PLACES, 2) == SCENE_DONE && page.total == 5 && told_ends(rows, 5));
    for (size_t few = 0; few < 2; few++)
        CHECK(ask_rows(s, way, place, 0, PLACES, few) == SCENE_DONE && page.total == 5 && told_ends(none, 0));
    CHECK(ask_rows(s, way, place, 0, 0, PLACES) == SCENE_DONE && page.total == 5 && told_ends(none, 0));
    CHECK(ask_rows(s, way, place, 1, PLACES, 0) == SCENE_DONE && page.total == 5 && told_ends(none, 4));
    CHECK(ask_texts(s, way, place, 1, 0, PLACES, BYTES) == SCENE_DONE && page.total == 5 && told_ends(names, 5));
    CHECK(told_text("lamponward", 10));
    CHECK(ask_texts(s, way, place, 1, 0, PLACES, 10) == SCENE_DONE && told_ends(names, 5));
    CHECK(ask_texts(s, way, place, 1, 0, PLACES, 9) == SCENE_DONE && told_ends(names, 4) && told_text("lamp", 4));
    CHECK(ask_texts(s, way, place, 1, 0, PLACES, 3) == SCENE_DONE && told_ends(none, 0) && told_text("", 0));
    CHECK(ask_texts(s, way, place, 1, 1, PLACES, 0) == SCENE_DONE && told_ends(none, 3) && told_text("", 0));
    CHECK(ask_texts(s, way, place, 1, 0, 0, BYTES) == SCENE_DONE && page.total == 5 && told_ends(none, 0));
    CHECK(ask_texts(s, way, place, 2, 0, PLACES, BYTES) == SCENE_DONE && told_ends(of_names, 5));
    CHECK(told_text("scoremotto", 10));
    CHECK(ask_texts(s, way, place, 0, 1, PLACES, BYTES) == SCENE_DONE && told_ends(none, 4) && told_text("", 0));
    CHECK(ask_texts(s, way, place, 3, 1, PLACES, BYTES) == SCENE_DONE && told_ends(none, 4) && told_text("", 0));
}

enum { MANY = 10000, MANY_ROOM = 997 };

/* The rows and the names of so many spawns, by pages, where each is as long as its number says. */
static void tell_pages_of(scene **s, uint32_t way)
{
    static size_t ends[MANY_ROOM];
    static scene_cell cells[MANY_ROOM];
    static uint8_t text[MANY_ROOM];
    size_t from = 0, count = 0, total = 0;
    for (; from == 0 || count > 0; from += count) {
        CHECK(scene_delta_rows(s, way, 0, from, ends, MANY_ROOM, cells, MANY_ROOM, &count, &total) == SCENE_DONE);
        CHECK(total == MANY && count <= MANY_ROOM && (from == MANY) == (count == 0));
        for (size_t at = 0, begins = 0; at < count; begins = ends[at++])
            CHECK(ends[at] - begins == 1 + (from + at) % 2 && cells[ends[at] - 1].x == (int64_t)(from + at)
                  && (ends[at] - begins == 1 || same_cell(cells[begins], text_cell(NAME))));
        if (count == 0) break;
    }
    CHECK(from == MANY);
    for (from = 0; from < MANY; from += count) {
        CHECK(scene_delta_texts(s, way, 0, 1, NAME, from, ends, MANY_ROOM, text, MANY_ROOM, &count, &total)
              == SCENE_DONE);
        CHECK(total == MANY && 0 < count && count <= MANY_ROOM);
        for (size_t at = 0, begins = 0; at < count; begins = ends[at++])
            CHECK(ends[at] - begins == (from + at) % 2 * ((from + at) % 4));
        if (count == 0) return;
    }
}

static void tell_a_large_step(void)
{
    uint32_t kind;
    scene *s;
    CHECK(scene_open(&s) == SCENE_DONE && declare(&s, "Name", SCENE_TEXT, &kind) == SCENE_DONE);
    CHECK(declare(&s, "Life", SCENE_INT, &kind) == SCENE_DONE && scene_begin(&s) == SCENE_DONE);
    for (uint32_t at = 0; at < MANY; at++) {
        scene_cell cells[] = {number(LIFE, at), {.kind = NAME, .shape = SCENE_TEXT, .y = at % 4}};
        scene_entity made = SCENE_NONE;
        CHECK(scene_spawn_cells(&s, cells, 1 + at % 2, bytes("abc"), 3, &made) == SCENE_DONE);
        CHECK(same_entity(made, SCENE_NEW(at)));
    }
    CHECK(scene_commit(&s) == SCENE_DONE);
    tell_pages_of(&s, SCENE_BACK);
    CHECK(scene_undo(&s) == SCENE_DONE);
    tell_pages_of(&s, SCENE_ON);
    scene_close(&s);
}

/* ---- edges */

static void tell_nothing(scene **s, scene_code wanted)
{
    CHECK(ask_rows(s, SCENE_BACK, 0, 0, 1, 1) == wanted && page.told == NO_SIZE && page.total == NO_SIZE);
    CHECK(ask_texts(s, SCENE_ON, 0, 1, 0, 1, 1) == wanted && page.told == NO_SIZE && page.total == NO_SIZE);
}

/* Another way, or a kind that there can't be. */
static void ask_badly(scene **s)
{
    static const uint32_t ways[] = {2, UINT32_MAX}, kinds[] = {256, UINT32_MAX};
    for (size_t at = 0; at < 2; at++) {
        CHECK(ask_rows(s, ways[at], 0, 0, 1, 1) == SCENE_BAD && page.told == NO_SIZE && page.total == NO_SIZE);
        CHECK(ask_texts(s, ways[at], 0, 1, 0, 1, 1) == SCENE_BAD && page.told == NO_SIZE && page.total == NO_SIZE);
        for (uint32_t which = 0; which < 4; which++)
            CHECK(scene_delta_texts(s, SCENE_BACK, 0, which, kinds[at], 0, page.ends, 1, page.text, 1, &page.told,
                                    &page.total) == SCENE_BAD);
        CHECK(page.ends[0] == NO_SIZE && page.text[0] == '_' && page.told == NO_SIZE && page.total == NO_SIZE);
    }
}

int main(void)
{
    static const char *const names[KINDS] = {"Name", "Life", "At", "Aim"};
    static const uint32_t shapes[KINDS] = {SCENE_TEXT, SCENE_INT, SCENE_VEC3, SCENE_LINK};
    uint32_t kind;
    scene *s;
    CHECK(scene_open(&s) == SCENE_DONE);
    for (uint32_t at = 0; at < KINDS; at++) CHECK(declare(&s, names[at], shapes[at], &kind) == SCENE_DONE);
    tell_nothing(&s, SCENE_BAD);
    ask_badly(&s);
    make_first_frame(&s);
    make_second_frame(&s);
    CHECK(began_at(&s, SCENE_BACK, 1, 0) && began_at(&s, SCENE_BACK, 0, 1));
    tell_first(&s, SCENE_BACK, 1);
    tell_many_of_first(&s, SCENE_BACK, 1);
    ask_badly(&s);
    tell_cells_of_second(&s, SCENE_BACK, 0);
    tell_rows_of_second(&s, SCENE_BACK, 0);
    CHECK(has_no_step(&s, SCENE_BACK, 2) && has_no_step(&s, SCENE_BACK, SIZE_MAX) && has_no_step(&s, SCENE_ON, 0));
    CHECK(play(&s, "undo") == SCENE_DONE && scene_begin(&s) == SCENE_DONE);
    CHECK(began_at(&s, SCENE_BACK, 0, 0) && began_at(&s, SCENE_ON, 0, 1));
    tell_first(&s, SCENE_BACK, 0);
    tell_cells_of_second(&s, SCENE_ON, 0);
    tell_rows_of_second(&s, SCENE_ON, 0);
    CHECK(scene_drop_frame(&s) == SCENE_DONE && answers(&s, "") && has_no_step(&s, SCENE_ON, 1));
    CHECK(scene_undo(&s) == SCENE_DONE);
    tell_first(&s, SCENE_ON, 0);
    tell_many_of_first(&s, SCENE_ON, 0);
    tell_places();
    tell_a_large_step();
    scene_close(&s);
    tell_nothing(&s, SCENE_CLOSED);
    ask_badly(&s);
    return failed;
}
