/* Reads a scene as a front end does: 10,000 entities in a hierarchy, by columns, beside a plain list of what was
 * written, as it is made, after changes, and after they were undone. It prints what it read last, or what differs. */
#include "scene.h"

#include <inttypes.h>
#include <stdio.h>
#include <stdlib.h>
#include <string.h>

enum { COUNT = 10000, FAN = 10, PART = 64, NAME_ROOM = 32 };

typedef struct {
    scene_entity id;
    int64_t health;
    scene_vec3 at;
    int parent; /* its place, or -1 */
    int has_at;
} thing;

static thing things[COUNT];
static const uint8_t no_bytes[] = {0}; /* of cells that are no texts */
static scene *level;

static void fails(const char *what, size_t place)
{
    printf("%s differs at %zu\n", what, place);
    exit(1);
}

static void done(scene_code code, const char *what)
{
    if (code != SCENE_DONE) fails(what, code);
}

static int same(scene_entity a, scene_entity b)
{
    return a.index == b.index && a.generation == b.generation;
}

static thing *thing_of(scene_entity id)
{
    if (id.index >= COUNT || !same(things[id.index].id, id)) fails("an entity", id.index);
    return &things[id.index];
}

static void declare(const char *name, uint32_t shape, uint32_t wanted)
{
    uint32_t kind = wanted + 1;
    done(scene_declare(&level, (const uint8_t *)name, strlen(name), shape, &kind), name);
    if (kind != wanted) fails(name, kind);
}

/* A thing in three has no place; each stands below another, ten below each. */
static void build(void)
{
    scene_entity made = SCENE_NONE;
    declare("Health", SCENE_INT, 0);
    declare("At", SCENE_VEC3, 1);
    declare("Friend", SCENE_LINK, 2);
    declare("Name", SCENE_TEXT, 3);
    done(scene_begin(&level), "begin");
    for (int i = 0; i < COUNT; i++) {
        thing *t = &things[i];
        *t = (thing){{(uint32_t)i, 1}, 3 * i, {i, -i, 7}, i == 0 ? -1 : (i - 1) / FAN, i % 3 != 0};
        scene_cell cells[] = {{0, SCENE_INT, t->health, 0, 0}, {1, SCENE_VEC3, t->at.x, t->at.y, t->at.z}};
        done(scene_spawn_cells(&level, cells, t->has_at ? 2 : 1, no_bytes, 0, &made), "spawn");
        if (!same(made, SCENE_NEW(i))) fails("a name in a frame", (size_t)i);
    }
    for (int i = 1; i < COUNT; i++) done(scene_set_parent(&level, SCENE_NEW(i), SCENE_NEW(things[i].parent)), "parent");
    done(scene_commit(&level), "commit");
}

/* The rows of a table, a part at a time: each is compared, and they are as many as the table says. */
static size_t compare_table(scene_table table)
{
    scene_entity ids[PART];
    int64_t ints[PART];
    scene_vec3 places[PART];
    size_t total = 0, from = 0;
    int has_at = (table.mask & 2) != 0;
    do {
        done(scene_rows(&level, table.mask, from, ids, PART, &total), "rows");
        if (total != table.rows) fails("the count of rows", total);
        done(scene_ints(&level, table.mask, 0, from, ints, PART, &total), "ints");
        if (has_at) done(scene_vec3s(&level, table.mask, 1, from, places, PART, &total), "vec3s");
        for (size_t i = 0; i < PART && from + i < total; i++) {
            thing *t = thing_of(ids[i]);
            if (t->has_at != has_at || ints[i] != t->health) fails("a number", from + i);
            if (has_at && memcmp(&places[i], &t->at, sizeof t->at) != 0) fails("a place", from + i);
        }
        from += PART;
    } while (from < total);
    return total;
}

static void compare_tree(void)
{
    scene_entity children[FAN], parent;
    for (int i = 0; i < COUNT; i++) {
        size_t total, wanted = 0;
        int first = FAN * i + 1;
        if (first < COUNT) wanted = COUNT - first < FAN ? (size_t)(COUNT - first) : FAN;
        done(scene_children(&level, things[i].id, 0, children, FAN, &total), "children");
        if (total != wanted) fails("the count of children", (size_t)i);
        for (size_t k = 0; k < total; k++)
            if (!same(children[k], things[first + (int)k].id)) fails("a child", (size_t)i);
        done(scene_parent(&level, things[i].id, &parent), "parent");
        if (!same(parent, i == 0 ? SCENE_NONE : things[things[i].parent].id)) fails("a parent", (size_t)i);
    }
}

static size_t compare(void)
{
    scene_table tables[4], one;
    size_t total, rows = 0, all;
    done(scene_tables(&level, 1, 0, 0, tables, 4, &total), "tables");
    for (size_t i = 0; i < total; i++) rows += compare_table(tables[i]);
    if (rows != COUNT) fails("the count of entities", rows);
    done(scene_tables(&level, 1, 0, 1, &one, 1, &all), "tables");
    if (all != total || (total > 1 && one.mask != tables[1].mask)) fails("a table", total);
    compare_tree();
    return total;
}

/* Each seventh is hurt, all in one frame. */
static void hurt(int64_t by)
{
    static scene_entity ids[COUNT];
    static scene_cell cells[COUNT];
    size_t count = 0;
    for (int i = 0; i < COUNT; i += 7, count++) {
        things[i].health += by;
        ids[count] = things[i].id;
        cells[count] = (scene_cell){0, SCENE_INT, things[i].health, 0, 0};
    }
    done(scene_insert_cells(&level, ids, count, cells, count, no_bytes, 0), "insert");
}

static void compare_kinds(void)
{
    static const char *const names[] = {"Health", "At", "Friend", "Name"};
    static const uint32_t shapes[] = {SCENE_INT, SCENE_VEC3, SCENE_LINK, SCENE_TEXT};
    for (uint32_t kind = 0; kind < 4; kind++) {
        uint8_t name[NAME_ROOM];
        uint32_t shape, found;
        size_t len;
        done(scene_kind(&level, kind, &shape, 0, name, sizeof name, &len), "kind");
        if (shape != shapes[kind] || len != strlen(names[kind]) || memcmp(name, names[kind], len) != 0)
            fails("a kind", kind);
        done(scene_kind_named(&level, name, len, &found), "kind_named");
        if (found != kind) fails("the number of a kind", kind);
    }
}

/* What isn't there is told, and nothing is written. */
static void compare_edges(void)
{
    scene_info info;
    scene_cell cell = {9, 9, 9, 9, 9};
    scene_tick_pair ticks = {9, 9};
    scene_entity id = {9, 9};
    int64_t number = 9;
    uint64_t mask = 9;
    uint32_t word = 9;
    uint8_t byte = 9;
    size_t total = 9;
    scene *none = NULL;
    if (scene_status(&none, &info) != SCENE_CLOSED) fails("null", 0);
    if (scene_mask(&level, SCENE_NONE, &mask) != SCENE_REFUSED || mask != 9) fails("a dead one's kinds", 0);
    if (scene_ints(&level, 1, 1, 0, &number, 1, &total) != SCENE_BAD || number != 9 || total != 9) fails("a shape", 1);
    if (scene_ints(&level, 2, 0, 0, &number, 1, &total) != SCENE_BAD) fails("a kind that a set hasn't", 2);
    if (scene_ticks(&level, 1, 0, 2, 0, &mask, 1, &total) != SCENE_BAD || mask != 9) fails("which ticks", 2);
    if (scene_kind(&level, 4, &word, 0, &byte, 1, &total) != SCENE_BAD || word != 9 || byte != 9) fails("a kind", 4);
    if (scene_kind_named(&level, (const uint8_t *)"None", 4, &word) != SCENE_BAD || word != 9) fails("a name", 0);
    if (scene_read(&level, things[0].id, 1, &cell, &ticks) != SCENE_REFUSED || cell.x != 9 || ticks.added != 9)
        fails("a component", 0);
    if (scene_read(&level, things[0].id, 256, &cell, &ticks) != SCENE_BAD) fails("a large kind", 0);
    if (scene_read_text(&level, things[0].id, 0, 0, &byte, 1, &total) != SCENE_REFUSED) fails("a text", 0);
    done(scene_parent(&level, SCENE_NONE, &id), "parent");
    if (!same(id, SCENE_NONE)) fails("a dead one's parent", 0);
    done(scene_rows(&level, 8, 0, &id, 1, &total), "rows");
    if (total != 0 || !same(id, SCENE_NONE)) fails("a set without rows", 0);
    done(scene_rows(&level, 1, SIZE_MAX, &id, 1, &total), "rows");
    if (total == 0 || !same(id, SCENE_NONE)) fails("rows behind the last", 0);
}

int main(void)
{
    scene_info info;
    scene_cell cell;
    scene_tick_pair ticks;
    scene_entity friend;
    uint32_t alive;
    uint8_t text[4];
    size_t total;
    if (scene_open(&level) != SCENE_DONE) return 2;
    if (scene_status(&level, &info) != SCENE_BAD) fails("the setup", 0);
    if (scene_kind_named(&level, (const uint8_t *)"A", 1, &alive) != SCENE_BAD) fails("a kind of the setup", 0);
    build();
    compare_kinds();
    compare();
    hurt(-5);
    compare();
    done(scene_undo(&level), "undo");
    for (int i = 0; i < COUNT; i += 7) things[i].health += 5;
    size_t tables = compare();
    compare_edges();

    done(scene_insert(&level, things[0].id, (scene_cell){2, SCENE_LINK, 4, 1, 0}), "link");
    done(scene_links(&level, 5, 2, 0, &friend, 1, &total), "links");
    if (total != 1 || !same(friend, things[4].id)) fails("a link", 0);
    done(scene_insert_text(&level, things[0].id, 3, (const uint8_t *)"a lamp", 6), "text");
    done(scene_read_text(&level, things[0].id, 3, 2, text, sizeof text, &total), "read_text");
    if (total != 6 || memcmp(text, "lamp", 4) != 0) fails("a text", 0);
    done(scene_read(&level, things[0].id, 2, &cell, &ticks), "read");
    done(scene_is_alive(&level, things[1].id, &alive), "is_alive");
    if (cell.x != 4 || cell.y != 1 || ticks.added != 2 || alive != 1) fails("a component", 0);
    done(scene_status(&level, &info), "status");
    printf("tick %" PRIu64 ", rewinds %" PRIu64 ", undo %" PRIu64 ", redo %" PRIu64, info.tick, info.rewinds, info.undo,
           info.redo);
    printf(", %" PRIu32 " slots, %" PRIu32 " kinds, %zu tables", info.slots, info.kinds, tables);
    printf(", in a frame %" PRIu32 "\n", info.in_frame);
    scene_close(&level);
    return 0;
}
