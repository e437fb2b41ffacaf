/* Follows a scene as views do that are open beside one another: roots, resources, one kind of many entities, what was
 * written since a moment of each view's own, and steps of several frames. A list of its own says what has to be there
 * after each of 1,000 steps; it prints how many there were of each, or what differs. */
#include "scene.h"

#include <inttypes.h>
#include <stdio.h>
#include <stdlib.h>
#include <string.h>

enum { COUNT = 100, STEPS = 1000, FRAMES = 4 * STEPS, ROOM = 7 };

/* What the scene has to be behind each frame. */
typedef struct {
    int64_t health[COUNT];
    int has_health[COUNT], parent[COUNT];
    int64_t score; /* of the resource, or none where it is -1 */
} world;

static scene *level;
static scene_entity ids[COUNT];
static world states[FRAMES]; /* of the frames that can be undone and redone, in order */
static int now, last;
static uint64_t seed = 1;

static void fails(const char *what, size_t place)
{
    printf("%s differs at %zu\n", what, place);
    exit(1);
}

static void done(scene_code code, const char *what)
{
    if (code != SCENE_DONE) fails(what, code);
}

static int same(scene_entity a, scene_entity b)
{
    return a.index == b.index && a.generation == b.generation;
}

static int any(int below)
{
    seed = seed * 6364136223846793005u + 1442695040888963407u;
    return (int)((seed >> 33) % (uint64_t)below);
}

static void line(const char *text)
{
    done(scene_line(&level, (const uint8_t *)text, strlen(text)), text);
}

/* All have no parent at first, and health. */
static void build(void)
{
    line("kind Health Int");
    line("kind Name Text");
    done(scene_begin(&level), "begin");
    for (int i = 0; i < COUNT; i++) {
        ids[i] = (scene_entity){(uint32_t)i, 1};
        done(scene_with(&level, (scene_cell){0, SCENE_INT, i, 0, 0}), "with");
        done(scene_spawn(&level), "spawn");
        states[0].health[i] = i;
        states[0].has_health[i] = 1;
        states[0].parent[i] = -1;
    }
    states[0].score = -1;
    done(scene_commit(&level), "commit");
}

/* A frame by itself, after which another state is the last one. */
static world *frame(void)
{
    states[now + 1] = states[now];
    last = ++now;
    return &states[now];
}

static void change(void)
{
    int i = any(COUNT), place = any(COUNT);
    char words[64];
    world *w;
    switch (any(4)) {
    case 0:
        w = frame();
        w->health[i] = any(1000);
        w->has_health[i] = 1;
        done(scene_insert(&level, ids[i], (scene_cell){0, SCENE_INT, w->health[i], 0, 0}), "insert");
        break;
    case 1:
        if (!states[now].has_health[i]) return;
        w = frame();
        w->has_health[i] = 0;
        done(scene_remove(&level, ids[i], 0), "remove");
        break;
    case 2: /* under one with a smaller index, so that there is no cycle */
        if (place >= i) return;
        w = frame();
        w->parent[i] = place;
        done(scene_set_parent(&level, ids[i], ids[place]), "parent");
        break;
    default:
        w = frame();
        w->score = any(1000);
        snprintf(words, sizeof words, "put score Int=%" PRId64, w->score);
        line(words);
    }
}

static void compare_roots(const world *w)
{
    scene_entity found[ROOM];
    size_t total = 0, from = 0, wanted = 0;
    int next = 0;
    for (int i = 0; i < COUNT; i++) wanted += w->parent[i] < 0;
    do {
        done(scene_roots(&level, from, found, ROOM, &total), "roots");
        if (total != wanted) fails("the count of roots", total);
        for (size_t k = 0; k < ROOM && from + k < total; k++, next++) {
            while (w->parent[next] >= 0) next++;
            if (!same(found[k], ids[next])) fails("a root", from + k);
        }
        from += ROOM;
    } while (from < total);
}

static void compare_cells(const world *w)
{
    scene_cell cells[COUNT];
    done(scene_gather(&level, ids, COUNT, 0, cells, COUNT), "gather");
    for (int i = 0; i < COUNT; i++) {
        int has = w->has_health[i];
        if (cells[i].kind != 0 || cells[i].shape != (has ? SCENE_INT : SCENE_ABSENT)) fails("a shape", (size_t)i);
        if (cells[i].x != (has ? w->health[i] : 0)) fails("a number", (size_t)i);
    }
}

static void compare_resources(const world *w)
{
    scene_cell cell = {9, 9, 9, 9, 9};
    scene_tick_pair ticks;
    scene_code code = scene_resource(&level, (const uint8_t *)"score", 5, &cell, &ticks);
    if (w->score < 0 ? code != SCENE_REFUSED || cell.x != 9 : code != SCENE_DONE || cell.x != w->score)
        fails("a resource", (size_t)now);
}

static void compare(void)
{
    compare_roots(&states[now]);
    compare_cells(&states[now]);
    compare_resources(&states[now]);
}

/* A step of several frames, or of more than there are, which is none. */
static size_t steps(int back)
{
    scene_info info;
    scene_refusal why;
    size_t there = (size_t)(back ? now + 1 : last - now), count = (size_t)any(12);
    scene_code code = back ? scene_undo_by(&level, count) : scene_redo_by(&level, count);
    /* The first frame spawned all. */
    if (back && count == there && count > 0) {
        done(code, "undo");
        done(scene_redo_by(&level, 1), "redo");
        now = 0;
        return 1;
    }
    if (count > there) {
        if (code != SCENE_REFUSED) fails("a step of too many frames", count);
        done(scene_refused(&level, &why), "refused");
        if (why.fault != (back ? 15 : 16)) fails("a fault", why.fault);
        return 0;
    }
    done(code, "a step");
    now += back ? -(int)count : (int)count;
    done(scene_status(&level, &info), "status");
    if (info.undo != (uint64_t)now + 1 || info.redo != (uint64_t)(last - now)) fails("how many are left", count);
    return count > 0;
}

/* A view that keeps a moment sees each change since, and is refused after an undo. */
static void compare_moments(void)
{
    scene_moment before, after;
    scene_name names[4];
    size_t total;
    done(scene_now(&level, &before), "now");
    line("insert 3v1 Health=77");
    line("insert 5v1 Name=lamp");
    done(scene_now(&level, &after), "now");
    done(scene_changed_since(&level, before, 0, 0, 0, names, 4, &total), "changed");
    if (total != 2 || !same(names[0].entity, ids[3]) || names[0].kind != 0) fails("a change", total);
    if (!same(names[1].entity, ids[5]) || names[1].kind != 1) fails("a change", 1);
    done(scene_added_since(&level, before, 2, 0, 0, names, 4, &total), "added");
    if (total != 1 || !same(names[0].entity, ids[5]) || names[0].kind != 1) fails("what was added", total);
    done(scene_changed_since(&level, before, 0, 2, 1, names, 4, &total), "changed");
    if (total != 1 || names[0].kind != 1) fails("changes behind the last", total);
    done(scene_changed_since(&level, after, 0, 0, 0, names, 4, &total), "changed");
    if (total != 0) fails("changes since now", total);
    done(scene_undo_by(&level, 2), "undo");
    if (scene_changed_since(&level, before, 0, 0, 0, names, 4, &total) != SCENE_REFUSED || total != 0)
        fails("a moment before an undo", total);
    if (scene_added_since(&level, after, 0, 0, 0, names, 4, &total) != SCENE_REFUSED) fails("a later moment", total);
}

static void compare_names(void)
{
    static const char *const wanted[] = {"a", "motto", "score", "z"};
    uint8_t name[8];
    size_t total;
    scene_cell cell;
    scene_tick_pair ticks;
    line("put z Tag");
    line("put motto Text=onward");
    line("put a Vec3=1,2,3");
    line("put score Int=5");
    for (size_t i = 0; i < 4; i++) {
        done(scene_resources(&level, i, 0, name, sizeof name, &total), "resources");
        if (total != strlen(wanted[i]) || memcmp(name, wanted[i], total) != 0) fails("a name", i);
    }
    if (scene_resources(&level, 4, 0, name, sizeof name, &total) != SCENE_BAD || total != 1) fails("a name", 4);
    done(scene_resource(&level, (const uint8_t *)"a", 1, &cell, &ticks), "resource");
    if (cell.shape != SCENE_VEC3 || cell.x != 1 || cell.z != 3 || ticks.added != ticks.changed) fails("a vector", 0);
    done(scene_resource_text(&level, (const uint8_t *)"motto", 5, 2, name, sizeof name, &total), "resource_text");
    if (total != 6 || memcmp(name, "ward", 4) != 0) fails("a text", total);
    if (scene_resource_text(&level, (const uint8_t *)"a", 1, 0, name, sizeof name, &total) != SCENE_REFUSED)
        fails("a vector that is no text", 0);
    if (scene_resource(&level, (const uint8_t *)"\xff", 1, &cell, &ticks) != SCENE_REFUSED) fails("a name", 5);
}

/* What isn't there is told, and nothing is written. */
static void compare_edges(void)
{
    scene *none = NULL;
    scene_moment moment = {9, 9};
    scene_entity id = {9, 9};
    scene_cell cell = {9, 9, 9, 9, 9};
    size_t total = 9;
    if (scene_undo_by(&none, 1) != SCENE_CLOSED || scene_now(&none, &moment) != SCENE_CLOSED) fails("null", 0);
    if (scene_now(&level, &moment) != SCENE_BAD || moment.tick != 9) fails("the setup", 0);
    if (scene_roots(&level, 0, &id, 1, &total) != SCENE_BAD || total != 9) fails("the setup", 1);
    if (scene_gather(&level, &id, 1, 256, &cell, 1) != SCENE_BAD || cell.x != 9) fails("a large kind", 0);
}

int main(void)
{
    size_t undos = 0, redos = 0;
    if (scene_open(&level) != SCENE_DONE) return 2;
    compare_edges();
    build();
    for (int i = 0; i < STEPS; i++) {
        switch (any(4)) {
        case 0: undos += steps(1); break;
        case 1: redos += steps(0); break;
        default: change(); change();
        }
        compare();
    }
    compare_moments();
    compare_names();
    done(scene_begin(&level), "begin");
    if (scene_undo_by(&level, 1) != SCENE_BAD) fails("an undo in a frame", 1);
    printf("%d steps, %zu undos and %zu redos of several frames\n", STEPS, undos, redos);
    scene_close(&level);
    return 0;
}
