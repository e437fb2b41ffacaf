/* Calls of the library for C, for bench/calls.sh: `calls WORK COUNT` makes so many of one sort on a new scene, and
 * prints how many there were and the nanoseconds that they took, as bench/programs/scene_session_bench does of the same
 * work.
 *
 *     spawn      frames of one spawn
 *     spawn10    spawns in frames of ten
 *     cells      frames of one spawn, whose components are given with it
 *     swing      a frame of one spawn is undone and redone so often
 *     get        reads of an Int, over a thousand entities
 *     insert10   writes of one, over a thousand entities, in frames of ten
 *     writes     writes of one, over a thousand entities, all thousand by one call
 *     column     the Ints of a thousand entities, as one column
 *     texts      the texts of a thousand entities, as one column; a tenth as many
 */
#define _POSIX_C_SOURCE 200809L
#include "scene.h"

#include <inttypes.h>
#include <stdbool.h>
#include <stdio.h>
#include <stdlib.h>
#include <string.h>
#include <time.h>

enum { LIFE, MOTHER, NAME, ENTITIES = 1000, IN_A_FRAME = 10, TENTH = 10 };

static const uint8_t name[] = "a lamp post";
enum { NAME_LEN = sizeof name - 1 };

static bool declare(scene **s, const char *kind, uint32_t shape)
{
    uint32_t number;
    return scene_declare(s, (const uint8_t *)kind, strlen(kind), shape, &number) == SCENE_DONE;
}

static scene_cell life(uint32_t number)
{
    return (scene_cell){.kind = LIFE, .shape = SCENE_INT, .x = number};
}

static bool spawn(scene **s, uint32_t number)
{
    return scene_with(s, life(number)) == SCENE_DONE && scene_spawn(s) == SCENE_DONE;
}

static bool cells(scene **s, uint32_t number)
{
    scene_cell given = life(number);
    scene_entity made;
    return scene_spawn_cells(s, &given, 1, name, 0, &made) == SCENE_DONE && made.index == number;
}

static bool spawn_named(scene **s, uint32_t number)
{
    scene_cell given[] = {life(number), {.kind = NAME, .shape = SCENE_TEXT, .x = 0, .y = NAME_LEN}};
    scene_entity made;
    return scene_spawn_cells(s, given, 2, name, NAME_LEN, &made) == SCENE_DONE;
}

/* The entities of a scene that despawned none have the numbers of their spawns. */
static scene_entity entity_of(uint32_t number)
{
    return (scene_entity){.index = number % ENTITIES, .generation = 1};
}

static bool get(scene **s, uint32_t number)
{
    scene_cell cell;
    return scene_get(s, entity_of(number), LIFE, &cell) == SCENE_DONE && cell.x >= 0;
}

static bool insert(scene **s, uint32_t number)
{
    return scene_insert(s, entity_of(number), life(number)) == SCENE_DONE;
}

static bool writes(scene **s, uint32_t number)
{
    static scene_entity entities[ENTITIES];
    static scene_cell lives[ENTITIES];
    for (uint32_t at = 0; at < ENTITIES; at++) {
        entities[at] = entity_of(at);
        lives[at] = life(number + at);
    }
    return scene_insert_cells(s, entities, ENTITIES, lives, ENTITIES, name, 0) == SCENE_DONE;
}

static bool texts(scene **s, uint32_t number)
{
    static size_t ends[ENTITIES];
    static uint8_t room[ENTITIES * NAME_LEN];
    size_t told, total;
    uint64_t mask = 1 << LIFE | 1 << NAME;
    return scene_texts(s, mask, NAME, 0, ends, ENTITIES, room, sizeof room, &told, &total) == SCENE_DONE
        && told == ENTITIES && room[ends[number % ENTITIES] - 1] == name[NAME_LEN - 1];
}

static bool column(scene **s, uint32_t number)
{
    static int64_t lives[ENTITIES];
    size_t total;
    return scene_ints(s, 1, LIFE, 0, lives, ENTITIES, &total) == SCENE_DONE && total == ENTITIES
        && lives[number % ENTITIES] >= 0;
}

static bool swing(scene **s, uint32_t number)
{
    (void)number;
    return scene_undo(s) == SCENE_DONE && scene_redo(s) == SCENE_DONE;
}

/* A work: what it does, once for so many that are counted, in frames of so many where that isn't 0, on a scene of so
 * many entities that were made in a way. */
static const struct work {
    const char *name;
    bool (*call)(scene **s, uint32_t number);
    uint32_t stride, in_a_frame, entities;
    bool (*make)(scene **s, uint32_t number);
} works[] = {
    {"spawn", spawn, 1, 0, 0, spawn},
    {"spawn10", spawn, 1, IN_A_FRAME, 0, spawn},
    {"cells", cells, 1, 0, 0, spawn},
    {"swing", swing, 1, 0, 1, spawn},
    {"get", get, 1, 0, ENTITIES, spawn},
    {"insert10", insert, 1, IN_A_FRAME, ENTITIES, spawn},
    {"writes", writes, ENTITIES, 0, ENTITIES, spawn},
    {"column", column, 1, 0, ENTITIES, spawn},
    {"texts", texts, TENTH, 0, ENTITIES, spawn_named},
};

/* Calls so often, in frames where `in_a_frame` isn't 0. */
static bool repeat(scene **s, const struct work *work, uint32_t count)
{
    uint32_t each = work->in_a_frame;
    for (uint32_t number = 0; number < count; number += work->stride) {
        if (each != 0 && number % each == 0 && scene_begin(s) != SCENE_DONE) return false;
        if (!work->call(s, number)) return false;
        if (each != 0 && number % each == each - 1 && scene_commit(s) != SCENE_DONE) return false;
    }
    return true;
}

static bool play(scene **s, const struct work *work, uint32_t count)
{
    if (scene_open(s) != SCENE_DONE || !declare(s, "Life", SCENE_INT) || !declare(s, "Mother", SCENE_TAG)) return false;
    if (!declare(s, "Name", SCENE_TEXT)) return false;
    for (uint32_t number = 0; number < work->entities; number++)
        if (!work->make(s, number)) return false;
    return repeat(s, work, count);
}

static uint64_t now(void)
{
    struct timespec at;
    clock_gettime(CLOCK_MONOTONIC, &at);
    return (uint64_t)at.tv_sec * 1000000000 + (uint64_t)at.tv_nsec;
}

static const struct work *named(const char *name)
{
    for (size_t at = 0; at < sizeof works / sizeof *works; at++)
        if (strcmp(works[at].name, name) == 0) return &works[at];
    return NULL;
}

int main(int count, char **words)
{
    const struct work *work = count == 3 ? named(words[1]) : NULL;
    if (work == NULL) {
        fputs("calls: it takes a work and a count\n", stderr);
        return 2;
    }
    uint32_t calls = (uint32_t)strtoul(words[2], NULL, 10);
    scene *s = NULL;
    uint64_t start = now();
    bool is_good = play(&s, work, calls);
    uint64_t taken = now() - start;
    scene_close(&s);
    printf("calls %" PRIu32 "\nnanoseconds %" PRIu64 "\n", calls, taken);
    return is_good ? EXIT_SUCCESS : EXIT_FAILURE;
}
