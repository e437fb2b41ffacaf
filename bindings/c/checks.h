/* What the tests of calls share: checks, each of which tells what isn't so, and short words for lines and bytes. A test
 * ends with the status `failed`. */
#ifndef CHECKS_H
#define CHECKS_H

#include "scene.h"

#include <stdbool.h>
#include <stdio.h>
#include <string.h>

static int failed;

#define CHECK(fact) check((fact), __FILE__, __LINE__, #fact)
static inline void check(bool fact, const char *file, int line, const char *what)
{
    if (fact) return;
    fprintf(stderr, "%s:%d: %s\n", file, line, what);
    failed = 1;
}

static inline const uint8_t *bytes(const char *text)
{
    return (const uint8_t *)text;
}

static inline scene_code play(scene **s, const char *line)
{
    return scene_line(s, bytes(line), strlen(line));
}

static inline scene_code request(scene **s, const char *text)
{
    return scene_request(s, bytes(text), strlen(text));
}

static inline scene_code declare(scene **s, const char *name, uint32_t shape, uint32_t *kind)
{
    return scene_declare(s, bytes(name), strlen(name), shape, kind);
}

static inline bool same_entity(scene_entity one, scene_entity other)
{
    return one.index == other.index && one.generation == other.generation;
}

/* Whether the last call was refused by this fault. */
static inline bool refused_by(scene **s, uint32_t fault)
{
    scene_refusal why;
    return scene_refused(s, &why) == SCENE_DONE && why.fault == fault;
}

/* Whether it was one of a command at this place of the first queue. */
static inline bool refused_at(scene **s, uint32_t fault, uint32_t command)
{
    scene_refusal why;
    return scene_refused(s, &why) == SCENE_DONE && why.fault == fault && why.has_place == 1 && why.phase == 0
        && why.queue == 0 && why.command == command;
}

/* Whether the text of the last answer is this one. */
static inline bool answers(scene **s, const char *wanted)
{
    uint8_t room[128];
    size_t len = scene_answer(s, room, sizeof room);
    return len == strlen(wanted) && len <= sizeof room && memcmp(room, wanted, len) == 0;
}

/* Makes the last answer one that the next checks can know again: a text, and entity 0v1 as what was spawned. */
static inline void leave_an_answer(scene **s)
{
    CHECK(play(s, "spawn") == SCENE_DONE);
}

/* Whether it is still the one that leave_an_answer left last. */
static inline bool has_that_answer(scene **s)
{
    scene_entity made;
    uint8_t text[64];
    scene_refusal why;
    return scene_spawned(s, 0, &made) == SCENE_DONE && scene_answer(s, text, sizeof text) > 5
        && memcmp(text, "done ", 5) == 0 && scene_refused(s, &why) == SCENE_BAD;
}

static inline uint64_t tick_of(scene **s)
{
    scene_info info = {0};
    CHECK(scene_status(s, &info) == SCENE_DONE);
    return info.tick;
}

#endif
