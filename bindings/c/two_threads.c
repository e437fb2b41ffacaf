/* Two threads, each of which makes, changes, undoes and redoes the frames of a scene of its own. What each scene says
 * in the end has to be what it says where no other thread is there.
 *
 *     two_threads [FRAMES]       so many frames of each thread, 2000 where none are given
 *
 * The status is 1, with a message, where a call doesn't come to what it has to. */
#define _POSIX_C_SOURCE 200809L
#include "scene.h"

#include <inttypes.h>
#include <pthread.h>
#include <stdbool.h>
#include <stdio.h>
#include <stdlib.h>
#include <string.h>

enum { THREADS = 2, CHILDREN = 4, KEPT = 20 };

/* The kinds, by their places. */
enum { COUNT, NAME };

/* What a thread is to do, and what came of it: the text of its scene, which main frees. */
struct work {
    uint32_t first;
    uint32_t frames;
    bool is_good;
    uint8_t *text;
    size_t len;
};

static bool fails(const char *what, scene_code code)
{
    fprintf(stderr, "two_threads: %s: code %d\n", what, (int)code);
    return false;
}

/* Whether a call is done. */
#define DONE(call) is_done((call), #call)
static bool is_done(scene_code code, const char *call)
{
    return code == SCENE_DONE || fails(call, code);
}

static bool play_line(scene **s, const char *line)
{
    return DONE(scene_line(s, (const uint8_t *)line, strlen(line)));
}

/* Gives the next spawn a number, and a name with it. */
static bool with_number(scene **s, int64_t number)
{
    char name[32];
    int len = snprintf(name, sizeof name, "entity %" PRId64, number);
    return DONE(scene_with(s, (scene_cell){.kind = COUNT, .shape = SCENE_INT, .x = number}))
        && DONE(scene_with_text(s, NAME, (const uint8_t *)name, (size_t)len));
}

/* A frame that spawns an entity with some children. */
static bool spawn_family(scene **s, int64_t number, scene_entity *parent)
{
    if (!DONE(scene_begin(s)) || !with_number(s, number) || !DONE(scene_spawn(s))) return false;
    for (uint32_t child = 1; child <= CHILDREN; child++) {
        if (!with_number(s, number + child) || !DONE(scene_spawn(s))) return false;
        if (!DONE(scene_set_parent(s, SCENE_NEW(child), SCENE_NEW(0)))) return false;
    }
    return DONE(scene_commit(s)) && DONE(scene_spawned(s, 0, parent));
}

static bool has_number(scene **s, scene_entity entity, int64_t wanted)
{
    scene_cell cell;
    if (!DONE(scene_get(s, entity, COUNT, &cell))) return false;
    if (cell.shape == SCENE_INT && cell.x == wanted) return true;
    fprintf(stderr, "two_threads: %" PRId64 " where %" PRId64 " was to be\n", cell.x, wanted);
    return false;
}

/* Writes another number, and takes that back and does it again. */
static bool change(scene **s, scene_entity entity, int64_t number)
{
    scene_cell cell = {.kind = COUNT, .shape = SCENE_INT, .x = -number};
    if (!DONE(scene_insert(s, entity, cell)) || !has_number(s, entity, -number)) return false;
    if (!DONE(scene_undo(s)) || !has_number(s, entity, number)) return false;
    return DONE(scene_redo(s)) && has_number(s, entity, -number);
}

/* Spawns families, and despawns each some frames later, so that their indices are used again. */
static bool play_frames(scene **s, const struct work *work)
{
    scene_entity kept[KEPT];
    for (uint32_t frame = 0; frame < work->frames; frame++) {
        scene_entity *parent = &kept[frame % KEPT];
        int64_t number = (int64_t)work->first + (int64_t)frame * (CHILDREN + 1);
        if (frame >= KEPT && !DONE(scene_despawn_all(s, *parent))) return false;
        if (!spawn_family(s, number, parent) || !has_number(s, *parent, number)) return false;
        if (frame % 3 == 0 && !change(s, *parent, number)) return false;
    }
    return true;
}

static bool keep_text(scene **s, struct work *work)
{
    if (!DONE(scene_save(s))) return false;
    work->len = scene_answer(s, NULL, 0);
    work->text = malloc(work->len + 1);
    if (work->text == NULL) {
        fputs("two_threads: memory was wanting for a text\n", stderr);
        return false;
    }
    scene_answer(s, work->text, work->len);
    return true;
}

static void *play(void *given)
{
    struct work *work = given;
    scene *s = NULL;
    work->is_good = DONE(scene_open(&s)) && play_line(&s, "kind Count Int") && play_line(&s, "kind Name Text")
        && play_frames(&s, work) && keep_text(&s, work);
    scene_close(&s);
    return NULL;
}

/* Starts a thread for each work, and waits for them; false where one can't be started. */
static bool play_at_once(struct work *works)
{
    pthread_t threads[THREADS];
    int started = 0;
    while (started < THREADS && pthread_create(&threads[started], NULL, play, &works[started]) == 0) started++;
    for (int at = 0; at < started; at++) pthread_join(threads[at], NULL);
    if (started < THREADS) fputs("two_threads: a thread can't be started\n", stderr);
    return started == THREADS;
}

/* Plays a work again, alone, and compares. */
static bool is_as_alone(const struct work *work)
{
    struct work again = {.first = work->first, .frames = work->frames};
    if (!work->is_good) return false;
    play(&again);
    bool is_same = again.is_good && again.len == work->len && memcmp(again.text, work->text, work->len) == 0;
    free(again.text);
    if (!is_same) fputs("two_threads: a scene isn't as it is alone\n", stderr);
    return is_same;
}

int main(int count, char **words)
{
    uint32_t frames = count > 1 ? (uint32_t)strtoul(words[1], NULL, 10) : 2000;
    struct work works[THREADS] = {{.first = 1, .frames = frames}, {.first = 1000000, .frames = frames}};
    bool is_good = play_at_once(works);
    for (int at = 0; at < THREADS; at++) {
        is_good = is_good && is_as_alone(&works[at]);
        free(works[at].text);
    }
    if (is_good) printf("two threads played %" PRIu32 " frames each, as each does alone\n", frames);
    return is_good ? EXIT_SUCCESS : EXIT_FAILURE;
}
