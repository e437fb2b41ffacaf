/* What the newer calls do where memory is wanting: each request for memory that a call makes is refused, alone and with
 * all behind it, until the call needs no more. Then the call has to be SCENE_NO_MEMORY, with the scene and the last
 * answer as they were, and to be done where it is made again. Those that need no memory must ask for none. It stands
 * before the C library's calls by the linker's --wrap. It prints how many requests were refused.
 *
 * The status is 1, with a line for each check that fails. */
#include "checks.h"

#include <limits.h>
#include <stdlib.h>

void *__real_malloc(size_t size);
void *__real_calloc(size_t count, size_t size);
void *__real_realloc(void *at, size_t size);
void *__wrap_malloc(size_t size);
void *__wrap_calloc(size_t count, size_t size);
void *__wrap_realloc(void *at, size_t size);

/* Requests are numbered from 1. Those from the first to the last are refused; none where both are 0. */
static unsigned long requests, first, last;

static bool is_refused(void)
{
    requests++;
    return first <= requests && requests <= last;
}

void *__wrap_malloc(size_t size)
{
    return is_refused() ? NULL : __real_malloc(size);
}

void *__wrap_calloc(size_t count, size_t size)
{
    return is_refused() ? NULL : __real_calloc(count, size);
}

void *__wrap_realloc(void *at, size_t size)
{
    return is_refused() ? NULL : __real_realloc(at, size);
}

/* ---- calls, which write to what has to stay as it was where they aren't done */

enum { ROOM = 4096, NO_SIZE = 77, WRITES = 5 };

static struct written {
    uint32_t kind;
    scene_entity made;
    scene_refusal why;
    scene_cell row[2];
    size_t ends[2], told, total;
    uint8_t room[ROOM];
} written;

static const scene_cell cells[] = {{.kind = 0, .shape = SCENE_TEXT, .x = 0, .y = 4},
                                   {.kind = 1, .shape = SCENE_INT, .x = 5},
                                   {.kind = 2, .shape = SCENE_TEXT, .x = 4, .y = 6}};
static const uint8_t given[] = "lampbehind";

static scene_code call_declare(scene **s)
{
    return declare(s, "A_name_that_is_long", SCENE_TEXT, &written.kind);
}

static scene_code call_depth(scene **s)
{
    return scene_set_depth(s, 1);
}

static scene_code call_spawn(scene **s)
{
    return scene_spawn_cells(s, cells, 3, given, 10, &written.made);
}

static scene_code call_insert(scene **s)
{
    const scene_entity to[] = {{0, 1}, {0, 1}, {1, 1}};
    return scene_insert_cells(s, to, 3, cells, 3, given, 10);
}

static scene_code request_kind(scene **s)
{
    return request(s, "{\"do\":\"declare\",\"name\":\"A_name_that_is_long\",\"shape\":\"Text\"}");
}

static scene_code request_rows(scene **s)
{
    return request(s, "{\"do\":\"rows\",\"need\":[],\"without\":[],\"from\":0,\"count\":9}");
}

static scene_code request_undos(scene **s)
{
    return request(s, "{\"do\":\"undo\",\"count\":2}");
}

static scene_code call_undos(scene **s)
{
    return scene_undo_by(s, WRITES);
}

static scene_code call_redos(scene **s)
{
    return scene_redo_by(s, WRITES);
}

static scene_code call_check(scene **s)
{
    return scene_check_systems(s, &written.why);
}

static scene_code call_texts(scene **s)
{
    return scene_texts(s, 1, 0, 0, written.ends, 2, written.room, ROOM, &written.told, &written.total);
}

static scene_code call_rows(scene **s)
{
    return scene_delta_rows(s, SCENE_BACK, 1, 0, written.ends, 2, written.row, 2, &written.told, &written.total);
}

static scene_code call_delta_texts(scene **s)
{
    return scene_delta_texts(s, SCENE_BACK, 1, 1, 0, 0, written.ends, 2, written.room, ROOM, &written.told,
                             &written.total);
}

static scene_code call_save_world(scene **s)
{
    return scene_save_into(s, 1, 0, written.room, ROOM, &written.total);
}

static scene_code call_save_whole(scene **s)
{
    return scene_save_into(s, 2, 0, written.room, ROOM, &written.total);
}

static scene_code call_json(scene **s)
{
    return scene_answer_json(s);
}

/* What scene_reader writes to. */
static scene *other;

static scene_code call_reader(scene **s)
{
    return scene_reader(s, &other);
}

static const struct call {
    const char *name;
    scene_code (*make)(scene **s);
    bool needs_memory;
} calls[] = {
    {"set_depth", call_depth, false}, {"spawn_cells", call_spawn, true},     {"insert_cells", call_insert, true},
    {"check_systems", call_check, true}, {"texts", call_texts, false},       {"delta_rows", call_rows, false},
    {"delta_texts", call_delta_texts, false}, {"answer_json", call_json, true},
    {"save_into 1", call_save_world, true}, {"save_into 2", call_save_whole, true}, {"declare", call_declare, true},
};

/* ---- what stays */

static void in_the_setup(scene **s)
{
    uint32_t kind;
    CHECK(scene_open(s) == SCENE_DONE && declare(s, "Name", SCENE_TEXT, &kind) == SCENE_DONE);
    CHECK(declare(s, "Life", SCENE_INT, &kind) == SCENE_DONE && declare(s, "Note", SCENE_TEXT, &kind) == SCENE_DONE);
}

/* A scene of two entities with names, systems, and an answer. */
static void behind_the_setup(scene **s)
{
    scene_entity made;
    in_the_setup(s);
    CHECK(scene_begin(s) == SCENE_DONE && scene_spawn_cells(s, cells, 1, given, 10, &made) == SCENE_DONE);
    CHECK(scene_spawn_cells(s, cells, 1, given, 10, &made) == SCENE_DONE && scene_commit(s) == SCENE_DONE);
    CHECK(request(s, "{\"do\":\"system\",\"name\":\"age\",\"need\":[\"Life\"],\"without\":[],"
                     "\"steps\":[{\"step\":\"addint\",\"to\":\"Life\",\"by\":-1}]}") == SCENE_DONE);
    leave_an_answer(s);
}

static size_t saved(scene **s, uint8_t *room)
{
    size_t len = 0;
    CHECK(scene_save_into(s, 2, 0, room, ROOM, &len) == SCENE_DONE && len <= ROOM);
    return len;
}

static bool wrote_nothing(void)
{
    static struct written marked;
    memset(&marked, '_', sizeof marked);
    return memcmp(&marked, &written, sizeof marked) == 0;
}

/* Makes a call of which some requests are refused, and gives its code. */
static scene_code call_without(scene **s, scene_code (*make)(scene **s), unsigned long from, unsigned long to)
{
    memset(&written, '_', sizeof written);
    requests = 0;
    first = from;
    last = to;
    scene_code code = make(s);
    first = last = 0;
    return code;
}

/* Refuses the request of a number, up to another: false where the call asks for fewer. */
static bool refuse(const struct call *call, unsigned long from, unsigned long to)
{
    static uint8_t before[ROOM], after[ROOM];
    scene *s;
    behind_the_setup(&s);
    size_t len = saved(&s, before);
    scene_code code = call_without(&s, call->make, from, to);
    bool was_refused = requests >= from;
    if (code == SCENE_NO_MEMORY) {
        CHECK(was_refused && wrote_nothing() && has_that_answer(&s));
        CHECK(saved(&s, after) == len && memcmp(before, after, len) == 0);
        CHECK(call_without(&s, call->make, 0, 0) == SCENE_DONE);
    } else CHECK(code == SCENE_DONE);
    scene_close(&s);
    return was_refused;
}

/* In an open frame a spawn that found no memory isn't counted, and the frame stays. */
static bool refuse_in_frame(unsigned long from, unsigned long to)
{
    scene_entity made = SCENE_NONE;
    scene *s;
    behind_the_setup(&s);
    CHECK(scene_begin(&s) == SCENE_DONE && scene_spawn_cells(&s, cells, 3, given, 10, &made) == SCENE_DONE);
    scene_code code = call_without(&s, call_spawn, from, to);
    bool was_refused = requests >= from;
    CHECK(code == SCENE_DONE || (code == SCENE_NO_MEMORY && was_refused && wrote_nothing()));
    if (code == SCENE_NO_MEMORY) CHECK(call_without(&s, call_spawn, 0, 0) == SCENE_DONE);
    CHECK(same_entity(written.made, SCENE_NEW(1)) && scene_commit(&s) == SCENE_DONE);
    CHECK(scene_spawned(&s, 1, &made) == SCENE_DONE && same_entity(made, (scene_entity){4, 1}));
    CHECK(scene_spawned(&s, 2, &made) == SCENE_BAD);
    scene_close(&s);
    return was_refused;
}

/* A request is done, or isn't; or it is done and its text alone is wanting, and what it means is there. */
static bool refuse_request(scene_code (*make)(scene **s), unsigned long from, unsigned long to)
{
    static uint8_t before[ROOM], done[ROOM], after[ROOM];
    scene *s;
    behind_the_setup(&s);
    CHECK(call_without(&s, make, 0, 0) == SCENE_DONE);
    size_t done_len = saved(&s, done);
    scene_close(&s);
    behind_the_setup(&s);
    size_t len = saved(&s, before);
    scene_code code = call_without(&s, make, from, to);
    bool was_refused = requests >= from;
    CHECK(code == SCENE_DONE || (was_refused && (code == SCENE_NO_MEMORY || code == SCENE_UNTOLD)));
    if (code == SCENE_NO_MEMORY) {
        CHECK(has_that_answer(&s) && saved(&s, after) == len && memcmp(before, after, len) == 0);
        CHECK(call_without(&s, make, 0, 0) == SCENE_DONE);
    }
    CHECK(answers(&s, "") == (code == SCENE_UNTOLD) && scene_refused(&s, &written.why) == SCENE_BAD);
    CHECK(saved(&s, after) == done_len && memcmp(done, after, done_len) == 0);
    scene_close(&s);
    return was_refused;
}

/* Frames whose undos and redos need memory: a text comes, is another, and goes, as an entity does with it. */
static void write_texts(scene **s)
{
    const scene_entity entity = {0, 1};
    CHECK(scene_insert_text(s, entity, 2, given, 4) == SCENE_DONE);
    CHECK(scene_insert_text(s, entity, 0, given, 10) == SCENE_DONE);
    CHECK(scene_put_text(s, given, 4, given, 10) == SCENE_DONE && scene_drop(s, given, 4) == SCENE_DONE);
    CHECK(scene_despawn(s, entity) == SCENE_DONE);
}

/* Several undos, and then several redos, are all of them or none. */
static bool refuse_turns(unsigned long from, unsigned long to)
{
    static uint8_t before[ROOM], after[ROOM];
    scene_code (*const ways[])(scene **s) = {call_undos, call_redos};
    bool was_refused = false;
    scene *s;
    behind_the_setup(&s);
    write_texts(&s);
    for (size_t way = 0; way < 2; way++) {
        size_t len = saved(&s, before);
        scene_code code = call_without(&s, ways[way], from, to);
        was_refused = was_refused || requests >= from;
        CHECK(code == SCENE_DONE || (code == SCENE_NO_MEMORY && requests >= from));
        if (code == SCENE_NO_MEMORY) {
            CHECK(saved(&s, after) == len && memcmp(before, after, len) == 0);
            CHECK(call_without(&s, ways[way], 0, 0) == SCENE_DONE);
        }
        CHECK(saved(&s, after) != len || memcmp(before, after, len) != 0);
    }
    scene_close(&s);
    return was_refused;
}

/* Where sharing finds no memory, the scene is its pointer's alone as before; and unsharing needs none. */
static bool refuse_share(unsigned long from, unsigned long to)
{
    static uint8_t before[ROOM], after[ROOM];
    scene *s, *reader = NULL;
    behind_the_setup(&s);
    size_t len = saved(&s, before);
    scene_code code = call_without(&s, scene_share, from, to);
    bool was_refused = requests >= from;
    CHECK(code == (was_refused ? SCENE_NO_MEMORY : SCENE_DONE) && has_that_answer(&s));
    CHECK(scene_reader(&s, &reader) == (was_refused ? SCENE_BAD : SCENE_DONE));
    scene_close(&reader);
    CHECK(saved(&s, after) == len && memcmp(before, after, len) == 0);
    CHECK(call_without(&s, scene_share, 0, 0) == SCENE_DONE && scene_undo(&s) == SCENE_SHARED);
    CHECK(call_without(&s, scene_unshare, 1, ULONG_MAX) == SCENE_DONE && requests == 0);
    CHECK(scene_undo(&s) == SCENE_DONE && tick_of(&s) == 1);
    scene_close(&s);
    return was_refused;
}

/* Where a reader finds none, its pointer has the scene that it had, and the shared one has no reader more. */
static bool refuse_reader(unsigned long from, unsigned long to)
{
    scene *s;
    behind_the_setup(&s);
    in_the_setup(&other);
    leave_an_answer(&other);
    CHECK(scene_share(&s) == SCENE_DONE && tick_of(&other) == 1);
    scene_code code = call_without(&s, call_reader, from, to);
    bool was_refused = requests >= from;
    CHECK(code == (was_refused ? SCENE_NO_MEMORY : SCENE_DONE) && tick_of(&other) == (was_refused ? 1 : 2));
    CHECK(scene_spawn(&other) == (was_refused ? SCENE_DONE : SCENE_SHARED) && scene_undo(&s) == SCENE_SHARED);
    CHECK(scene_unshare(&s) == (was_refused ? SCENE_DONE : SCENE_REFUSED) && scene_share(&s) == SCENE_DONE);
    CHECK(call_without(&s, call_reader, 0, 0) == SCENE_DONE && tick_of(&other) == 2 && has_that_answer(&other));
    scene_close(&other);
    CHECK(has_that_answer(&s) && scene_unshare(&s) == SCENE_DONE && scene_undo(&s) == SCENE_DONE);
    scene_close(&s);
    return was_refused;
}

/* In the setup a kind is declared, or the setup goes on; what would end it may do so, or lose what the setup had. */
static bool refuse_in_setup(scene_code (*make)(scene **s), scene_code wanted, unsigned long from, unsigned long to)
{
    scene *s;
    in_the_setup(&s);
    scene_code code = call_without(&s, make, from, to);
    bool was_refused = requests >= from;
    CHECK(code == wanted || code == SCENE_NO_MEMORY || (code == SCENE_LOST && make != call_declare));
    if (code == SCENE_NO_MEMORY || code == SCENE_LOST) CHECK(was_refused && wrote_nothing());
    if (code == SCENE_NO_MEMORY) CHECK(call_without(&s, make, 0, 0) == wanted);
    scene_close(&s);
    return was_refused;
}

/* Refuses each request of one, alone and with all behind it, and gives their number. */
static unsigned long refuse_each(bool (*refuse_it)(unsigned long from, unsigned long to))
{
    unsigned long number = 1;
    for (; refuse_it(number, number); number++) CHECK(refuse_it(number, ULONG_MAX));
    return number - 1;
}

int main(void)
{
    unsigned long all = refuse_each(refuse_in_frame), shares = refuse_each(refuse_share);
    unsigned long readers = refuse_each(refuse_reader), turns = refuse_each(refuse_turns);
    scene_code (*const asked[])(scene **s) = {request_kind, request_rows, request_undos};
    CHECK(all > 0 && shares > 0 && readers > 0 && turns > 0);
    all += shares + readers + turns;
    for (size_t at = 0; at < sizeof asked / sizeof *asked; at++) {
        unsigned long number = 1;
        for (; refuse_request(asked[at], number, number); number++) CHECK(refuse_request(asked[at], number, ULONG_MAX));
        CHECK(number > 1);
        all += number - 1;
    }
    for (size_t at = 0; at < sizeof calls / sizeof *calls; at++) {
        unsigned long number = 1;
        for (; refuse(&calls[at], number, number); number++) CHECK(refuse(&calls[at], number, ULONG_MAX));
        CHECK((number > 1) == calls[at].needs_memory);
        all += number - 1;
    }
    for (unsigned long number = 1; refuse_in_setup(call_declare, SCENE_DONE, number, number); number++, all++)
        CHECK(refuse_in_setup(call_declare, SCENE_DONE, number, ULONG_MAX));
    for (unsigned long number = 1; refuse_in_setup(call_spawn, SCENE_DONE, number, number); number++, all++)
        CHECK(refuse_in_setup(call_spawn, SCENE_DONE, number, ULONG_MAX));
    for (unsigned long number = 1; refuse_in_setup(call_insert, SCENE_REFUSED, number, number); number++, all++)
        CHECK(refuse_in_setup(call_insert, SCENE_REFUSED, number, ULONG_MAX));
    printf("%lu requests were refused twice\n", all);
    return failed;
}
