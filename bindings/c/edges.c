/* What callers may do at the edges: a pointer that nothing was written to yet, no room for a text, bytes that are no
 * text, numbers without a meaning, frames that are dropped, arrays of no items at any place, and calls on NULL.
 * try_scene runs it under valgrind too.
 *
 * The status is 1, with a line for each check that fails. */
#include "scene.h"

#include <stdbool.h>
#include <stdio.h>
#include <stdlib.h>
#include <string.h>

static int failed;

#define CHECK(fact) check((fact), #fact)
static void check(bool fact, const char *what)
{
    if (fact) return;
    fprintf(stderr, "edges: %s\n", what);
    failed = 1;
}

static scene_code play(scene **s, const char *line)
{
    return scene_line(s, (const uint8_t *)line, strlen(line));
}

/* Whether the text of the last answer is, or begins with, this one. */
static bool answers(scene **s, const char *wanted, bool is_whole)
{
    uint8_t room[128];
    size_t len = scene_answer(s, room, sizeof room), begin = strlen(wanted);
    return len <= sizeof room && (is_whole ? len == begin : len >= begin) && memcmp(room, wanted, begin) == 0;
}

static bool refused_by(scene **s, uint32_t fault)
{
    scene_refusal why;
    return scene_refused(s, &why) == SCENE_DONE && why.fault == fault;
}

/* The length of a text can be asked for with no room, and a short room gets as much as it holds. */
static void ask_for_texts(scene **s)
{
    uint8_t room[4] = "____";
    CHECK(scene_answer(s, NULL, 0) == 0);
    CHECK(play(s, "kind Name Text") == SCENE_DONE && answers(s, "ok\n", true));
    CHECK(scene_answer(s, NULL, 0) == 3 && scene_answer(s, room, 0) == 3 && memcmp(room, "____", 4) == 0);
    CHECK(scene_answer(s, room, 2) == 3 && memcmp(room, "ok__", 4) == 0);
    CHECK(scene_answer(s, room, 4) == 3 && memcmp(room, "ok\n_", 4) == 0);
    CHECK(scene_fault_name(1, NULL, 0) == 12 && scene_fault_name(15, room, 4) == 13 && memcmp(room, "Noth", 4) == 0);
    CHECK(scene_fault_name(0, NULL, 0) == 0 && scene_fault_name(25, room, 4) == 0);
    CHECK(scene_fault_name(57, room, 4) == 0 && scene_fault_name(UINT32_MAX, room, 4) == 0);
    CHECK(memcmp(room, "Noth", 4) == 0);
    CHECK(scene_version() == SCENE_VERSION);
}

/* What has no meaning is bad, and nothing is done. */
static void pass_what_means_nothing(scene **s)
{
    const uint8_t none[] = {0xff, 0xfe};
    scene_cell cell = {.kind = 256, .shape = SCENE_TAG};
    CHECK(scene_load(s, none, 2) == SCENE_BAD && scene_with_text(s, 0, none, 2) == SCENE_BAD);
    CHECK(scene_with_text(s, 256, none, 0) == SCENE_BAD && scene_insert_text(s, SCENE_NONE, 0, none, 2) == SCENE_BAD);
    CHECK(scene_with(s, cell) == SCENE_BAD && scene_remove(s, SCENE_NONE, 256) == SCENE_BAD);
    CHECK(scene_get(s, SCENE_NONE, 256, &cell) == SCENE_BAD && cell.kind == 256);
    CHECK(scene_bad_reason(s) == SCENE_BAD);
    CHECK(scene_line(s, none, 2) == SCENE_BAD && answers(s, "bad line\n", true));
    CHECK(scene_bad_reason(s) == SCENE_DONE && answers(s, "the line is no UTF-8", true));
}

/* A refused line is refused, whatever it asks for. */
static void be_refused(scene **s)
{
    CHECK(play(s, "undo") == SCENE_REFUSED && refused_by(s, 15) && answers(s, "refused 15 NothingToUndo\n", true));
    CHECK(play(s, "get 9v9") == SCENE_REFUSED && refused_by(s, 1) && answers(s, "refused 1 NoSuchEntity\n", true));
    CHECK(play(s, "despawn 9v9") == SCENE_REFUSED && refused_by(s, 1));
    CHECK(scene_bad_reason(s) == SCENE_BAD && answers(s, "refused 1 NoSuchEntity at 0.0.0\n", true));
    CHECK(play(s, "get x") == SCENE_BAD && scene_refused(s, &(scene_refusal){0}) == SCENE_BAD);
}

static scene_code request(scene **s, const char *text)
{
    return scene_request(s, (const uint8_t *)text, strlen(text));
}

/* A request says what no line can, and is answered as the line that it stands for; a bad one is no answer. */
static void make_requests(void)
{
    const char *undo = "{\"do\":\"undo\"}";
    scene *s;
    scene_entity made;
    uint8_t room[16];
    size_t len;
    CHECK(scene_open(&s) == SCENE_DONE);
    CHECK(request(&s, "{\"do\":\"kind\",\"name\":\"Name\",\"shape\":\"Text\"}") == SCENE_DONE);
    CHECK(request(&s, "{\"cells\":{\"Name\":\"Big \\\"House\\\"\"},\"do\":\"spawn\"}") == SCENE_DONE);
    CHECK(answers(&s, "done 0v1\n", true));
    CHECK(scene_spawned(&s, 0, &made) == SCENE_DONE && made.index == 0 && made.generation == 1);
    CHECK(scene_read_text(&s, made, 0, 0, room, sizeof room, &len) == SCENE_DONE);
    CHECK(len == 11 && memcmp(room, "Big \"House\"", 11) == 0);
    CHECK(request(&s, undo) == SCENE_DONE && request(&s, undo) == SCENE_REFUSED && refused_by(&s, 15));
    CHECK(request(&s, "{\"do\":\"spawn\",\"cells\":{\"Nome\":1}}") == SCENE_BAD && !answers(&s, "", true));
    CHECK(scene_refused(&s, &(scene_refusal){0}) == SCENE_BAD && scene_bad_reason(&s) == SCENE_BAD);
    CHECK(request(&s, "undo") == SCENE_BAD && request(&s, "") == SCENE_BAD && scene_redo(&s) == SCENE_DONE);
    scene_close(&s);
    CHECK(request(&s, undo) == SCENE_CLOSED);
}

/* Resources have texts of any characters, and systems are played by calls. */
static void put_and_advance(void)
{
    const uint8_t name[] = "a_name", text[] = "Big \"House\"", none[] = {0xff};
    const char *count = "{\"do\":\"system\",\"name\":\"all\",\"need\":[],\"without\":[],"
                        "\"steps\":[{\"step\":\"count\",\"name\":\"how_many\"}]}";
    uint8_t room[16];
    size_t len;
    scene *s;
    scene_cell cell = {.shape = SCENE_INT, .x = 7};
    scene_tick_pair ticks;
    CHECK(scene_open(&s) == SCENE_DONE);
    CHECK(scene_put(&s, name, 6, cell) == SCENE_DONE && scene_put_text(&s, name, 5, text, 11) == SCENE_DONE);
    CHECK(scene_put(&s, text, 11, cell) == SCENE_REFUSED && refused_by(&s, 30));
    CHECK(scene_resource(&s, name, 6, &cell, &ticks) == SCENE_DONE && cell.x == 7 && ticks.added == 1);
    CHECK(scene_resource_text(&s, name, 5, 0, room, sizeof room, &len) == SCENE_DONE && len == 11);
    CHECK(memcmp(room, text, 11) == 0 && scene_put(&s, none, 1, cell) == SCENE_BAD);
    CHECK(scene_put_text(&s, none, 1, text, 1) == SCENE_BAD && scene_put_text(&s, name, 1, none, 1) == SCENE_BAD);
    CHECK(scene_drop(&s, name, 6) == SCENE_DONE && scene_drop(&s, name, 6) == SCENE_REFUSED && refused_by(&s, 10));
    cell.shape = SCENE_TEXT;
    CHECK(scene_drop(&s, none, 1) == SCENE_BAD && scene_put(&s, name, 6, cell) == SCENE_BAD);
    CHECK(scene_phase(&s) == SCENE_DONE && request(&s, count) == SCENE_DONE && scene_spawn(&s) == SCENE_DONE);
    CHECK(scene_advance(&s) == SCENE_DONE);
    CHECK(scene_resource(&s, (const uint8_t *)"how_many", 8, &cell, &ticks) == SCENE_DONE && cell.x == 1);
    CHECK(scene_clear_systems(&s) == SCENE_DONE && scene_undo(&s) == SCENE_DONE);
    CHECK(scene_resource(&s, (const uint8_t *)"how_many", 8, &cell, &ticks) == SCENE_REFUSED);
    scene_close(&s);
    CHECK(scene_put(&s, name, 6, cell) == SCENE_CLOSED && scene_advance(&s) == SCENE_CLOSED);
}

/* The last answer in JSON is the text of it then, and all else of it stays. */
static void answer_in_json(void)
{
    scene *s;
    scene_entity made;
    CHECK(scene_open(&s) == SCENE_DONE && scene_answer_json(&s) == SCENE_DONE);
    CHECK(answers(&s, "{\"answer\":\"nothing\"}", false) && scene_spawn(&s) == SCENE_DONE);
    CHECK(scene_answer_json(&s) == SCENE_DONE && answers(&s, "{\"answer\":\"done\",\"entities\":[\"0v1\"]}", false));
    CHECK(scene_spawned(&s, 0, &made) == SCENE_DONE && made.index == 0 && scene_answer_json(&s) == SCENE_DONE);
    CHECK(play(&s, "jump") == SCENE_BAD && scene_answer_json(&s) == SCENE_DONE);
    CHECK(answers(&s, "{\"answer\":\"bad\",\"reason\":\"no command is named jump\"}", false));
    CHECK(scene_bad_reason(&s) == SCENE_DONE && answers(&s, "no command is named jump", true));
    CHECK(scene_redo(&s) == SCENE_REFUSED && scene_answer_json(&s) == SCENE_DONE && refused_by(&s, 16));
    CHECK(answers(&s, "{\"answer\":\"refused\",\"number\":16,\"name\":\"NothingToRedo\"}", false));
    scene_close(&s);
    CHECK(scene_answer_json(&s) == SCENE_CLOSED);
}

/* A dropped frame is no call. */
static void drop_frames(scene **s)
{
    scene_entity made;
    CHECK(scene_drop_frame(s) == SCENE_BAD);
    CHECK(scene_spawn(s) == SCENE_DONE && play(s, "history") == SCENE_DONE && answers(s, "history 3\n", true));
    CHECK(scene_begin(s) == SCENE_DONE && scene_spawn(s) == SCENE_DONE && scene_drop_frame(s) == SCENE_DONE);
    CHECK(scene_drop_frame(s) == SCENE_BAD && scene_commit(s) == SCENE_BAD && scene_answer(s, NULL, 0) == 0);
    CHECK(scene_bad_reason(s) == SCENE_DONE && answers(s, "no frame is open", false));
    CHECK(scene_bad_reason(s) == SCENE_DONE && answers(s, "no frame is open", false));
    CHECK(play(s, "history") == SCENE_DONE && answers(s, "history 3\n", true));
    CHECK(scene_spawn(s) == SCENE_DONE && scene_spawned(s, 0, &made) == SCENE_DONE && made.index == 1);
}

/* A script's own limit of calls stays. */
static void limit_calls(void)
{
    scene *s;
    CHECK(scene_open(&s) == SCENE_DONE && play(&s, "calls 2") == SCENE_DONE);
    CHECK(scene_spawn(&s) == SCENE_DONE && scene_undo(&s) == SCENE_DONE);
    CHECK(scene_redo(&s) == SCENE_REFUSED && refused_by(&s, 17));
    scene_close(&s);
}

/* ---- arrays of no items */

enum { COUNT, AT, AIM, NAME, KINDS, ALL = (1 << KINDS) - 1, ROWS = 4, NO_SIZE = 77 };

static const uint8_t lamp[] = {'l', 'a', 'm', 'p'};

/* Whether a call was done, and told how many items there are; the next one begins with another number. */
static bool told(scene_code code, size_t *total, size_t wanted)
{
    bool is_so = code == SCENE_DONE && *total == wanted;
    *total = NO_SIZE;
    return is_so;
}

/* Three entities below another, in a frame of seven deltas, and behind it a resource, and an entity without a kind. */
static void open_with_lists(scene **s)
{
    const char *const kinds[KINDS] = {"kind Count Int", "kind At Vec3", "kind Aim Link", "kind Name Text"};
    scene_cell cells[KINDS] = {{.kind = COUNT, .shape = SCENE_INT}, {.kind = AT, .shape = SCENE_VEC3},
                               {.kind = AIM, .shape = SCENE_LINK, .y = 1}, {.kind = NAME, .shape = SCENE_TEXT, .y = 4}};
    scene_entity made;
    CHECK(scene_open(s) == SCENE_DONE);
    for (int kind = 0; kind < KINDS; kind++) CHECK(play(s, kinds[kind]) == SCENE_DONE);
    CHECK(scene_begin(s) == SCENE_DONE);
    for (int row = 0; row < ROWS; row++)
        CHECK(scene_spawn_cells(s, cells, KINDS, lamp, sizeof lamp, &made) == SCENE_DONE);
    for (int row = 1; row < ROWS; row++) CHECK(scene_set_parent(s, SCENE_NEW(row), SCENE_NEW(0)) == SCENE_DONE);
    CHECK(scene_commit(s) == SCENE_DONE);
    CHECK(scene_put_text(s, (const uint8_t *)"motto", 5, lamp, sizeof lamp) == SCENE_DONE);
    CHECK(scene_spawn(s) == SCENE_DONE);
}

/* Asks for the length of each list, with no room at this place. */
static void ask_for_lengths(scene **s, void *at)
{
    scene_entity first = {0, 1};
    scene_moment begin = {0, 0};
    scene_cell cell = {.shape = NO_SIZE};
    uint32_t shape = NO_SIZE;
    uint64_t tick = NO_SIZE;
    size_t total = NO_SIZE;
    CHECK(told(scene_children(s, first, 0, at, 0, &total), &total, 3));
    CHECK(told(scene_roots(s, 0, at, 0, &total), &total, 2));
    CHECK(told(scene_tables(s, 0, 0, 0, at, 0, &total), &total, 2));
    CHECK(told(scene_rows(s, ALL, 0, at, 0, &total), &total, ROWS));
    CHECK(told(scene_ints(s, ALL, COUNT, 0, at, 0, &total), &total, ROWS));
    CHECK(told(scene_vec3s(s, ALL, AT, 0, at, 0, &total), &total, ROWS));
    CHECK(told(scene_links(s, ALL, AIM, 0, at, 0, &total), &total, ROWS));
    CHECK(told(scene_ticks(s, ALL, AIM, 0, 0, at, 0, &total), &total, ROWS));
    CHECK(told(scene_kind(s, COUNT, &shape, 0, at, 0, &total), &total, 5) && shape == SCENE_INT);
    CHECK(told(scene_read_text(s, first, NAME, 0, at, 0, &total), &total, sizeof lamp));
    CHECK(told(scene_resources(s, 0, 0, at, 0, &total), &total, 5));
    CHECK(told(scene_resource_text(s, (const uint8_t *)"motto", 5, 0, at, 0, &total), &total, sizeof lamp));
    CHECK(told(scene_changed_since(s, begin, 0, 0, 0, at, 0, &total), &total, ROWS * KINDS));
    CHECK(told(scene_added_since(s, begin, 0, 0, 0, at, 0, &total), &total, ROWS * KINDS));
    CHECK(told(scene_step(s, SCENE_BACK, 2, &tick, 0, at, 0, &total), &total, 7) && tick == 0);
    CHECK(scene_gather(s, at, 0, COUNT, at, 0) == SCENE_DONE && scene_gather(s, &first, 1, COUNT, at, 0) == SCENE_DONE);
    CHECK(scene_gather(s, at, 0, COUNT, &cell, 1) == SCENE_DONE && cell.shape == NO_SIZE);
}

/* The same of a list that is told in part: of how many items that is. */
static bool told_part(scene_code code, size_t *count, size_t part, size_t *total, size_t wanted)
{
    bool is_so = told(code, total, wanted) && *count == part;
    *count = NO_SIZE;
    return is_so;
}

/* Asks for lists that are told into two arrays, of which one has room, or none has. No row and no text fits, so only
 * the three deltas are told that have none. */
static void ask_for_parts(scene **s, void *at)
{
    const uint32_t way = SCENE_BACK;
    size_t all = NO_SIZE, part = NO_SIZE, ends[ROWS] = {NO_SIZE, NO_SIZE, NO_SIZE, NO_SIZE};
    scene_cell cells[KINDS];
    uint8_t room[sizeof lamp];
    CHECK(told_part(scene_texts(s, ALL, NAME, 0, at, 0, at, 0, &part, &all), &part, 0, &all, ROWS));
    CHECK(told_part(scene_texts(s, ALL, NAME, 0, ends, ROWS, at, 0, &part, &all), &part, 0, &all, ROWS));
    CHECK(told_part(scene_texts(s, ALL, NAME, 0, at, 0, room, 4, &part, &all), &part, 0, &all, ROWS));
    CHECK(told_part(scene_delta_rows(s, way, 2, 0, at, 0, at, 0, &part, &all), &part, 0, &all, 7));
    CHECK(told_part(scene_delta_rows(s, way, 2, 0, at, 0, cells, KINDS, &part, &all), &part, 0, &all, 7));
    CHECK(told_part(scene_delta_texts(s, way, 2, 1, NAME, 0, at, 0, at, 0, &part, &all), &part, 0, &all, 7));
    CHECK(told_part(scene_delta_texts(s, way, 2, 1, NAME, 0, at, 0, room, 4, &part, &all), &part, 0, &all, 7));
    CHECK(ends[0] == NO_SIZE);
    CHECK(told_part(scene_delta_rows(s, way, 2, 4, ends, ROWS, at, 0, &part, &all), &part, 3, &all, 7));
    CHECK(ends[0] == 0 && ends[1] == 0 && ends[2] == 0 && ends[3] == NO_SIZE);
    ends[0] = ends[1] = ends[2] = NO_SIZE;
    CHECK(told_part(scene_delta_texts(s, way, 2, 1, NAME, 4, ends, ROWS, at, 0, &part, &all), &part, 3, &all, 7));
    CHECK(ends[0] == 0 && ends[1] == 0 && ends[2] == 0 && ends[3] == NO_SIZE);
}

/* Gives no items from this place, in the setup and behind it. */
static void give_nothing(void *at)
{
    scene *s;
    scene_cell text = {.kind = 0, .shape = SCENE_TEXT}, number = {.shape = SCENE_INT, .x = 7};
    scene_entity made = SCENE_NONE;
    scene_tick_pair ticks;
    uint32_t kind = NO_SIZE;
    size_t total = NO_SIZE;
    CHECK(scene_open(&s) == SCENE_DONE && scene_load(&s, at, 0) == SCENE_REFUSED && answers(&s, "fault ", false));
    CHECK(scene_declare(&s, at, 0, SCENE_TEXT, &kind) == SCENE_REFUSED && refused_by(&s, 30) && kind == NO_SIZE);
    CHECK(scene_declare(&s, (const uint8_t *)"Name", 4, SCENE_TEXT, &kind) == SCENE_DONE && kind == 0);
    CHECK(scene_line(&s, at, 0) == SCENE_DONE && answers(&s, "", true) && scene_request(&s, at, 0) == SCENE_BAD);
    CHECK(scene_kind_named(&s, at, 0, &kind) == SCENE_BAD && kind == 0);
    CHECK(scene_with_text(&s, 0, at, 0) == SCENE_DONE && scene_spawn(&s) == SCENE_DONE);
    CHECK(told(scene_read_text(&s, (scene_entity){0, 1}, 0, 0, at, 0, &total), &total, 0));
    CHECK(scene_spawn_cells(&s, at, 0, at, 0, &made) == SCENE_DONE && made.index == 1);
    CHECK(scene_spawn_cells(&s, &text, 1, at, 0, &made) == SCENE_DONE && made.index == 2);
    CHECK(told(scene_read_text(&s, made, 0, 0, at, 0, &total), &total, 0));
    CHECK(scene_spawn_cells(&s, at, 0, lamp, sizeof lamp, &made) == SCENE_DONE && made.index == 3);
    CHECK(scene_insert_text(&s, made, 0, at, 0) == SCENE_DONE);
    CHECK(told(scene_read_text(&s, made, 0, 0, at, 0, &total), &total, 0));
    CHECK(scene_insert_cells(&s, at, 0, at, 0, at, 0) == SCENE_DONE);
    CHECK(scene_insert_cells(&s, &made, 1, &text, 1, at, 0) == SCENE_DONE);
    CHECK(scene_insert_cells(&s, at, 0, at, 0, lamp, sizeof lamp) == SCENE_DONE);
    CHECK(scene_insert_cells(&s, at, 0, &text, 1, lamp, sizeof lamp) == SCENE_BAD);
    CHECK(scene_insert_cells(&s, &made, 1, at, 0, lamp, sizeof lamp) == SCENE_BAD);
    CHECK(scene_put(&s, at, 0, number) == SCENE_REFUSED && refused_by(&s, 30));
    CHECK(scene_put_text(&s, at, 0, at, 0) == SCENE_REFUSED && refused_by(&s, 30));
    CHECK(scene_put_text(&s, at, 0, lamp, sizeof lamp) == SCENE_REFUSED && refused_by(&s, 30));
    CHECK(scene_put_text(&s, lamp, sizeof lamp, at, 0) == SCENE_DONE);
    CHECK(told(scene_resource_text(&s, lamp, sizeof lamp, 0, at, 0, &total), &total, 0));
    CHECK(scene_resource_text(&s, at, 0, 0, at, 0, &total) == SCENE_REFUSED && total == NO_SIZE);
    CHECK(scene_resource(&s, at, 0, &number, &ticks) == SCENE_REFUSED && number.x == 7);
    CHECK(scene_drop(&s, at, 0) == SCENE_REFUSED && refused_by(&s, 10));
    scene_close(&s);
    CHECK(scene_line(&s, at, 0) == SCENE_CLOSED && scene_rows(&s, 0, 0, at, 0, &total) == SCENE_CLOSED);
}

/* Each place that C may name where there are no items: one that is aligned, as the toolchain wants it, one that isn't,
 * none, and no place of the program's. Nothing is read or written there. */
static void pass_no_items(void)
{
    static const uint8_t marks[] = "________________________________";
    _Alignas(max_align_t) uint8_t block[sizeof marks];
    void *const places[] = {block, block + 1, NULL, (void *)1};
    size_t len = NO_SIZE, total = NO_SIZE;
    scene *s;
    memcpy(block, marks, sizeof marks);
    open_with_lists(&s);
    CHECK(scene_save_into(&s, 1, 0, block, 1, &len) == SCENE_DONE && block[0] == '{');
    block[0] = '_';
    for (size_t at = 0; at < sizeof places / sizeof *places; at++) {
        ask_for_lengths(&s, places[at]);
        ask_for_parts(&s, places[at]);
        CHECK(told(scene_save_into(&s, 1, 0, places[at], 0, &total), &total, len));
        give_nothing(places[at]);
    }
    CHECK(memcmp(block, marks, sizeof marks) == 0);
    scene_close(&s);
}

static void call_on_null(scene **s)
{
    scene_entity made;
    scene_close(s);
    CHECK(*s == NULL && scene_answer(s, NULL, 0) == 0 && play(s, "undo") == SCENE_CLOSED);
    CHECK(scene_drop_frame(s) == SCENE_CLOSED && scene_bad_reason(s) == SCENE_CLOSED && scene_undo(s) == SCENE_CLOSED);
    CHECK(scene_spawned(s, 0, &made) == SCENE_BAD && scene_load(s, (const uint8_t *)"\xff", 1) == SCENE_BAD);
    scene_close(s);
}

int main(void)
{
    /* Nothing was written to what malloc gives, and valgrind knows. */
    scene **s = malloc(sizeof *s);
    if (s == NULL || scene_open(s) != SCENE_DONE) return 2;
    ask_for_texts(s);
    pass_what_means_nothing(s);
    be_refused(s);
    drop_frames(s);
    make_requests();
    put_and_advance();
    answer_in_json();
    limit_calls();
    pass_no_items();
    call_on_null(s);
    free(s);
    return failed;
}
