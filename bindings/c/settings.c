/* The calls that set what a scene has beside its entities, and those that tell all of it: kinds, how far can be undone,
 * whether the systems go together, and the scene as a text. Each is tried as it is meant, at its edges, and where it is
 * refused or bad.
 *
 * The status is 1, with a line for each check that fails. */
#include "checks.h"

#include <stdlib.h>

enum { MOST_KINDS = 64, MOST_DEPTH = 1048576, MOST_TEXT = 67108864, NAME_ROOM = 32 };

/* Whether a kind has this name and this shape. */
static bool is_kind(scene **s, uint32_t kind, const char *name, uint32_t shape)
{
    uint8_t room[NAME_ROOM];
    uint32_t told, found;
    size_t len;
    return scene_kind(s, kind, &told, 0, room, sizeof room, &len) == SCENE_DONE && told == shape && len == strlen(name)
        && memcmp(room, name, len) == 0 && scene_kind_named(s, room, len, &found) == SCENE_DONE && found == kind;
}

/* ---- kinds */

static void declare_each_shape(scene **s)
{
    static const char *const names[] = {"Mark", "Life", "At", "Name", "A_name_of_32_bytes_is_long_enoug"};
    uint32_t kind = 99;
    for (uint32_t shape = SCENE_TAG; shape <= SCENE_LINK; shape++) {
        CHECK(declare(s, names[shape], shape, &kind) == SCENE_DONE && kind == shape && answers(s, ""));
        CHECK(is_kind(s, kind, names[shape], shape));
    }
    CHECK(play(s, "kind More Int") == SCENE_DONE && declare(s, "Most", SCENE_INT, &kind) == SCENE_DONE && kind == 6);
}

/* What isn't declared has no number, and the setup goes on. */
static void declare_refused(scene **s)
{
    static const char *const bad[] = {"", "a b", "1st", "L\xc3\xb3" "d", "a-b", "A_name_of_33_bytes_is_too_long_is"};
    uint32_t kind = 99;
    scene_refusal why;
    for (size_t at = 0; at < sizeof bad / sizeof *bad; at++) {
        CHECK(declare(s, bad[at], SCENE_INT, &kind) == SCENE_REFUSED && refused_by(s, 30) && kind == 99);
        CHECK(scene_declare(s, bytes("a\0b"), 3, SCENE_INT, &kind) == SCENE_REFUSED && refused_by(s, 30));
    }
    CHECK(declare(s, "Life", SCENE_TEXT, &kind) == SCENE_REFUSED && refused_by(s, 31) && kind == 99);
    CHECK(scene_refused(s, &why) == SCENE_DONE && why.has_place == 0 && why.command == 0);
    for (uint32_t number = 7; number < MOST_KINDS; number++) {
        char name[NAME_ROOM];
        snprintf(name, sizeof name, "Kind%u", (unsigned)number);
        CHECK(declare(s, name, SCENE_INT, &kind) == SCENE_DONE && kind == number);
    }
    kind = 99;
    CHECK(declare(s, "Kind64", SCENE_INT, &kind) == SCENE_REFUSED && refused_by(s, 32) && kind == 99);
}

/* Bad arguments do nothing, so the last answer stays. */
static void declare_badly(scene **s)
{
    uint32_t kind = 99;
    scene *none = NULL;
    CHECK(play(s, "kind Life Int") == SCENE_REFUSED && refused_by(s, 31));
    CHECK(declare(s, "A", SCENE_ABSENT, &kind) == SCENE_BAD && declare(s, "A", UINT32_MAX, &kind) == SCENE_BAD);
    CHECK(scene_declare(s, bytes("A\xff"), 2, SCENE_INT, &kind) == SCENE_BAD && kind == 99 && refused_by(s, 31));
    CHECK(declare(&none, "A", 6, &kind) == SCENE_BAD && scene_declare(&none, bytes("\xff"), 1, 1, &kind) == SCENE_BAD);
    CHECK(declare(&none, "A", SCENE_INT, &kind) == SCENE_CLOSED && kind == 99 && scene_bad_reason(s) == SCENE_BAD);
}

/* Behind the setup a kind is declared and refused as in it; the arguments are looked at first. */
static void declare_later(scene **s)
{
    uint32_t kind = 99;
    leave_an_answer(s);
    CHECK(declare(s, "A", SCENE_ABSENT, &kind) == SCENE_BAD && has_that_answer(s));
    CHECK(scene_declare(s, bytes("\xff"), 1, SCENE_INT, &kind) == SCENE_BAD && kind == 99 && has_that_answer(s));
    CHECK(declare(s, "A", SCENE_INT, &kind) == SCENE_REFUSED && refused_by(s, 32) && kind == 99 && answers(s, ""));
    CHECK(declare(s, "Life", SCENE_INT, &kind) == SCENE_REFUSED && refused_by(s, 31) && kind == 99);
    CHECK(scene_begin(s) == SCENE_DONE && declare(s, "", SCENE_INT, &kind) == SCENE_REFUSED && refused_by(s, 30));
    CHECK(scene_commit(s) == SCENE_DONE && kind == 99);
}

static void declare_all(void)
{
    scene *s;
    CHECK(scene_open(&s) == SCENE_DONE);
    declare_each_shape(&s);
    declare_refused(&s);
    declare_badly(&s);
    declare_later(&s);
    CHECK(is_kind(&s, 63, "Kind63", SCENE_INT) && is_kind(&s, 1, "Life", SCENE_INT));
    scene_close(&s);
}

static scene_cell int_cell(uint32_t kind, int64_t number)
{
    return (scene_cell){.kind = kind, .shape = SCENE_INT, .x = number};
}

/* A kind that is declared in an open frame is there for its next command, and stays where the frame doesn't. */
static void declare_in_a_frame(scene **s)
{
    uint32_t kind = 99;
    CHECK(scene_begin(s) == SCENE_DONE && scene_spawn(s) == SCENE_DONE);
    CHECK(declare(s, "Late", SCENE_INT, &kind) == SCENE_DONE && kind == 1 && is_kind(s, 1, "Late", SCENE_INT));
    CHECK(scene_insert(s, SCENE_NEW(0), int_cell(1, 7)) == SCENE_DONE && scene_drop_frame(s) == SCENE_DONE);
    CHECK(is_kind(s, 1, "Late", SCENE_INT) && tick_of(s) == 1 && scene_begin(s) == SCENE_DONE);
    CHECK(declare(s, "Later", SCENE_TAG, &kind) == SCENE_DONE && kind == 2);
    CHECK(scene_with(s, int_cell(1, 8)) == SCENE_DONE && scene_spawn(s) == SCENE_DONE && scene_commit(s) == SCENE_DONE);
    CHECK(play(s, "history") == SCENE_DONE && answers(s, "history 1\n"));
}

/* It is there in each scene that an undo or a redo leads to, and saved; a scene that is loaded gets one more. */
static void declare_over_frames(void)
{
    static const scene_entity first = {0, 1}, second = {1, 1};
    uint8_t text[4096];
    uint32_t kind = 99;
    size_t len;
    scene_cell cell;
    scene *s, *loaded;
    CHECK(scene_open(&s) == SCENE_DONE && declare(&s, "Life", SCENE_INT, &kind) == SCENE_DONE);
    CHECK(scene_with(&s, int_cell(0, 5)) == SCENE_DONE && scene_spawn(&s) == SCENE_DONE);
    declare_in_a_frame(&s);
    CHECK(scene_undo_by(&s, 2) == SCENE_DONE && is_kind(&s, 2, "Later", SCENE_TAG) && scene_redo(&s) == SCENE_DONE);
    CHECK(scene_insert(&s, first, int_cell(1, 9)) == SCENE_DONE && scene_undo(&s) == SCENE_DONE);
    CHECK(scene_get(&s, first, 1, &cell) == SCENE_REFUSED && refused_by(&s, 3) && scene_redo(&s) == SCENE_DONE);
    CHECK(scene_get(&s, first, 1, &cell) == SCENE_DONE && cell.x == 9);
    CHECK(scene_save_into(&s, 2, 0, text, sizeof text, &len) == SCENE_DONE && len <= sizeof text);
    CHECK(scene_open(&loaded) == SCENE_DONE && scene_load(&loaded, text, len) == SCENE_DONE);
    CHECK(declare(&loaded, "More", SCENE_LINK, &kind) == SCENE_DONE && kind == 3);
    CHECK(play(&loaded, "kind Most Int") == SCENE_BAD && play(&loaded, "depth 5") == SCENE_DONE);
    CHECK(scene_undo_by(&loaded, 2) == SCENE_DONE && is_kind(&loaded, 3, "More", SCENE_LINK));
    CHECK(scene_get(&loaded, second, 1, &cell) == SCENE_REFUSED && scene_redo_by(&loaded, 2) == SCENE_DONE);
    scene_close(&loaded);
    scene_close(&s);
}

/* ---- how far can be undone */

static bool has_left(scene **s, uint64_t undo, uint64_t redo, uint32_t depth)
{
    scene_info info;
    return scene_status(s, &info) == SCENE_DONE && info.undo == undo && info.redo == redo && info.depth == depth;
}

static void set_bad_depths(scene **s)
{
    scene *none = NULL;
    leave_an_answer(s);
    CHECK(scene_set_depth(s, 0) == SCENE_BAD && scene_set_depth(s, MOST_DEPTH + 1) == SCENE_BAD);
    CHECK(scene_set_depth(s, UINT32_MAX) == SCENE_BAD && has_left(s, 1, 0, MOST_DEPTH) && has_that_answer(s));
    CHECK(scene_set_depth(&none, 0) == SCENE_BAD && scene_set_depth(&none, 1) == SCENE_CLOSED);
    CHECK(scene_set_depth(s, MOST_DEPTH) == SCENE_DONE && has_left(s, 1, 0, MOST_DEPTH) && has_that_answer(s));
}

/* In the setup it is as the line `depth`: the setup goes on, and the last answer stays. */
static void set_in_the_setup(void)
{
    uint32_t kind;
    scene *s;
    CHECK(scene_open(&s) == SCENE_DONE && play(&s, "depth 9") == SCENE_DONE && scene_set_depth(&s, 2) == SCENE_DONE);
    CHECK(answers(&s, "ok\n") && scene_set_depth(&s, 0) == SCENE_BAD);
    CHECK(declare(&s, "Life", SCENE_INT, &kind) == SCENE_DONE && scene_spawn(&s) == SCENE_DONE);
    CHECK(scene_spawn(&s) == SCENE_DONE && scene_spawn(&s) == SCENE_DONE && has_left(&s, 2, 0, 2));
    scene_close(&s);
}

static bool is_alive(scene **s, uint32_t index)
{
    uint32_t alive;
    return scene_is_alive(s, (scene_entity){index, 1}, &alive) == SCENE_DONE && alive == 1;
}

/* The oldest are forgotten first, and for good; what can be redone stays. */
static void set_behind_the_setup(void)
{
    scene_entity made;
    scene *s;
    CHECK(scene_open(&s) == SCENE_DONE);
    for (int frame = 0; frame < 7; frame++) CHECK(scene_spawn(&s) == SCENE_DONE);
    CHECK(scene_set_depth(&s, 5) == SCENE_DONE && has_left(&s, 5, 0, 5));
    CHECK(scene_spawned(&s, 0, &made) == SCENE_DONE && made.index == 6);
    CHECK(scene_undo_by(&s, 2) == SCENE_DONE && has_left(&s, 3, 2, 5));
    CHECK(scene_set_depth(&s, 1) == SCENE_DONE && has_left(&s, 1, 2, 1));
    CHECK(scene_set_depth(&s, MOST_DEPTH) == SCENE_DONE && has_left(&s, 1, 2, MOST_DEPTH));
    CHECK(is_alive(&s, 4) && scene_undo(&s) == SCENE_DONE && !is_alive(&s, 4) && is_alive(&s, 3));
    CHECK(scene_undo(&s) == SCENE_REFUSED && refused_by(&s, 15) && scene_redo_by(&s, 3) == SCENE_DONE);
    CHECK(is_alive(&s, 6) && has_left(&s, 3, 0, MOST_DEPTH) && tick_of(&s) == 7);
    scene_close(&s);
}

/* The line `history` counts from 0, and so does the limit of the line `calls`; an open frame stays. */
static void set_in_a_frame(void)
{
    scene *s;
    CHECK(scene_open(&s) == SCENE_DONE && play(&s, "calls 2") == SCENE_DONE);
    CHECK(scene_spawn(&s) == SCENE_DONE && scene_spawn(&s) == SCENE_DONE && play(&s, "history") == SCENE_DONE);
    CHECK(answers(&s, "history 2\n") && scene_spawn(&s) == SCENE_REFUSED && refused_by(&s, 17));
    CHECK(scene_begin(&s) == SCENE_DONE && scene_spawn(&s) == SCENE_DONE && scene_spawn(&s) == SCENE_DONE);
    CHECK(scene_set_depth(&s, 1) == SCENE_DONE && has_left(&s, 1, 0, 1) && !is_alive(&s, 2));
    CHECK(scene_commit(&s) == SCENE_DONE && is_alive(&s, 2) && is_alive(&s, 3) && has_left(&s, 1, 0, 1));
    CHECK(play(&s, "history") == SCENE_DONE && answers(&s, "history 1\n"));
    CHECK(scene_undo(&s) == SCENE_DONE && is_alive(&s, 1) && !is_alive(&s, 2));
    CHECK(scene_redo(&s) == SCENE_REFUSED && refused_by(&s, 17));
    scene_close(&s);
}

/* ---- systems */

static const char *const age = "{\"do\":\"system\",\"name\":\"age\",\"need\":[\"Life\"],\"without\":[],"
                               "\"steps\":[{\"step\":\"addint\",\"to\":\"Life\",\"by\":-1}]}";
static const char *const heal = "{\"do\":\"system\",\"name\":\"heal\",\"need\":[\"Life\"],\"without\":[],"
                                "\"steps\":[{\"step\":\"addint\",\"to\":\"Life\",\"by\":1}]}";
static const char *const wrong_shape = "{\"do\":\"system\",\"name\":\"marks\",\"need\":[\"Mark\"],\"without\":[],"
                                       "\"steps\":[{\"step\":\"addint\",\"to\":\"Mark\",\"by\":1}]}";

static bool is_unwritten(const scene_refusal *why)
{
    return why->fault == 99 && why->has_place == 99 && why->phase == 99 && why->queue == 99 && why->command == 99;
}

/* Whether the systems break a rule by this fault, whichever the place is, and scene_advance is refused by the same. */
static bool breaks(scene **s, uint32_t fault)
{
    scene_refusal why = {99, 99, 99, 99, 99}, told = {0};
    if (scene_check_systems(s, &why) != SCENE_REFUSED || why.fault != fault || why.has_place > 1) return false;
    if (scene_advance(s) != SCENE_REFUSED || scene_refused(s, &told) != SCENE_DONE) return false;
    return told.fault == fault && told.has_place == why.has_place && told.phase == why.phase && told.queue == why.queue
        && told.command == why.command;
}

static void check_systems(void)
{
    scene_refusal why = {99, 99, 99, 99, 99};
    uint32_t kind;
    scene *s;
    CHECK(scene_open(&s) == SCENE_DONE && scene_check_systems(&s, &why) == SCENE_DONE);
    CHECK(declare(&s, "Mark", SCENE_TAG, &kind) == SCENE_DONE && declare(&s, "Life", SCENE_INT, &kind) == SCENE_DONE);
    CHECK(scene_check_systems(&s, &why) == SCENE_DONE && is_unwritten(&why));
    leave_an_answer(&s);
    CHECK(scene_check_systems(&s, &why) == SCENE_DONE && is_unwritten(&why) && has_that_answer(&s));
    CHECK(request(&s, age) == SCENE_DONE && scene_check_systems(&s, &why) == SCENE_DONE);
    CHECK(request(&s, heal) == SCENE_DONE && is_unwritten(&why) && breaks(&s, 21));
    CHECK(scene_clear_systems(&s) == SCENE_DONE && scene_check_systems(&s, &why) == SCENE_DONE);
    CHECK(request(&s, wrong_shape) == SCENE_DONE && breaks(&s, 22));
    leave_an_answer(&s);
    CHECK(scene_check_systems(&s, &why) == SCENE_REFUSED && has_that_answer(&s));
    CHECK(scene_clear_systems(&s) == SCENE_DONE && request(&s, age) == SCENE_DONE);
    CHECK(scene_phase(&s) == SCENE_DONE && request(&s, heal) == SCENE_DONE);
    why.fault = 99;
    CHECK(scene_check_systems(&s, &why) == SCENE_DONE && why.fault == 99 && scene_advance(&s) == SCENE_DONE);
    CHECK(scene_begin(&s) == SCENE_DONE && scene_check_systems(&s, &why) == SCENE_DONE && why.fault == 99);
    scene_close(&s);
    CHECK(scene_check_systems(&s, &why) == SCENE_CLOSED && why.fault == 99);
}

/* ---- saving */

/* Whether a scene of this text saves as it, by a version. */
static bool loads_as(const uint8_t *text, size_t len, uint32_t version, uint64_t undo, uint64_t redo)
{
    static uint8_t again[4096];
    size_t total = 0;
    scene *s;
    bool is_good = scene_open(&s) == SCENE_DONE && scene_load(&s, text, len) == SCENE_DONE
        && scene_mark(&s) == SCENE_DONE
        && scene_save_into(&s, version, 0, again, sizeof again, &total) == SCENE_DONE && total == len
        && memcmp(text, again, len) == 0 && has_left(&s, undo, redo, MOST_DEPTH);
    scene_close(&s);
    return is_good;
}

/* Both versions, whole and in parts; that of version 2 is the text of scene_save. */
static void save_both(scene **s)
{
    uint8_t world[2048], whole[4096], kept[4096], part[16];
    size_t len = 0, total = 0;
    memset(part, '_', sizeof part);
    CHECK(scene_save_into(s, 1, 0, world, sizeof world, &len) == SCENE_DONE && len <= sizeof world);
    CHECK(loads_as(world, len, 1, 0, 0) && play(s, "mark") == SCENE_DONE);
    CHECK(scene_save_into(s, 1, len - 8, part, 16, &total) == SCENE_DONE && total == len);
    CHECK(memcmp(part, world + len - 8, 8) == 0 && memcmp(part + 8, "________", 8) == 0);
    CHECK(scene_save_into(s, 2, 0, whole, 0, &total) == SCENE_DONE && total > len && total <= sizeof whole);
    CHECK(scene_save_into(s, 2, 0, whole, sizeof whole, &len) == SCENE_DONE && len == total);
    CHECK(answers(s, "mark 1 2\n") && loads_as(whole, len, 2, 2, 1));
    memset(part, '_', sizeof part);
    CHECK(scene_save_into(s, 2, len, part, 16, &total) == SCENE_DONE && total == len && part[0] == '_');
    CHECK(scene_save_into(s, 2, SIZE_MAX, part, 16, &total) == SCENE_DONE && total == len && part[0] == '_');
    CHECK(scene_save_into(s, 2, 7, part, 3, &total) == SCENE_DONE && memcmp(part, whole + 7, 3) == 0 && part[3] == '_');
    CHECK(scene_save(s) == SCENE_DONE && scene_answer(s, kept, sizeof kept) == len && memcmp(kept, whole, len) == 0);
}

static void save_badly(scene **s)
{
    uint8_t text[4] = "____";
    size_t total = 77;
    scene *none = NULL;
    CHECK(scene_save_into(s, 0, 0, text, 4, &total) == SCENE_BAD);
    CHECK(scene_save_into(s, 3, 0, text, 4, &total) == SCENE_BAD);
    CHECK(scene_save_into(s, UINT32_MAX, 0, text, 4, &total) == SCENE_BAD && has_that_answer(s));
    CHECK(scene_save_into(&none, 2, 0, text, 4, &total) == SCENE_CLOSED && total == 77 && memcmp(text, "____", 4) == 0);
}

/* Two frames can be undone and one redone, and the last answer is known. */
static void save_all(void)
{
    uint8_t text[4] = "____";
    uint32_t kind;
    size_t total = 77;
    scene_entity first = {0, 1};
    scene *s;
    CHECK(scene_open(&s) == SCENE_DONE && declare(&s, "Name", SCENE_TEXT, &kind) == SCENE_DONE);
    CHECK(scene_save_into(&s, 1, 0, text, 4, &total) == SCENE_BAD && total == 77 && memcmp(text, "____", 4) == 0);
    CHECK(scene_spawn(&s) == SCENE_DONE && scene_insert_text(&s, first, 0, bytes("a\0\"\xc3\xb3"), 5) == SCENE_DONE);
    CHECK(scene_remove(&s, first, 0) == SCENE_DONE && scene_undo(&s) == SCENE_DONE && has_left(&s, 2, 1, MOST_DEPTH));
    save_both(&s);
    leave_an_answer(&s);
    save_badly(&s);
    scene_close(&s);
}

/* A text of the greatest length makes a scene text that is longer. */
static void save_too_much(void)
{
    uint8_t *long_text = malloc(MOST_TEXT), at[4] = "____";
    uint32_t kind;
    size_t total = 77;
    scene_entity first = {0, 1};
    scene *s;
    if (long_text == NULL) return;
    memset(long_text, 'a', MOST_TEXT);
    CHECK(scene_open(&s) == SCENE_DONE && declare(&s, "Name", SCENE_TEXT, &kind) == SCENE_DONE);
    CHECK(scene_spawn(&s) == SCENE_DONE && scene_insert_text(&s, first, kind, long_text, MOST_TEXT) == SCENE_DONE);
    leave_an_answer(&s);
    CHECK(scene_save_into(&s, 1, 0, at, 4, &total) == SCENE_REFUSED);
    CHECK(scene_save_into(&s, 2, 0, at, 4, &total) == SCENE_REFUSED);
    CHECK(total == 77 && memcmp(at, "____", 4) == 0 && has_that_answer(&s));
    CHECK(scene_save(&s) == SCENE_REFUSED && answers(&s, "fault 56 TooLong\n"));
    scene_close(&s);
    free(long_text);
}

int main(void)
{
    scene *s;
    declare_all();
    declare_over_frames();
    CHECK(scene_open(&s) == SCENE_DONE);
    set_bad_depths(&s);
    scene_close(&s);
    set_in_the_setup();
    set_behind_the_setup();
    set_in_a_frame();
    check_systems();
    save_all();
    save_too_much();
    return failed;
}
