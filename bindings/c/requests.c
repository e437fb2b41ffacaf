/* Requests and late kinds, as a program uses them that keeps a scene for long: behind a thousand frames it declares
 * kinds, undoes and redoes over them by counts, and asks by JSON what no line asks. try_scene runs it under valgrind
 * too.
 *
 * The status is 1, with a line for each check that fails. */
#include "checks.h"

#include <stdlib.h>

enum { FRAMES = 1000, ROOM = 512, LIFE = 0, MOOD = 1, SEEN = 2 };

static const scene_entity first = {0, 1};

/* Whether a request is a question that is answered by this line of JSON, which its line break ends. */
static bool asks(scene **s, const char *question, const char *wanted)
{
    char room[ROOM];
    size_t len;
    if (request(s, question) != SCENE_DONE) return false;
    len = scene_answer(s, (uint8_t *)room, sizeof room);
    if (len != strlen(wanted) + 1 || len > sizeof room || memcmp(room, wanted, len - 1) != 0 || room[len - 1] != '\n') {
        fprintf(stderr, "requests: %s says %.*s\n", question, (int)(len < sizeof room ? len : sizeof room), room);
        return false;
    }
    return true;
}

/* Whether the scene tells these numbers of itself, by JSON and by the call that reads. */
static bool has_left(scene **s, unsigned slots, unsigned tick, unsigned rewinds, unsigned past, unsigned future)
{
    char wanted[ROOM];
    scene_info info;
    snprintf(wanted, sizeof wanted,
             "{\"answer\":\"status\",\"tick\":%u,\"rewinds\":%u,\"past\":%u,\"future\":%u,\"depth\":1048576,"
             "\"slots\":%u,\"limit\":1048576}",
             tick, rewinds, past, future, slots);
    return asks(s, "{\"do\":\"status\"}", wanted) && scene_status(s, &info) == SCENE_DONE && info.tick == tick
        && info.rewinds == rewinds && info.undo == past && info.redo == future && info.slots == slots;
}

static scene_code write_to_first(scene **s, uint32_t kind, int64_t number)
{
    return scene_insert(s, first, (scene_cell){.kind = kind, .shape = SCENE_INT, .x = number});
}

/* Whether an entity has this number of a kind. */
static bool has(scene **s, uint32_t kind, int64_t number)
{
    scene_cell cell;
    return scene_get(s, first, kind, &cell) == SCENE_DONE && cell.x == number;
}

/* An entity whose life is the count of the frames behind its own. */
static void play_frames(scene **s)
{
    uint32_t kind;
    CHECK(scene_open(s) == SCENE_DONE && declare(s, "Life", SCENE_INT, &kind) == SCENE_DONE && kind == LIFE);
    CHECK(request(s, "{\"do\":\"spawn\",\"cells\":{\"Life\":0}}") == SCENE_DONE && answers(s, "done 0v1\n"));
    for (int frame = 1; frame < FRAMES; frame++) CHECK(write_to_first(s, LIFE, frame) == SCENE_DONE);
    CHECK(has(s, LIFE, FRAMES - 1) && has_left(s, 1, FRAMES, 0, FRAMES, 0));
}

/* Kinds by a call and by a request: no frame, and the calls count from 0 again. */
static void declare_late(scene **s)
{
    uint32_t kind = 99;
    CHECK(scene_undo_by(s, 10) == SCENE_DONE && has_left(s, 1, FRAMES - 10, 10, FRAMES - 10, 10));
    CHECK(declare(s, "Mood", SCENE_INT, &kind) == SCENE_DONE && kind == MOOD && answers(s, ""));
    CHECK(play(s, "history") == SCENE_DONE && answers(s, "history 0\n"));
    CHECK(request(s, "{\"do\":\"declare\",\"name\":\"Seen\",\"shape\":\"Tag\"}") == SCENE_DONE && answers(s, "ok\n"));
    CHECK(request(s, "{\"do\":\"declare\",\"name\":\"Seen\",\"shape\":\"Int\"}") == SCENE_REFUSED);
    CHECK(refused_by(s, 31) && answers(s, "refused 31 KindTaken\n"));
    CHECK(asks(s, "{\"do\":\"kinds\"}",
               "{\"answer\":\"kinds\",\"kinds\":[[\"Life\",\"Int\"],[\"Mood\",\"Int\"],[\"Seen\",\"Tag\"]]}"));
    CHECK(has_left(s, 1, FRAMES - 10, 10, FRAMES - 10, 10) && scene_redo_by(s, 10) == SCENE_DONE);
    CHECK(write_to_first(s, MOOD, 7) == SCENE_DONE);
    CHECK(request(s, "{\"do\":\"insert\",\"entity\":\"0v1\",\"kind\":\"Seen\",\"value\":true}") == SCENE_DONE);
    CHECK(has(s, MOOD, 7) && has_left(s, 1, FRAMES + 2, 10, FRAMES + 2, 0));
}

/* Back to the beginning and forth again, over the frames that wrote the kinds and over those before them. */
static void turn_over_kinds(scene **s)
{
    scene_cell cell;
    CHECK(scene_undo_by(s, 2) == SCENE_DONE && scene_get(s, first, MOOD, &cell) == SCENE_REFUSED && refused_by(s, 3));
    CHECK(request(s, "{\"do\":\"undo\",\"count\":999}") == SCENE_DONE && answers(s, "undone\n") && has(s, LIFE, 0));
    CHECK(write_to_first(s, MOOD, 1) == SCENE_DONE && scene_undo(s) == SCENE_DONE);
    CHECK(scene_redo_by(s, 2) == SCENE_REFUSED && refused_by(s, 16) && has(s, LIFE, 0));
    CHECK(has_left(s, 1, 1, 1012, 1, 1) && request(s, "{\"do\":\"redo\",\"count\":1}") == SCENE_DONE);
    CHECK(answers(s, "redone\n") && has(s, MOOD, 1));
}

/* Too many are none, by a call and by a request; and so are as many as a limit of calls has no room for. */
static void turn_too_far(void)
{
    scene *s;
    CHECK(scene_open(&s) == SCENE_DONE && play(&s, "calls 5") == SCENE_DONE && scene_undo_by(&s, 0) == SCENE_DONE);
    CHECK(play(&s, "kind A Int") == SCENE_BAD && has_left(&s, 0, 0, 0, 0, 0));
    CHECK(scene_spawn(&s) == SCENE_DONE && scene_despawn(&s, first) == SCENE_DONE);
    CHECK(scene_undo_by(&s, 3) == SCENE_REFUSED && refused_by(&s, 15) && has_left(&s, 1, 2, 0, 2, 0));
    CHECK(request(&s, "{\"do\":\"undo\",\"count\":4294967295}") == SCENE_REFUSED && refused_by(&s, 15));
    CHECK(answers(&s, "refused 15 NothingToUndo\n") && scene_undo_by(&s, SIZE_MAX) == SCENE_REFUSED);
    CHECK(scene_undo_by(&s, 2) == SCENE_DONE && has_left(&s, 0, 0, 2, 0, 2));
    CHECK(play(&s, "history") == SCENE_DONE && answers(&s, "history 4\n"));
    CHECK(scene_redo_by(&s, 2) == SCENE_REFUSED && refused_by(&s, 17) && has_left(&s, 0, 0, 2, 0, 2));
    CHECK(request(&s, "{\"do\":\"redo\",\"count\":2}") == SCENE_REFUSED && answers(&s, "refused 17 HistoryFull 5\n"));
    CHECK(has_left(&s, 0, 0, 2, 0, 2) && scene_redo_by(&s, 1) == SCENE_DONE && has_left(&s, 1, 1, 2, 1, 1));
    scene_close(&s);
    CHECK(scene_undo_by(&s, 0) == SCENE_CLOSED && scene_redo_by(&s, 1) == SCENE_CLOSED);
}

/* What each question of docs/SHELL.md asks that the others don't. */
static void ask_questions(scene **s)
{
    CHECK(asks(s, "{\"do\":\"tables\",\"need\":[\"Mood\"],\"without\":[\"Seen\"]}",
               "{\"answer\":\"tables\",\"tables\":[{\"kinds\":[\"Life\",\"Mood\"],\"rows\":1}]}"));
    CHECK(asks(s, "{\"do\":\"rows\",\"need\":[],\"without\":[],\"from\":0,\"count\":9}",
               "{\"answer\":\"rows\",\"rows\":[{\"entity\":\"0v1\",\"cells\":{\"Life\":[0,1,1],\"Mood\":[1,2,2]}}]}"));
    CHECK(asks(s, "{\"do\":\"children\",\"entity\":\"0v1\"}", "{\"answer\":\"children\",\"entities\":[]}"));
    CHECK(asks(s, "{\"do\":\"parentof\",\"entity\":\"0v1\"}", "{\"answer\":\"parent\",\"entity\":null}"));
    CHECK(asks(s, "{\"do\":\"resources\"}", "{\"answer\":\"resources\",\"resources\":{}}"));
    CHECK(asks(s, "{\"do\":\"past\",\"from\":0,\"count\":1}",
               "{\"answer\":\"steps\",\"length\":2,\"steps\":[{\"tick\":1,\"deltas\":1}]}"));
    CHECK(asks(s, "{\"do\":\"deltas\",\"of\":\"future\",\"step\":0}", "{\"answer\":\"deltas\",\"record\":null}"));
    CHECK(asks(s, "{\"do\":\"step\",\"way\":\"back\"}", "{\"answer\":\"step\",\"way\":\"back\",\"deltas\":null}"));
    CHECK(asks(s, "{\"do\":\"changedsince\",\"need\":[],\"without\":[],\"rewinds\":1012,\"tick\":1}",
               "{\"answer\":\"changed\",\"cells\":[{\"entity\":\"0v1\",\"kind\":\"Mood\"}]}"));
    CHECK(asks(s, "{\"do\":\"addedsince\",\"need\":[],\"without\":[],\"rewinds\":1012,\"tick\":2}",
               "{\"answer\":\"added\",\"cells\":[]}"));
    /* What is refused says so, and the question is answered all the same. */
    CHECK(asks(s, "{\"do\":\"children\",\"entity\":\"9v9\"}",
               "{\"answer\":\"refused\",\"number\":1,\"name\":\"NoSuchEntity\"}"));
    CHECK(scene_refused(s, &(scene_refusal){0}) == SCENE_BAD && scene_bad_reason(s) == SCENE_BAD);
    CHECK(scene_answer_json(s) == SCENE_DONE);
    CHECK(answers(s, "{\"answer\":\"text\",\"text\":\"{\\\"answer\\\":\\\"refused\\\",\\\"number\\\":1,"
                     "\\\"name\\\":\\\"NoSuchEntity\\\"}\\n\"}\n"));
}

/* A question is out of place in an open frame, which a request drops. */
static void ask_in_a_frame(scene **s)
{
    CHECK(request(s, "{\"do\":\"dropframe\"}") == SCENE_BAD && answers(s, "bad line\n"));
    CHECK(scene_bad_reason(s) == SCENE_DONE && scene_begin(s) == SCENE_DONE && scene_spawn(s) == SCENE_DONE);
    CHECK(request(s, "{\"do\":\"status\"}") == SCENE_BAD && answers(s, "bad line\n"));
    CHECK(scene_bad_reason(s) == SCENE_DONE);
    CHECK(answers(s, "a frame is open: only commands and queue come before its commit"));
    CHECK(request(s, "{\"do\":\"undo\",\"count\":1}") == SCENE_BAD && scene_redo_by(s, 0) == SCENE_BAD);
    CHECK(request(s, "{\"do\":\"dropframe\"}") == SCENE_DONE && answers(s, "ok\n"));
    CHECK(request(s, "{\"do\":\"dropframe\"}") == SCENE_BAD && has_left(s, 1, 2, 1012, 2, 0));
}

/* A question ends the setup, a kind doesn't; and a bad request does nothing. */
static void ask_in_the_setup(void)
{
    scene *s;
    CHECK(scene_open(&s) == SCENE_DONE);
    CHECK(request(&s, "{\"do\":\"declare\",\"name\":\"A\",\"shape\":\"Int\"}") == SCENE_DONE);
    CHECK(request(&s, "{\"do\":\"status\",\"of\":1}") == SCENE_BAD && answers(&s, "\"of\" is no key of the request"));
    CHECK(play(&s, "kind B Int") == SCENE_DONE);
    CHECK(asks(&s, "{\"do\":\"kinds\"}", "{\"answer\":\"kinds\",\"kinds\":[[\"A\",\"Int\"],[\"B\",\"Int\"]]}"));
    CHECK(play(&s, "kind C Int") == SCENE_BAD);
    scene_close(&s);
    CHECK(request(&s, "{\"do\":\"status\"}") == SCENE_CLOSED);
}

int main(void)
{
    scene *s;
    play_frames(&s);
    declare_late(&s);
    turn_over_kinds(&s);
    ask_questions(&s);
    ask_in_a_frame(&s);
    scene_close(&s);
    turn_too_far();
    ask_in_the_setup();
    return failed;
}
