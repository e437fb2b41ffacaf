/* A level that is made, changed, saved and loaded by direct calls: a model for a program that works on scenes. It
 * prints what it does. Where a call doesn't come to what it has to, standard error says so, and the status is 1.
 *
 *     gcc -std=c11 level.c $(pkg-config --cflags --libs ./scene.pc) -o level
 */
#include "scene.h"

#include <inttypes.h>
#include <stdbool.h>
#include <stdio.h>
#include <stdlib.h>
#include <string.h>

/* The kinds, by their places: `kind_names` and `kind_shapes` have them in this order. */
enum { NAME, AT, HEALTH, HIDDEN, AIM, KINDS };

static const char *const kind_names[KINDS] = {"Name", "At", "Health", "Hidden", "Aim"};
static const uint32_t kind_shapes[KINDS] = {SCENE_TEXT, SCENE_VEC3, SCENE_INT, SCENE_TAG, SCENE_LINK};

/* The faults that are looked for here (docs/MODEL.md, "Faults"). */
enum { NO_SUCH_ENTITY = 1, HAS_CHILDREN = 2, NOT_PRESENT = 3, WRONG_SHAPE = 4 };

/* How many frames can be undone, and rooms for what is read a part at a time. */
enum { DEPTH = 1000, WORD = 32, ROWS = 2, DELTAS = 4 };

/* The entities of the level. */
struct level {
    scene_entity room, lamp, cat;
};

/* A text that the program owns, and frees. */
struct text {
    uint8_t *at;
    size_t len;
};

/* ---- what calls come to */

static const char *meaning(scene_code code)
{
    switch (code) {
    case SCENE_DONE: return "it is done";
    case SCENE_NO_MEMORY: return "memory was wanting";
    case SCENE_CLOSED: return "there is no scene";
    case SCENE_REFUSED: return "it is refused";
    case SCENE_BAD: return "there is no such call here";
    case SCENE_UNTOLD: return "memory was wanting for the text of its answer";
    case SCENE_LOST: return "memory was wanting, and the scene is lost";
    case SCENE_SHARED: return "the scene is shared, and only read";
    }
    return "an unknown code";
}

/* Prints a fault by its number and its name. */
static void print_fault(FILE *stream, uint32_t fault)
{
    uint8_t name[32];
    size_t len = scene_fault_name(fault, name, sizeof name);
    fprintf(stream, "fault %" PRIu32 " %.*s", fault, (int)len, (const char *)name);
}

/* Whether a call came to the code that it has to; else standard error says what it came to, and tells the call by the
 * name before its bracket. */
static bool came_to(scene_code wanted, scene_code code, scene **s, const char *call)
{
    scene_refusal why;
    if (code == wanted) return true;
    fprintf(stderr, "level: %.*s: %s", (int)strcspn(call, "("), call, meaning(code));
    if (code == SCENE_REFUSED && scene_refused(s, &why) == SCENE_DONE) {
        fputs(", by ", stderr);
        print_fault(stderr, why.fault);
    }
    fputc('\n', stderr);
    return false;
}

/* Whether a call on the scene `s` is done. */
#define DONE(call) came_to(SCENE_DONE, (call), s, #call)

/* Whether a call on the scene `s` is refused by a fault. */
#define REFUSED(fault, call) (came_to(SCENE_REFUSED, (call), s, #call) && is_fault(s, (fault)))

/* Whether the last call was refused by this fault, which is printed. */
static bool is_fault(scene **s, uint32_t fault)
{
    scene_refusal why;
    if (!DONE(scene_refused(s, &why))) return false;
    if (why.fault != fault) {
        fprintf(stderr, "level: fault %" PRIu32 " where fault %" PRIu32 " was to come\n", why.fault, fault);
        return false;
    }
    fputs("refused by ", stdout);
    print_fault(stdout, why.fault);
    if (why.has_place) printf(" at %" PRIu32 ".%" PRIu32 ".%" PRIu32, why.phase, why.queue, why.command);
    putchar('\n');
    return true;
}

/* ---- components */

static const uint8_t *bytes(const char *text)
{
    return (const uint8_t *)text;
}

static scene_cell tag(uint32_t kind)
{
    return (scene_cell){.kind = kind, .shape = SCENE_TAG};
}

static scene_cell number(uint32_t kind, int64_t value)
{
    return (scene_cell){.kind = kind, .shape = SCENE_INT, .x = value};
}

static scene_cell vector(uint32_t kind, int64_t x, int64_t y, int64_t z)
{
    return (scene_cell){.kind = kind, .shape = SCENE_VEC3, .x = x, .y = y, .z = z};
}

static scene_cell link_to(uint32_t kind, scene_entity entity)
{
    return (scene_cell){.kind = kind, .shape = SCENE_LINK, .x = entity.index, .y = entity.generation};
}

/* A text in a list of components: a part of the bytes that are given with them. */
static scene_cell part(uint32_t kind, int64_t from, int64_t len)
{
    return (scene_cell){.kind = kind, .shape = SCENE_TEXT, .x = from, .y = len};
}

/* Gives the next spawn a name. */
static bool with_name(scene **s, const char *name)
{
    return DONE(scene_with_text(s, NAME, bytes(name), strlen(name)));
}

/* ---- reading */

/* Copies the text of the last answer. Where that is true, the caller frees it. */
static bool copy_answer(scene **s, struct text *text)
{
    text->len = scene_answer(s, NULL, 0);
    text->at = malloc(text->len + 1);
    if (text->at == NULL) {
        fputs("level: memory was wanting for a text\n", stderr);
        return false;
    }
    scene_answer(s, text->at, text->len);
    return true;
}

static void print_entity(scene_entity entity)
{
    printf("%" PRIu32 "v%" PRIu32, entity.index, entity.generation);
}

/* Prints the numbers of a component. */
static void print_numbers(scene_cell cell)
{
    switch (cell.shape) {
    case SCENE_INT: printf("=%" PRId64, cell.x); break;
    case SCENE_VEC3: printf("=%" PRId64 ",%" PRId64 ",%" PRId64, cell.x, cell.y, cell.z); break;
    case SCENE_LINK:
        putchar('=');
        print_entity((scene_entity){.index = (uint32_t)cell.x, .generation = (uint32_t)cell.y});
        break;
    default: break;
    }
}

/* Prints a component that was read just now, whose text is that of the answer. */
static bool print_cell(scene **s, scene_cell cell)
{
    struct text text;
    printf(" %s", kind_names[cell.kind]);
    print_numbers(cell);
    if (cell.shape != SCENE_TEXT) return true;
    if (!copy_answer(s, &text)) return false;
    putchar('=');
    fwrite(text.at, 1, text.len, stdout);
    free(text.at);
    return true;
}

/* Whether the last call was refused since the entity, which is there, hasn't that component. */
static bool is_not_present(scene **s)
{
    scene_refusal why;
    return scene_refused(s, &why) == SCENE_DONE && why.fault == NOT_PRESENT;
}

/* Prints an entity with all its components. */
static bool print_row(scene **s, scene_entity entity)
{
    print_entity(entity);
    for (uint32_t kind = 0; kind < KINDS; kind++) {
        scene_cell cell;
        scene_code code = scene_get(s, entity, kind, &cell);
        if (code == SCENE_REFUSED && is_not_present(s)) continue;
        if (!came_to(SCENE_DONE, code, s, "scene_get") || !print_cell(s, cell)) return false;
    }
    putchar('\n');
    return true;
}

/* Prints what the last answer lists as changed. */
static void print_changed(scene **s)
{
    scene_name name;
    for (size_t at = 0; scene_named(s, at, &name) == SCENE_DONE; at++) {
        print_entity(name.entity);
        printf(" %s\n", kind_names[name.kind]);
    }
}

/* Prints the names in the rows of a kind set, a part of the column at a time; too long a one is left out. */
static bool print_column(scene **s, uint64_t mask)
{
    uint8_t names[WORD];
    size_t ends[ROWS], told, total;
    for (size_t from = 0; ; from += told > 0 ? told : 1) {
        if (!DONE(scene_texts(s, mask, NAME, from, ends, ROWS, names, WORD, &told, &total))) return false;
        if (from >= total) return true;
        for (size_t at = 0, begin = 0; at < told; begin = ends[at++])
            printf(" %.*s", (int)(ends[at] - begin), (const char *)names + begin);
    }
}

/* Prints the names of all that have one, by kind set. */
static bool print_names(scene **s)
{
    scene_table tables[KINDS];
    size_t total;
    if (!DONE(scene_tables(s, 1 << NAME, 0, 0, tables, KINDS, &total))) return false;
    fputs("names:", stdout);
    for (size_t at = 0; at < total && at < KINDS; at++)
        if (!print_column(s, tables[at].mask)) return false;
    putchar('\n');
    return true;
}

/* What some deltas of a frame tell: each of them, the rows that came, and the names before and after it. The part of a
 * delta ends where `ends` says, and begins where that of the one before it ends. There is room for all of so many
 * deltas, whose names are shorter than a WORD. */
struct told {
    scene_delta deltas[DELTAS];
    size_t row_ends[DELTAS], name_ends[2][DELTAS];
    scene_cell cells[DELTAS * KINDS];
    uint8_t names[2][DELTAS * WORD];
};

static size_t begin_of(const size_t *ends, size_t at)
{
    return at == 0 ? 0 : ends[at - 1];
}

/* Prints a component of a delta, as it was before, for `which` 0, or is after it, for 1. */
static void print_told(const struct told *told, size_t at, uint32_t which, scene_cell cell)
{
    const size_t *ends = told->name_ends[which];
    size_t begin = begin_of(ends, at);
    printf(" %s", kind_names[cell.kind]);
    print_numbers(cell);
    if (cell.shape == SCENE_TEXT) printf("=%.*s", (int)(ends[at] - begin), (const char *)told->names[which] + begin);
}

/* Prints what a delta did: the row that came, or the component that is another. */
static void print_delta(const struct told *told, size_t at)
{
    const scene_delta *delta = &told->deltas[at];
    print_entity(delta->entity);
    switch (delta->change) {
    case SCENE_SPAWNED:
        fputs(" came:", stdout);
        for (size_t k = begin_of(told->row_ends, at); k < told->row_ends[at]; k++)
            print_told(told, at, 1, told->cells[k]);
        break;
    case SCENE_SET:
        fputs(" had", stdout);
        print_told(told, at, 0, delta->before);
        fputs(" and has", stdout);
        print_told(told, at, 1, delta->after);
        break;
    case SCENE_LINKED:
        fputs(" goes to ", stdout);
        print_entity(delta->parent_after);
        break;
    default: break;
    }
    putchar('\n');
}

/* Reads some deltas of a frame, from one on; *count is how many, and *total how many it has. */
static bool read_deltas(scene **s, size_t place, size_t from, struct told *told, size_t *count, size_t *total)
{
    uint64_t tick;
    if (!DONE(scene_step(s, SCENE_BACK, place, &tick, from, told->deltas, DELTAS, total))) return false;
    for (uint32_t which = 0; which < 2; which++)
        if (!DONE(scene_delta_texts(s, SCENE_BACK, place, which, NAME, from, told->name_ends[which], DELTAS,
                                    told->names[which], DELTAS * WORD, count, total)))
            return false;
    return DONE(scene_delta_rows(s, SCENE_BACK, place, from, told->row_ends, DELTAS, told->cells, DELTAS * KINDS,
                                 count, total));
}

/* Prints what a frame did, by its place from the newest, a part at a time. */
static bool print_frame(scene **s, size_t place)
{
    struct told told;
    size_t from = 0, count, total;
    do {
        if (!read_deltas(s, place, from, &told, &count, &total)) return false;
        for (size_t at = 0; at < count; at++) print_delta(&told, at);
        from += count;
    } while (from < total);
    return true;
}

/* ---- the level */

static bool declare_kinds(scene **s)
{
    for (uint32_t kind = 0; kind < KINDS; kind++) {
        const char *name = kind_names[kind];
        uint32_t told;
        if (!DONE(scene_declare(s, bytes(name), strlen(name), kind_shapes[kind], &told)) || told != kind) return false;
    }
    printf("%d kinds are declared\n", KINDS);
    return DONE(scene_set_depth(s, DEPTH));
}

/* A room with a lamp and a cat in it, all by one frame. In the frame a spawn tells its name there, which is by the
 * order of the spawns: so the cat, whose components are given one by one, is the third. */
static bool furnish(scene **s, struct level *level)
{
    const scene_cell of_room[] = {part(NAME, 0, 4)};
    const scene_cell of_lamp[] = {part(NAME, 4, 4), vector(AT, 1, 2, 3), number(HEALTH, 100)};
    scene_entity room = SCENE_NONE, lamp = SCENE_NONE, cat = SCENE_NEW(2);
    if (!DONE(scene_begin(s))) return false;
    if (!DONE(scene_spawn_cells(s, of_room, 1, bytes("roomlamp"), 8, &room))) return false;
    if (!DONE(scene_spawn_cells(s, of_lamp, 3, bytes("roomlamp"), 8, &lamp))) return false;
    if (!with_name(s, "cat") || !DONE(scene_with(s, vector(AT, 4, 0, -5)))) return false;
    if (!DONE(scene_with(s, tag(HIDDEN))) || !DONE(scene_spawn(s))) return false;
    if (!DONE(scene_set_parent(s, lamp, room)) || !DONE(scene_set_parent(s, cat, room))) return false;
    if (!DONE(scene_commit(s))) return false;
    if (!DONE(scene_spawned(s, 0, &level->room)) || !DONE(scene_spawned(s, 1, &level->lamp))) return false;
    return DONE(scene_spawned(s, 2, &level->cat));
}

static bool print_level(scene **s, const struct level *level)
{
    return print_row(s, level->room) && print_row(s, level->lamp) && print_row(s, level->cat);
}

/* Whether an entity is the only one without a parent. */
static bool stands_alone(scene **s, scene_entity entity)
{
    scene_entity root = SCENE_NONE;
    size_t total = 0;
    if (!DONE(scene_roots(s, 0, &root, 1, &total))) return false;
    bool is_alone = total == 1 && root.index == entity.index && root.generation == entity.generation;
    if (!is_alone) fputs("level: the roots are others\n", stderr);
    return is_alone;
}

/* Whether so many components were changed since a moment. */
static bool has_changed(scene **s, scene_moment moment, size_t wanted)
{
    scene_name name;
    size_t total = 0;
    if (!DONE(scene_changed_since(s, moment, 0, 0, 0, &name, 1, &total))) return false;
    if (total != wanted) fputs("level: other components were changed\n", stderr);
    return total == wanted;
}

static bool make(scene **s, struct level *level)
{
    if (!furnish(s, level)) return false;
    /* A command where no frame is open is a frame by itself. */
    if (!DONE(scene_insert(s, level->cat, link_to(AIM, level->lamp)))) return false;
    if (!stands_alone(s, level->room)) return false;
    puts("a room is furnished, and the cat looks at the lamp");
    if (!print_level(s, level) || !print_names(s)) return false;
    puts("the frame before the last did this");
    return print_frame(s, 1);
}

static bool change(scene **s, const struct level *level)
{
    const scene_entity entities[] = {level->lamp, level->cat};
    const scene_cell cells[] = {number(HEALTH, 75), part(NAME, 0, 7)};
    scene_moment before;
    if (!DONE(scene_now(s, &before)) || !DONE(scene_mark(s))) return false;
    if (!DONE(scene_insert_cells(s, entities, 2, cells, 2, bytes("old cat"), 7))) return false;
    if (!DONE(scene_changed(s))) return false;
    puts("a frame changes");
    print_changed(s);
    if (!has_changed(s, before, 2) || !print_frame(s, 0)) return false;
    return print_level(s, level);
}

/* A frame that is dropped does nothing, and isn't a call: there is nothing more to undo. */
static bool drop(scene **s, const struct level *level)
{
    if (!DONE(scene_begin(s)) || !DONE(scene_despawn_all(s, level->room)) || !DONE(scene_drop_frame(s))) return false;
    puts("a frame that would have emptied the room is dropped");
    return print_level(s, level);
}

/* A word that no line begins with: the library says what is wrong with it. */
static bool be_bad(scene **s)
{
    struct text text;
    if (!came_to(SCENE_BAD, scene_line(s, bytes("jump"), 4), s, "scene_line")) return false;
    if (!DONE(scene_bad_reason(s)) || !copy_answer(s, &text)) return false;
    printf("a line is bad: %.*s\n", (int)text.len, (const char *)text.at);
    free(text.at);
    return true;
}

/* A system would make the lamp burn down. Whether the systems go together can be asked before they are played. */
static bool check_systems(scene **s)
{
    static const char burn[] = "{\"do\":\"system\",\"name\":\"burn\",\"need\":[\"Health\"],\"without\":[\"Hidden\"],"
                               "\"steps\":[{\"step\":\"addint\",\"to\":\"Health\",\"by\":-1}]}";
    scene_refusal why;
    if (!DONE(scene_request(s, bytes(burn), strlen(burn))) || !DONE(scene_check_systems(s, &why))) return false;
    puts("the systems go together");
    return DONE(scene_clear_systems(s));
}

/* What is refused leaves all as it was: of a frame nothing is done, also not what stands before the refused command. */
static bool be_refused(scene **s, const struct level *level)
{
    puts("the room isn't empty, so its despawn is");
    if (!REFUSED(HAS_CHILDREN, scene_despawn(s, level->room))) return false;
    puts("a frame whose second command gives the cat a number for its name is");
    if (!DONE(scene_begin(s)) || !DONE(scene_insert(s, level->lamp, number(HEALTH, 1)))) return false;
    if (!DONE(scene_insert(s, level->cat, number(NAME, 5)))) return false;
    if (!REFUSED(WRONG_SHAPE, scene_commit(s))) return false;
    return print_level(s, level);
}

static bool undo_and_redo(scene **s, const struct level *level)
{
    if (!DONE(scene_undo_by(s, 1))) return false;
    puts("the change is undone");
    if (!print_level(s, level)) return false;
    if (!DONE(scene_redo_by(s, 1))) return false;
    puts("and redone");
    return print_level(s, level);
}

static bool save(scene **s, struct text *text)
{
    return DONE(scene_save(s)) && copy_answer(s, text);
}

/* A scene that is loaded is in the setup, where nothing of it can be read; a mark ends that. */
static bool load(scene **s, const struct text *text)
{
    return DONE(scene_open(s)) && DONE(scene_load(s, text->at, text->len)) && DONE(scene_mark(s));
}

/* Saves to room of the program, and leaves the last answer: asks for the length first. The caller frees the text. */
static bool save_apart(scene **s, struct text *text)
{
    uint8_t none;
    if (!DONE(scene_save_into(s, 2, 0, &none, 0, &text->len))) return false;
    text->at = malloc(text->len);
    if (text->at != NULL) return DONE(scene_save_into(s, 2, 0, text->at, text->len, &text->len));
    fputs("level: memory was wanting for a text\n", stderr);
    return false;
}

/* Whether a scene saves as this text. */
static bool saves_as(scene **s, const struct text *wanted)
{
    struct text text = {NULL, 0};
    bool is_saved = save_apart(s, &text);
    bool is_same = is_saved && text.len == wanted->len && memcmp(text.at, wanted->at, text.len) == 0;
    free(text.at);
    if (!is_saved) return false;
    if (!is_same) fputs("level: the scene that was loaded saves as another text\n", stderr);
    return is_same;
}

/* A scene that was loaded has the entities of the other one, and can undo what that one did. */
static bool empty_room(scene **s, const struct level *level)
{
    scene_cell cell;
    if (!DONE(scene_undo(s))) return false;
    puts("the second scene undoes the change too");
    if (!print_level(s, level)) return false;
    if (!DONE(scene_despawn_all(s, level->room))) return false;
    puts("its room is despawned with all in it, so a read of the lamp is");
    if (!REFUSED(NO_SUCH_ENTITY, scene_get(s, level->lamp, NAME, &cell))) return false;
    if (!DONE(scene_undo(s))) return false;
    puts("and it comes back");
    return print_level(s, level);
}

static bool play(scene **first, scene **second, struct text *text)
{
    struct level level = {SCENE_NONE, SCENE_NONE, SCENE_NONE};
    scene **s = first;
    if (!DONE(scene_open(s)) || !declare_kinds(s)) return false;
    if (!make(s, &level) || !change(s, &level) || !be_refused(s, &level)) return false;
    if (!drop(s, &level) || !be_bad(s) || !check_systems(s) || !undo_and_redo(s, &level)) return false;
    if (!save(s, text) || !load(second, text) || !saves_as(second, text)) return false;
    puts("a second scene loads what the first one saves, and saves the same");
    if (!empty_room(second, &level)) return false;
    puts("the first scene is as it was");
    return print_level(first, &level);
}

int main(void)
{
    scene *first = NULL, *second = NULL;
    struct text text = {NULL, 0};
    bool is_good = play(&first, &second, &text);
    free(text.at);
    scene_close(&second);
    scene_close(&first);
    if (fflush(stdout) != 0) {
        perror("level");
        is_good = false;
    }
    return is_good ? EXIT_SUCCESS : EXIT_FAILURE;
}
