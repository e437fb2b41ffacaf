/* Plays the lines of standard input one by one, and prints each answer: the bytes that `scene run` prints of the same
 * script (docs/SCRIPTS.md). Why a line is bad, standard error says. The status is 1 where a line was bad, 3 where
 * memory was wanting or a stream failed, and else 0. */
#define _POSIX_C_SOURCE 200809L
#include "scene.h"

#include <errno.h>
#include <stdbool.h>
#include <stdio.h>
#include <stdlib.h>
#include <string.h>

enum { STATUS_BAD = 1, STATUS_FAULT = 3 };

/* The room for a text, which grows. */
struct room {
    uint8_t *at;
    size_t size;
};

static int fault(const char *what)
{
    fprintf(stderr, "lines: %s\n", what);
    return STATUS_FAULT;
}

/* How long a line is without its line break: the line feed that ends it, and one carriage return just before that. The
 * last line may lack the line feed, and a carriage return at its end then belongs to it. */
static size_t without_break(const char *line, size_t len)
{
    if (len == 0 || line[len - 1] != '\n') return len;
    len--;
    return len > 0 && line[len - 1] == '\r' ? len - 1 : len;
}

static bool has_room(struct room *room, size_t size)
{
    if (size <= room->size) return true;
    size_t grown = size > 2 * room->size ? size : 2 * room->size;
    uint8_t *at = realloc(room->at, grown);
    if (at == NULL) return false;
    *room = (struct room){at, grown};
    return true;
}

/* Prints the text of the last answer; false where there is no memory for it. */
static bool print_answer(scene **s, struct room *room, FILE *stream)
{
    size_t len = scene_answer(s, room->at, room->size);
    if (len > room->size) {
        if (!has_room(room, len)) return false;
        scene_answer(s, room->at, room->size);
    }
    if (len > 0) fwrite(room->at, 1, len, stream);
    return true;
}

/* Says why the last line is bad; false where there is no memory for it. */
static bool print_reason(scene **s, struct room *room, unsigned long number)
{
    if (scene_bad_reason(s) != SCENE_DONE) return false;
    fprintf(stderr, "lines: line %lu: ", number);
    bool is_printed = print_answer(s, room, stderr);
    fputc('\n', stderr);
    return is_printed;
}

/* Plays a line, and prints its answer; false where memory was wanting. */
static bool play_line(scene **s, struct room *room, const char *line, size_t len, unsigned long number, int *status)
{
    scene_code code = scene_line(s, (const uint8_t *)line, len);
    if (code == SCENE_NO_MEMORY || code == SCENE_UNTOLD || code == SCENE_LOST) return false;
    if (!print_answer(s, room, stdout)) return false;
    if (code != SCENE_BAD) return true;
    *status = STATUS_BAD;
    return print_reason(s, room, number);
}

/* Plays all lines, and gives the exit status. `line` has `size` bytes of room, and is as getline leaves it. */
static int play(scene **s, struct room *room, char **line, size_t *size)
{
    int status = 0;
    ssize_t len;
    if (scene_open(s) != SCENE_DONE) return fault("memory was wanting");
    for (unsigned long number = 1; errno = 0, (len = getline(line, size, stdin)) >= 0; number++)
        if (!play_line(s, room, *line, without_break(*line, (size_t)len), number, &status))
            return fault("memory was wanting");
    if (!feof(stdin)) return fault(strerror(errno));
    return fflush(stdout) == 0 && !ferror(stdout) ? status : fault(strerror(errno));
}

int main(void)
{
    scene *s = NULL;
    struct room room = {NULL, 0};
    char *line = NULL;
    size_t size = 0;
    int status = play(&s, &room, &line, &size);
    scene_close(&s);
    free(room.at);
    free(line);
    return status;
}
