/* Refuses requests for memory of level.c, for bindings/c/try_scene. It stands before the C library's calls by the
 * linker's --wrap, so that the requests of the example and those of the library in it count, and no others. level.c is
 * compiled with -Dmain=level_main.
 *
 *     refuse_memory FOLDER MOST
 *
 * It plays the example whole, and then twice for each request, up to MOST: with that one refused, and with all from it
 * on. Each such run is a process of its own, which is forked: so valgrind, which is slow to begin, begins once. What it
 * prints and says goes to FOLDER/NUMBER.HOW.out and .err, where HOW is `alone` or `on`. On standard error a line
 * `NUMBER.HOW STATUS` tells how it ended, by 128 and more where a signal ended it, and the last line `requests N` how
 * many requests the example makes. */
#define _POSIX_C_SOURCE 200809L
#include <limits.h>
#include <stdio.h>
#include <stdlib.h>
#include <sys/wait.h>
#include <unistd.h>

int level_main(void);
void *__real_malloc(size_t size);
void *__real_calloc(size_t count, size_t size);
void *__real_realloc(void *at, size_t size);
void *__wrap_malloc(size_t size);
void *__wrap_calloc(size_t count, size_t size);
void *__wrap_realloc(void *at, size_t size);

/* Requests are numbered from 1. Those from the first to the last are refused; none where both are 0. */
static unsigned long requests, first, last;

static int is_refused(void)
{
    requests++;
    return first <= requests && requests <= last;
}

void *__wrap_malloc(size_t size)
{
    return is_refused() ? NULL : __real_malloc(size);
}

void *__wrap_calloc(size_t count, size_t size)
{
    return is_refused() ? NULL : __real_calloc(count, size);
}

void *__wrap_realloc(void *at, size_t size)
{
    return is_refused() ? NULL : __real_realloc(at, size);
}

/* Sends a stream to a file of a run. */
static void send_to(FILE *stream, const char *folder, unsigned long number, const char *how, const char *end)
{
    char path[PATH_MAX];
    snprintf(path, sizeof path, "%s/%lu.%s.%s", folder, number, how, end);
    if (freopen(path, "w", stream) == NULL) _exit(98);
}

/* Plays the example in a process of its own, and tells how it ended. */
static int play(const char *folder, unsigned long number, const char *how)
{
    int status;
    pid_t child = fork();
    if (child == 0) {
        send_to(stdout, folder, number, how, "out");
        send_to(stderr, folder, number, how, "err");
        requests = 0;
        first = number;
        last = how[0] == 'a' ? number : ULONG_MAX;
        exit(level_main());
    }
    if (child < 0 || waitpid(child, &status, 0) != child) return 0;
    fprintf(stderr, "%lu.%s %d\n", number, how, WIFEXITED(status) ? WEXITSTATUS(status) : 128 + WTERMSIG(status));
    return 1;
}

int main(int count, char **words)
{
    if (count != 3) return 2;
    unsigned long most = strtoul(words[2], NULL, 10);
    int status = level_main();
    unsigned long all = requests;
    for (unsigned long number = 1; number <= all && number <= most; number++)
        if (!play(words[1], number, "alone") || !play(words[1], number, "on")) return 2;
    fprintf(stderr, "requests %lu\n", all);
    return status;
}
