/* What tools/refuse preloads into the program: it numbers the calls that may fail, lets some of them fail, and counts
 * the blocks of memory that live.
 *
 * REFUSE is WHAT:HOW:FIRST:LAST, as memory:null:7:7 for the 7th request alone, or memory:null:7: for all from it on.
 * WHAT is memory, read (of standard input), write (to standard output), tell (to standard error) or thread. HOW is null
 * for memory and thread, and else EIO, ENOSPC, EINTR, short (one byte is moved) or zero (none is). At the end the file
 * that REFUSE_REPORT names gets a line for each WHAT with how many calls there were, the line `strange N` with how many
 * blocks were given back that weren't there, and for each block that lives the line `block NUMBER SIZE OBJECT`, with the
 * number of its request and the file whose code made it.
 *
 * Where REFUSE_CASE is a number, calls count only from a write of the line `case NUMBER ..` to standard output until one
 * of `called NUMBER`: so prints the program of tools/refusals, whose calls of the library these lines enclose.
 *
 * Where REFUSE_STAND is a number, the run stands at its request for memory of that number, at which it has one thread.
 * For each REFUSE that it reads from descriptor ASKED it forks a process, which goes on by it, and writes to descriptor
 * ENDED how that ended, as waitpid has it. */
#define _GNU_SOURCE
#include <dlfcn.h>
#include <errno.h>
#include <fcntl.h>
#include <limits.h>
#include <pthread.h>
#include <stdatomic.h>
#include <stdio.h>
#include <stdlib.h>
#include <string.h>
#include <sys/syscall.h>
#include <sys/uio.h>
#include <sys/wait.h>
#include <unistd.h>

/* A run that takes so many seconds hangs, and is ended by SIGALRM. */
#define MOST_SECONDS 60
#define BUCKETS 16384
/* As in tools/refuse. */
#define ASKED 100
#define ENDED 101

/* The C library's own, which nothing replaces. */
extern void *__libc_malloc(size_t);
extern void *__libc_calloc(size_t, size_t);
extern void *__libc_realloc(void *, size_t);
extern void *__libc_memalign(size_t, size_t);
extern void __libc_free(void *);

enum what { MEMORY, READ, WRITE, TELL, THREAD, KINDS };
enum how { FAIL, SHORT, ZERO };

static const char *const names[KINDS] = {"memory", "read", "write", "tell", "thread"};

static const struct {
    const char *name;
    enum how how;
    int error;
} ways[] = {{"null", FAIL, ENOMEM}, {"EIO", FAIL, EIO},    {"ENOSPC", FAIL, ENOSPC},
            {"EINTR", FAIL, EINTR}, {"short", SHORT, 0}, {"zero", ZERO, 0}};

struct block {
    void *at;
    size_t size;
    unsigned long number;
    void *caller;
    struct block *next;
};

static struct block *live[BUCKETS];
static unsigned long strange;
static atomic_flag is_held = ATOMIC_FLAG_INIT;

static atomic_ulong calls[KINDS];
static enum what refused_what = KINDS;
static enum how refused_how;
static int refused_error;
static unsigned long first, last;
static int counts;
static const char *wanted_case;
static unsigned long stand_at;
static atomic_flag is_reported = ATOMIC_FLAG_INIT;
static int (*real_thread)(pthread_t *, const pthread_attr_t *, void *(*)(void *), void *);
static void (*real_abort)(void);

/* Takes over which calls fail. */
static void take(const char *asked)
{
    char what[16] = "", how[16] = "";
    last = ULONG_MAX;
    if (sscanf(asked, "%15[a-z]:%15[A-Za-z]:%lu:%lu", what, how, &first, &last) < 3)
        return;
    for (int at = 0; at < KINDS; at++)
        if (!strcmp(what, names[at]))
            refused_what = at;
    for (size_t at = 0; at < sizeof ways / sizeof *ways; at++)
        if (!strcmp(how, ways[at].name))
            refused_how = ways[at].how, refused_error = ways[at].error;
}

/* Forks a process for each REFUSE that is asked for; only these go on. */
static void stand(void)
{
    char asked[64];
    ssize_t bytes;
    int ended;
    alarm(0);
    while ((bytes = syscall(SYS_read, ASKED, asked, sizeof asked - 1)) > 0) {
        asked[bytes] = '\0';
        pid_t child = fork();
        if (!child) {
            take(asked);
            alarm(MOST_SECONDS);
            return;
        }
        waitpid(child, &ended, 0);
        syscall(SYS_write, ENDED, &ended, sizeof ended);
    }
    syscall(SYS_exit_group, 0);
}

/* Numbers a call, and says whether it has to fail. */
static int refuses(enum what what)
{
    if (!counts)
        return 0;
    unsigned long number = atomic_fetch_add(&calls[what], 1) + 1;
    if (what == MEMORY && number == stand_at)
        stand();
    return what == refused_what && first <= number && number <= last;
}

static void hold(void)
{
    while (atomic_flag_test_and_set(&is_held))
        sched_yield();
}

static void let_go(void)
{
    atomic_flag_clear(&is_held);
}

static struct block **bucket_of(void *at)
{
    return &live[((size_t)at >> 4) % BUCKETS];
}

/* Notes a block that was taken, and gives it on. */
static void *noted(void *at, size_t size, void *caller)
{
    if (!at)
        return at;
    struct block *block = __libc_malloc(sizeof *block);
    if (!block)
        _exit(99);
    hold();
    *block = (struct block){at, size, calls[MEMORY], caller, *bucket_of(at)};
    *bucket_of(at) = block;
    let_go();
    return at;
}

/* Takes a block out of those that live, and says whether it was there. */
static int forgotten(void *at, struct block *was)
{
    hold();
    struct block **place = bucket_of(at);
    while (*place && (*place)->at != at)
        place = &(*place)->next;
    struct block *found = *place;
    if (found) {
        *was = *found;
        *place = found->next;
        __libc_free(found);
    } else {
        strange++;
    }
    let_go();
    return found != NULL;
}

static void *no_memory(void)
{
    errno = ENOMEM;
    return NULL;
}

void *malloc(size_t size)
{
    return refuses(MEMORY) ? no_memory() : noted(__libc_malloc(size), size, __builtin_return_address(0));
}

void *calloc(size_t count, size_t size)
{
    return refuses(MEMORY) ? no_memory() : noted(__libc_calloc(count, size), count * size, __builtin_return_address(0));
}

void *memalign(size_t alignment, size_t size)
{
    return refuses(MEMORY) ? no_memory() : noted(__libc_memalign(alignment, size), size, __builtin_return_address(0));
}

void *aligned_alloc(size_t alignment, size_t size)
{
    return refuses(MEMORY) ? no_memory() : noted(__libc_memalign(alignment, size), size, __builtin_return_address(0));
}

int posix_memalign(void **to, size_t alignment, size_t size)
{
    void *at = refuses(MEMORY) ? NULL : __libc_memalign(alignment, size);
    if (!at)
        return ENOMEM;
    *to = noted(at, size, __builtin_return_address(0));
    return 0;
}

void free(void *at)
{
    struct block was;
    if (at && forgotten(at, &was))
        __libc_free(at);
}

void *realloc(void *at, size_t size)
{
    struct block was = {0};
    if (refuses(MEMORY))
        return no_memory();
    if (at && !forgotten(at, &was))
        return no_memory();
    void *to = __libc_realloc(at, size);
    if (!to && size)
        return noted(at, was.size, was.caller), no_memory();
    return noted(to, size, __builtin_return_address(0));
}

/* How many bytes a call may move that isn't simply to fail; what else it answers is in `answer`. */
static int fails(enum what what, size_t *bytes, ssize_t *answer)
{
    if (!refuses(what))
        return 0;
    if (refused_how == SHORT && *bytes > 0) {
        *bytes = 1;
        return 0;
    }
    errno = refused_error;
    *answer = refused_how == FAIL ? -1 : 0;
    return refused_how != SHORT;
}

static enum what stream_of(int descriptor)
{
    return descriptor == 1 ? WRITE : TELL;
}

ssize_t read(int descriptor, void *to, size_t bytes)
{
    ssize_t answer;
    if (descriptor == 0 && fails(READ, &bytes, &answer))
        return answer;
    return syscall(SYS_read, descriptor, to, bytes);
}

/* Whether what is written begins with this word and the number of the wanted case. */
static int names_case(const char *from, size_t bytes, const char *word)
{
    char line[64];
    size_t length = snprintf(line, sizeof line, "%s %s", word, wanted_case);
    return length < sizeof line && length < bytes && !memcmp(from, line, length) && strchr(" \n", from[length]);
}

/* Lets calls count from the line before the wanted case's call to that after it. */
static void notice(int descriptor, const void *from, size_t bytes)
{
    if (!wanted_case || descriptor != 1)
        return;
    if (names_case(from, bytes, "case"))
        counts = 1;
    else if (names_case(from, bytes, "called"))
        counts = 0;
}

ssize_t write(int descriptor, const void *from, size_t bytes)
{
    ssize_t answer;
    notice(descriptor, from, bytes);
    if ((descriptor == 1 || descriptor == 2) && fails(stream_of(descriptor), &bytes, &answer))
        return answer;
    return syscall(SYS_write, descriptor, from, bytes);
}

ssize_t writev(int descriptor, const struct iovec *parts, int count)
{
    ssize_t answer;
    size_t bytes = 2;
    if ((descriptor == 1 || descriptor == 2) && fails(stream_of(descriptor), &bytes, &answer))
        return answer;
    while (bytes == 1 && count > 0 && parts->iov_len == 0)
        parts++, count--;
    if (bytes == 1 && count > 0)
        return syscall(SYS_write, descriptor, parts->iov_base, 1);
    return syscall(SYS_writev, descriptor, parts, count);
}

int pthread_create(pthread_t *thread, const pthread_attr_t *how, void *(*start)(void *), void *given)
{
    return refuses(THREAD) ? EAGAIN : real_thread(thread, how, start, given);
}

static void say(int file, const char *text)
{
    syscall(SYS_write, file, text, strlen(text));
}

static void say_block(int file, const struct block *block)
{
    Dl_info found;
    char line[PATH_MAX + 64];
    int is_found = dladdr(block->caller, &found);
    snprintf(line, sizeof line, "block %lu %zu %s\n", block->number, block->size, is_found ? found.dli_fname : "?");
    say(file, line);
}

/* Writes the report, once. */
__attribute__((destructor)) static void report(void)
{
    char line[64];
    const char *path = getenv("REFUSE_REPORT");
    if (!path || atomic_flag_test_and_set(&is_reported))
        return;
    counts = 0;
    int file = syscall(SYS_openat, AT_FDCWD, path, O_WRONLY | O_CREAT | O_TRUNC, 0600);
    for (int what = 0; what < KINDS; what++) {
        snprintf(line, sizeof line, "%s %lu\n", names[what], calls[what]);
        say(file, line);
    }
    snprintf(line, sizeof line, "strange %lu\n", strange);
    say(file, line);
    for (int at = 0; at < BUCKETS; at++)
        for (struct block *block = live[at]; block; block = block->next)
            say_block(file, block);
    syscall(SYS_close, file);
}

void _exit(int status)
{
    report();
    for (;;)
        syscall(SYS_exit_group, status);
}

void abort(void)
{
    report();
    real_abort();
    __builtin_unreachable();
}

/* Calls count from here on. */
__attribute__((constructor)) static void begin(void)
{
    const char *asked = getenv("REFUSE"), *at = getenv("REFUSE_STAND");
    real_thread = (int (*)(pthread_t *, const pthread_attr_t *, void *(*)(void *), void *))dlsym(RTLD_NEXT, "pthread_create");
    real_abort = (void (*)(void))dlsym(RTLD_NEXT, "abort");
    take(asked ? asked : "");
    stand_at = at ? strtoul(at, NULL, 10) : 0;
    alarm(MOST_SECONDS);
    wanted_case = getenv("REFUSE_CASE");
    counts = !wanted_case;
}
