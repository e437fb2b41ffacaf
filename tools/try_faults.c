/* What tools/try_faults preloads into the program: it writes down what the program asks of a store's files, lets some of
 * these calls fail, and hands standard input over line by line.
 *
 * FAULTS_STORE is the path of the store's file, without a link in it. The calls on it, on its log (that path with -wal)
 * and on its folder count from 1: writes, changes of length, and synchronizations, which are answered and not made.
 * FAULTS is HOW:FIRST:LAST, as EIO:7:7 for the 7th call alone, or EIO:7: for all from it on. HOW is EIO or ENOSPC, with
 * which each of them fails; full, by which only the writes among them fail, with ENOSPC; or part, which is full, but the
 * first of these writes takes half its bytes.
 *
 * FAULTS_RECORD names a file to which each call is added, as a struct record, with the bytes that a write took. So are
 * the removal of one of the two files, and what is written to standard output. FAULTS_LINES is how many lines a read of
 * standard input gives at most; without it, as many as wait. */
#define _GNU_SOURCE
#include <errno.h>
#include <fcntl.h>
#include <limits.h>
#include <stdint.h>
#include <stdio.h>
#include <stdlib.h>
#include <string.h>
#include <sys/syscall.h>
#include <unistd.h>

/* A run that takes so many seconds hangs, and is ended by SIGALRM. */
#define MOST_SECONDS 60
#define LOG_ENDING "-wal"

enum file { NONE = 0, STORE = 'd', LOG = 'l', FOLDER = 'f', ANSWERS = 'a' };
enum kind { WRITTEN = 'w', CUT = 'c', SYNCED = 's', REMOVED = 'r' };
enum how { NOTHING, FAIL, FULL, PART };

struct record {
    uint8_t kind, file, is_done, unused[5];
    uint64_t at, length;
};

static const struct {
    const char *name;
    enum how how;
    int error;
} ways[] = {{"EIO", FAIL, EIO}, {"ENOSPC", FAIL, ENOSPC}, {"full", FULL, ENOSPC}, {"part", PART, ENOSPC}};

static char store[PATH_MAX], folder[PATH_MAX];
static int recorded = -1;
static unsigned long calls, first = ULONG_MAX, last = ULONG_MAX, most_lines = ULONG_MAX;
static enum how how;
static int error_of_way;
static int has_taken_part;

/* Which of the files a path is. */
static enum file file_at(const char *path)
{
    size_t length = strlen(store);
    if (!length)
        return NONE;
    if (!strcmp(path, folder))
        return FOLDER;
    if (strncmp(path, store, length))
        return NONE;
    if (!path[length])
        return STORE;
    return strcmp(path + length, LOG_ENDING) ? NONE : LOG;
}

/* Which of the files a descriptor leads to. */
static enum file file_of(int descriptor)
{
    char name[64], path[PATH_MAX];
    snprintf(name, sizeof name, "/proc/self/fd/%d", descriptor);
    ssize_t length = readlink(name, path, sizeof path - 1);
    if (length < 0)
        return NONE;
    path[length] = '\0';
    return file_at(path);
}

static void note(enum kind kind, enum file file, int is_done, uint64_t at, uint64_t length, const void *bytes)
{
    struct record it = {.kind = kind, .file = file, .is_done = is_done, .at = at, .length = length};
    if (recorded < 0)
        return;
    if (syscall(SYS_write, recorded, &it, sizeof it) != sizeof it)
        _exit(99);
    if (bytes && syscall(SYS_write, recorded, bytes, length) != (long)length)
        _exit(99);
}

/* Numbers a call, and says how it has to fail. */
static enum how way_of_next(void)
{
    calls++;
    return first <= calls && calls <= last ? how : NOTHING;
}

static ssize_t put(int descriptor, const void *from, size_t bytes, off_t at)
{
    enum file file = file_of(descriptor);
    if (file == NONE)
        return syscall(SYS_pwrite64, descriptor, from, bytes, at);
    enum how way = way_of_next();
    if (way == PART && !has_taken_part && bytes > 1) {
        has_taken_part = 1;
        bytes /= 2;
    } else if (way != NOTHING) {
        note(WRITTEN, file, 0, at, 0, NULL);
        errno = error_of_way;
        return -1;
    }
    ssize_t moved = syscall(SYS_pwrite64, descriptor, from, bytes, at);
    note(WRITTEN, file, moved >= 0, at, moved < 0 ? 0 : moved, from);
    return moved;
}

ssize_t pwrite(int descriptor, const void *from, size_t bytes, off_t at)
{
    return put(descriptor, from, bytes, at);
}

ssize_t pwrite64(int descriptor, const void *from, size_t bytes, off_t at)
{
    return put(descriptor, from, bytes, at);
}

static int cut(int descriptor, off_t length)
{
    enum file file = file_of(descriptor);
    if (file != NONE && way_of_next() == FAIL) {
        note(CUT, file, 0, 0, length, NULL);
        errno = error_of_way;
        return -1;
    }
    int answer = syscall(SYS_ftruncate, descriptor, length);
    if (file != NONE)
        note(CUT, file, !answer, 0, length, NULL);
    return answer;
}

int ftruncate(int descriptor, off_t length)
{
    return cut(descriptor, length);
}

int ftruncate64(int descriptor, off_t length)
{
    return cut(descriptor, length);
}

static int synchronized(int descriptor, long number)
{
    enum file file = file_of(descriptor);
    if (file == NONE)
        return syscall(number, descriptor);
    int is_done = way_of_next() != FAIL;
    note(SYNCED, file, is_done, 0, 0, NULL);
    if (is_done)
        return 0;
    errno = error_of_way;
    return -1;
}

int fsync(int descriptor)
{
    return synchronized(descriptor, SYS_fsync);
}

int fdatasync(int descriptor)
{
    return synchronized(descriptor, SYS_fdatasync);
}

int unlink(const char *path)
{
    int answer = syscall(SYS_unlink, path);
    enum file file = file_at(path);
    if (file != NONE && !answer)
        note(REMOVED, file, 1, 0, 0, NULL);
    return answer;
}

ssize_t write(int descriptor, const void *from, size_t bytes)
{
    ssize_t moved = syscall(SYS_write, descriptor, from, bytes);
    if (descriptor == 1 && moved > 0)
        note(WRITTEN, ANSWERS, 1, 0, moved, from);
    return moved;
}

ssize_t read(int descriptor, void *to, size_t bytes)
{
    char *at = to;
    if (descriptor != 0 || most_lines == ULONG_MAX)
        return syscall(SYS_read, descriptor, to, bytes);
    for (unsigned long lines = 0; lines < most_lines && (size_t)(at - (char *)to) < bytes; at++) {
        ssize_t moved = syscall(SYS_read, descriptor, at, 1);
        if (moved < 0)
            return moved;
        if (!moved)
            break;
        lines += *at == '\n';
    }
    return at - (char *)to;
}

/* Takes over which calls fail. */
static void take(const char *asked)
{
    char name[16] = "";
    if (sscanf(asked, "%15[A-Za-z]:%lu:%lu", name, &first, &last) < 2)
        return;
    for (size_t at = 0; at < sizeof ways / sizeof *ways; at++)
        if (!strcmp(name, ways[at].name))
            how = ways[at].how, error_of_way = ways[at].error;
}

__attribute__((constructor)) static void begin(void)
{
    const char *path = getenv("FAULTS_STORE"), *asked = getenv("FAULTS"), *record = getenv("FAULTS_RECORD"), *lines = getenv("FAULTS_LINES");
    if (path && strlen(path) + sizeof LOG_ENDING < sizeof store) {
        strcpy(store, path);
        strcpy(folder, path);
        *strrchr(folder, '/') = '\0';
    }
    take(asked ? asked : "");
    if (lines)
        most_lines = strtoul(lines, NULL, 10);
    if (record) {
        int file = syscall(SYS_openat, AT_FDCWD, record, O_WRONLY | O_CREAT | O_APPEND | O_CLOEXEC, 0600);
        recorded = fcntl(file, F_DUPFD_CLOEXEC, 100);
        syscall(SYS_close, file);
    }
    alarm(MOST_SECONDS);
}
