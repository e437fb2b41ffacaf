#!/usr/bin/env bash
# What sessions cost, beside the same calls on an editor, and what queries and entries take.
#
#   bench/sessions.sh [COUNT [RUNS]]      at the top of the repository; COUNT calls, 200000 if none are given, and RUNS runs of each,
#                                         7 if none are given
#
# It prints four parts:
#
# - nanoseconds of processor time of a call by an editor, and by a state, which enters it: frames of one spawn, and undos with redos
#   of such a frame. Each is the least of the runs, which take turns, and the factor is to be at most 1.15;
# - thousands of answers a second, each a list of a thousand rows, to one session and to eight at once. Each is the median of the
#   runs, and eight are to have at least three times as many on four processors;
# - bytes that an entry of a frame of one spawn takes: the memory of a state less that of an editor after the same frames, to be at most
#   320;
# - what a million cursors take that are asked for without waiting: memory beyond that of one, and how many more times memory is asked
#   for, both of which are to be 0.
#
# It needs python3, a C compiler, and rt for tools/bench_program, or the program that SCENE_SESSION_BENCH names.
set -euo pipefail
cd "$(dirname "$0")/.."
place=$(mktemp -d)
trap 'rm -rf "$place"' EXIT
program=${SCENE_SESSION_BENCH:-$(tools/bench_program scene_session_bench)}
# counts how often memory is asked for
cat > "$place/count.c" <<'C'
#define _GNU_SOURCE
#include <fcntl.h>
#include <stdlib.h>
#include <sys/mman.h>
/* the count lies in the file that COUNT names, since a program may end without a word */
static unsigned long early, *asked = &early;
__attribute__((constructor)) static void begin(void) {
    int file = open(getenv("COUNT"), O_RDWR);
    void *at = mmap(0, 8, PROT_READ | PROT_WRITE, MAP_SHARED, file, 0);
    if (at != MAP_FAILED) asked = at;
}
static void count(void) { __atomic_fetch_add(asked, 1, __ATOMIC_RELAXED); }
extern void *__libc_malloc(size_t), *__libc_calloc(size_t, size_t), *__libc_realloc(void *, size_t), *__libc_memalign(size_t, size_t);
void *malloc(size_t n) { count(); return __libc_malloc(n); }
void *calloc(size_t n, size_t m) { count(); return __libc_calloc(n, m); }
void *realloc(void *p, size_t n) { count(); return __libc_realloc(p, n); }
void *memalign(size_t a, size_t n) { count(); return __libc_memalign(a, n); }
void *aligned_alloc(size_t a, size_t n) { count(); return __libc_memalign(a, n); }
int posix_memalign(void **p, size_t a, size_t n) { count(); *p = __libc_memalign(a, n); return *p ? 0 : 12; }
C
cc -O2 -shared -fPIC -o "$place/count.so" "$place/count.c"
python3 - "$program" "$place" "${1:-200000}" "${2:-7}" <<'P'
import os, pathlib, statistics, subprocess, sys

program, place, count, runs = sys.argv[1], pathlib.Path(sys.argv[2]), int(sys.argv[3]), int(sys.argv[4])

def once(*words):
    """Nanoseconds of a run by the clock and of processor time, and its memory in bytes."""
    child = subprocess.Popen([program, *map(str, words)], stdout=subprocess.PIPE, text=True)
    lines = child.stdout.read().splitlines()
    _, status, used = os.wait4(child.pid, 0)
    if status:
        sys.exit(f"{words}: status {status}")
    return int(lines[1].split()[1]), 1e9 * (used.ru_utime + used.ru_stime), used.ru_maxrss * 1024

print(f"{'nanoseconds a call':22}{'editor':>10}{'state':>10}{'factor':>8}", flush=True)
memory = {}
for work, name, each in (("spawn", "frame of one spawn", 1), ("swing", "undo and redo", 2)):
    found = {"editor": [], "state": []}
    for _ in range(runs):
        for by in found:
            found[by].append(once(work, by, count))
    least = {by: min(time for _, time, _ in each_run) / count / each for by, each_run in found.items()}
    memory[work] = {by: min(bytes for _, _, bytes in each_run) for by, each_run in found.items()}
    print(f"{name:22}{least['editor']:10.1f}{least['state']:10.1f}{least['state'] / least['editor']:8.2f}", flush=True)

asks = max(100, count // 20)
rates = {sessions: statistics.median(sessions * asks * 1e6 / once("rows", sessions, asks)[0] for _ in range(runs)) for sessions in (1, 8)}
print(f"thousands of answers a second: {rates[1]:.1f} to one session, {rates[8]:.1f} to eight, {rates[8] / rates[1]:.2f} times as many", flush=True)

print(f"bytes an entry: {(memory['spawn']['state'] - memory['spawn']['editor']) / count:.0f}", flush=True)

def asked(cursors):
    """How often memory is asked for in a run."""
    counter = place / "counter"
    counter.write_bytes(bytes(8))
    subprocess.run([program, "cursor", str(cursors)], env={"LD_PRELOAD": str(place / "count.so"), "COUNT": str(counter)}, check=True, capture_output=True)
    return int.from_bytes(counter.read_bytes(), sys.byteorder)

one, million = asked(1), asked(1_000_000)
bytes = min(once("cursor", 1_000_000)[2] for _ in range(runs)) - min(once("cursor", 1)[2] for _ in range(runs))
print(f"a million cursors: {bytes} bytes more than one, and asked for memory {million - one} times more (one asks {one} times)")
P
