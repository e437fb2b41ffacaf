#!/usr/bin/env bash
# What calls cost from C, beside the same calls of an editor and of a state in Rattle.
#
#   bench/calls.sh [COUNT [RUNS]]      at the top of the repository; COUNT calls, 200000 if none are given, and RUNS
#                                      runs of each, 7 if none are given
#
# It prints nanoseconds of processor time of a call, by bench/calls.c with the library for C: of spawns in frames of one
# and of ten, and with their components, of undos and redos, of reads, of writes in frames of ten, of each of a thousand
# writes by one call, and of columns of a thousand Ints and texts. Each is the least of the runs, which take turns.
# Where tools/bench_program has built scene_session_bench, or SCENE_SESSION_BENCH names it, two columns have the same
# work by its editor and its state, which keeps each call in its history, and the last two how many times the time of
# each C takes. Behind them stand microseconds of calls from Python, by bench/calls.py, and where cargo is there
# nanoseconds of a row from Rust, by bindings/rust/examples/read_times.rs, beside columns of plain Rust.
#
# It needs python3, a C compiler, and what tools/library needs. bench/all.sh doesn't run it: there is no bound for it.
set -euo pipefail
cd "$(dirname "$0")/.."
place=$(mktemp -d)
trap 'rm -rf "$place"' EXIT
beside=${SCENE_SESSION_BENCH:-out/bench/scene_session_bench}
if [ ! -x "$beside" ]; then
    echo "bench/calls.sh: there is no $beside, so the calls of C stand alone" >&2
    beside=
fi
tools/library "$place/library"
"${CC:-gcc}" -std=c11 -O2 -Wall -Wextra -I "$place/library" bench/calls.c "$place/library/libscene.a" -o "$place/calls"
python3 - "$place/calls" "$beside" "${1:-200000}" "${2:-7}" <<'P'
import os, subprocess, sys

ours, beside, count, runs = sys.argv[1], sys.argv[2], int(sys.argv[3]), int(sys.argv[4])

# each work: its name, what it is, and how many calls there are of it each time; and those that the other program has
WORKS = [("spawn", "frame of one spawn", 1), ("spawn10", "spawn in a frame of ten", 1),
         ("cells", "spawn with its cells", 1), ("swing", "undo and redo", 2), ("get", "read of a component", 1),
         ("insert10", "write in a frame of ten", 1), ("writes", "write of a thousand", 1),
         ("column", "column of a thousand Ints", 1), ("texts", "of a thousand texts", 0.1)]
SHARED = ("spawn", "swing")

def once(words):
    """Nanoseconds of processor time of a run."""
    child = subprocess.Popen(list(map(str, words)), stdout=subprocess.PIPE)
    child.stdout.read()
    _, status, used = os.wait4(child.pid, 0)
    if status:
        sys.exit(f"{words}: status {status}")
    return 1e9 * (used.ru_utime + used.ru_stime)

BESIDE = ("editor", "state")
titles = "".join(f"{by:>10}" for by in ("C", *BESIDE)) + "".join(f"{'/ ' + by:>10}" for by in BESIDE)
print(f"{'nanoseconds a call':26}{titles}", flush=True)
for work, name, each in WORKS:
    ways = {"C": [ours, work, count]}
    if beside and work in SHARED:
        ways |= {by: [beside, work, by, count] for by in BESIDE}
    found = {by: [] for by in ways}
    for _ in range(runs):
        for by, words in ways.items():
            found[by].append(once(words))
    least = {by: min(times) / count / each for by, times in found.items()}
    row = "".join(f"{least[by]:10.1f}" if by in least else f"{'-':>10}" for by in ("C", *BESIDE))
    factors = "".join(f"{least['C'] / least[by]:10.2f}" if by in least else f"{'-':>10}" for by in BESIDE)
    print(f"{name:26}{row}{factors}", flush=True)
P
echo "microseconds a call from Python"
bench/calls.py "$place/library/libscene.so"
if command -v cargo > /dev/null; then
    echo "from Rust, by queries and columns"
    SCENE_LIB_DIR="$place/library" cargo run --quiet --release --offline --target-dir "$place/target" \
        --manifest-path bindings/rust/Cargo.toml --example read_times
fi
