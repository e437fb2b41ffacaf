#!/usr/bin/env bash
# How many turns a second go through the lock, beside a Mutex and an RwLock of plain Rust for the same state.
#
#   bench/lock.sh [TURNS]      at the top of the repository; TURNS of each thread, 200000 if none are given
#
# For 1, 2, 4 and 8 threads that write, read, or mix nine reads with one write, it prints a row with the millions of turns a second
# of all threads together: of scene_lock, of the Mutex, of the RwLock. Each is the median of five runs; behind it stands the standard
# error of their mean, as a part of that mean in percent. It needs rustc, python3, and rt for tools/bench_program, or the program that SCENE_LOCK_BENCH names.
set -euo pipefail
cd "$(dirname "$0")/.."
turns=${1:-200000}
place=$(mktemp -d)
trap 'rm -rf "$place"' EXIT
program=${SCENE_LOCK_BENCH:-$(tools/bench_program scene_lock_bench)}
rustc -O --edition 2021 -o "$place/lock_floor" bench/lock_floor.rs
python3 - "$turns" "$place/lock_floor" "$program" <<'P'
import statistics, subprocess, sys

turns, floor, ours = int(sys.argv[1]), sys.argv[2], sys.argv[3]

def rates(words, threads):
    found = []
    for _ in range(5):
        lines = subprocess.run(words, check=True, capture_output=True, text=True).stdout.split("\n")
        found.append(threads * turns * 1e3 / int(lines[1].split()[1]))
    return found

def shown(words, threads):
    found = rates(words, threads)
    error = statistics.stdev(found) / len(found) ** 0.5 / statistics.mean(found)
    return f"{statistics.median(found):10.2f} ±{error:4.0%}"

print(f"millions of turns a second, {turns} turns a thread")
print(f"{'work':6} {'threads':>7} {'scene_lock':>16} {'Mutex':>16} {'RwLock':>16}")
for work in ("write", "read", "mixed"):
    for threads in (1, 2, 4, 8):
        rest = [work, str(threads), str(turns)]
        row = [shown(words + rest, threads) for words in ([ours], [floor, "mutex"], [floor, "rwlock"])]
        print(f"{work:6} {threads:7} {row[0]:>16} {row[1]:>16} {row[2]:>16}")
P
