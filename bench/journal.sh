#!/usr/bin/env bash
# What recorded commands cost, beside the same commands on a World itself, and what taking them back costs.
#
#   bench/journal.sh [SIZE [RUNS]]      at the top of the repository; a world of SIZE entities, 1000000 if none are given, and RUNS
#                                       runs of each, 5 if none are given
#
# For spawns, inserts in place, moves between tables and despawns it prints nanoseconds of processor time a command: on a World, by a recorder,
# and of the revert that takes them back; and how often a recorded command takes the time of the plain one. Each time is the
# least of the runs, without that of the spawns before. A recorded command's time has that of dropping its delta in the
# end. Then it prints the memory of each.
#
# Of 1,000, 2,000 and 4,000 records on a world of 20,000 entities it prints milliseconds in which they are tried, all together by an
# editor that is made of them, and each apart, which looks at the whole world for each. Each is the least of the runs. It needs
# python3, and rt for tools/bench_program, or the program that SCENE_BENCH names.
set -euo pipefail
cd "$(dirname "$0")/.."
place=$(mktemp -d)
trap 'rm -rf "$place"' EXIT
program=${SCENE_BENCH:-$(tools/bench_program scene_bench)}
python3 - "$program" "${1:-1000000}" "${2:-5}" <<'P'
import os, subprocess, sys

program, size, runs = sys.argv[1], int(sys.argv[2]), int(sys.argv[3])

# a work, the one before it, and how many commands it makes for each entity
WORKS = [("spawn", None, 1), ("insert", "spawn", 1), ("move", "spawn", 2), ("despawn", "spawn", 1)]

def once(work, way):
    """Processor seconds of a run, and its memory in MiB."""
    child = subprocess.Popen([program, work, str(size), "1", "1", way], stdout=subprocess.DEVNULL)
    _, status, used = os.wait4(child.pid, 0)
    if status:
        sys.exit(f"{work} {way}: status {status}")
    return used.ru_utime + used.ru_stime, used.ru_maxrss / 1024

def least(work, way):
    found = [once(work, way) for _ in range(runs)]
    return min(time for time, _ in found), min(memory for _, memory in found)

ways = ("plain", "recorded", "reverted")
print(f"{'nanoseconds':12}{'plain':>10}{'recorded':>10}{'factor':>8}{'revert':>10}   MiB", flush=True)
for work, before, each in WORKS:
    found = {way: least(work, way) for way in ways}
    filled = least(before, "plain")[0] if before else 0
    plain, recorded, reverted = (1e9 * (found[way][0] - filled) / (size * each) for way in ways)
    memory = ", ".join(f"{found[way][1]:.0f} {way}" for way in ways)
    print(f"{work:12}{plain:10.1f}{recorded:10.1f}{recorded / plain:8.2f}{reverted - recorded:10.1f}   {memory}", flush=True)

def tried(frames, way):
    """Milliseconds in which so many records are tried."""
    out = subprocess.run([program, "tries", str(frames), "20000", way], check=True, capture_output=True, text=True).stdout
    return int(out.split()[-1]) / 1e6

print(f"{'records':12}{'together':>10}{'apart':>10}   milliseconds", flush=True)
for frames in (1000, 2000, 4000):
    together, apart = (min(tried(frames, way) for _ in range(runs)) for way in ("together", "apart"))
    print(f"{frames:<12}{together:10.1f}{apart:10.1f}", flush=True)
P
