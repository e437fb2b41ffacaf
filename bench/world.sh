#!/usr/bin/env bash
# What the calls of a World cost, beside the same work in plain Rust, and how that grows with the world.
#
#   bench/world.sh [MOST [RUNS]]      at the top of the repository; worlds of up to MOST entities, 1000000 if none are given,
#                                     and RUNS runs of each, 5 if none are given
#
# For each call it prints nanoseconds of processor time at 10,000, 100,000 and 1,000,000 entities, the exponent by which the time
# of all calls grows between the least and the greatest of these, and how often the greatest takes the time of plain Rust. Each time
# is the least of the runs, in which some million calls are made at every size, without that of the work before them: calls that
# leave the world as it is are made in several passes over one world, the others in several worlds. Then it prints the memory of
# the greatest world, whose entities have three kinds. It needs rustc, python3, and rt for tools/bench_program, or the program that SCENE_BENCH names.
set -euo pipefail
cd "$(dirname "$0")/.."
place=$(mktemp -d)
trap 'rm -rf "$place"' EXIT
program=${SCENE_BENCH:-$(tools/bench_program scene_bench)}
rustc -O --edition 2021 -o "$place/world_floor" bench/world_floor.rs
python3 - "$program" "$place/world_floor" "${1:-1000000}" "${2:-5}" <<'P'
import math, os, subprocess, sys

ours, floor, most, runs = sys.argv[1], sys.argv[2], int(sys.argv[3]), int(sys.argv[4])
# the floor has one way alone
WAY = {ours: ["plain"], floor: []}
sizes = [size for size in (10_000, 100_000, 1_000_000) if size <= most]

# how many calls are made in all, where they are made in passes over one world, and how many in worlds of their own
IN_PASSES, IN_WORLDS = 8_000_000, 3_000_000

class Call:
    """A call: the work that makes it, what is made before it where it takes the world apart, and how often it is made for each
    entity."""

    def __init__(self, name, work, before=None, each=1, passes=True):
        self.name, self.work, self.before, self.each, self.passes = name, work, before, each, passes

    def runs(self, size):
        """The runs whose times differ by those of the calls, each as a work, passes and rounds; and how many calls these are."""
        if self.passes:
            passes = max(2, IN_PASSES // (size * self.each))
            return (self.work, passes, 1), (self.work, 0, 1), passes * size * self.each
        rounds = max(1, IN_WORLDS // size)
        return (self.work, 0, rounds), self.before and (self.before, 0, rounds), rounds * size

CALLS = [
    Call("spawn", "spawn", passes=False), Call("get", "get"), Call("insert in place", "insert"),
    Call("move between tables", "move", each=2), Call("parent of many, and back", "wide", each=2),
    Call("parent in a chain, and back", "deep", each=2), Call("despawn", "despawn", "spawn", passes=False),
    Call("despawn all, wide", "despawnwide", "wide", passes=False),
    Call("despawn all, deep", "despawndeep", "deep", passes=False), Call("put", "put"),
]

def once(program, size, work, passes, rounds):
    """Processor seconds of a run, and its memory in MiB."""
    child = subprocess.Popen([program, work, str(size), str(passes), str(rounds), *WAY[program]], stdout=subprocess.DEVNULL)
    _, status, used = os.wait4(child.pid, 0)
    if status:
        sys.exit(f"{work} {size}: status {status}")
    return used.ru_utime + used.ru_stime, used.ru_maxrss / 1024

def cost(program, call, size):
    """Seconds that a call takes, without those of the work before it. Runs with the calls and without them take turns, so that
    both meet the same machine."""
    with_calls, without, count = call.runs(size)
    times, before = [], []
    for _ in range(runs):
        times.append(once(program, size, *with_calls)[0])
        before.append(once(program, size, *without)[0] if without else 0)
    return max(1e-10, (min(times) - min(before)) / count)

print(f"{'nanoseconds a call':28}" + "".join(f"{size:>12,}" for size in sizes) + f"{'exponent':>10}{'factor':>8}", flush=True)
for call in CALLS:
    times = [cost(ours, call, size) for size in sizes]
    grows = 1 + math.log(times[-1] / times[0]) / math.log(sizes[-1] / sizes[0]) if len(times) > 1 else 1
    factor = times[-1] / cost(floor, call, sizes[-1])
    print(f"{call.name:28}" + "".join(f"{time * 1e9:12.1f}" for time in times) + f"{grows:10.2f}{factor:8.1f}", flush=True)
memory = [once(program, sizes[-1], "spawn", 0, 1)[1] for program in (ours, floor)]
print(f"memory of {sizes[-1]:,} entities: {memory[0]:.0f} MiB, in plain Rust {memory[1]:.0f} MiB")
P
