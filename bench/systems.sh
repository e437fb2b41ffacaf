#!/usr/bin/env bash
# What an advance takes on one worker and on more: by the clock, and in processor time.
#
#   bench/systems.sh [MOST [PROGRAM]]     at the top of the repository; worlds of 1,000 rows and more, up to MOST, 1000000 if none
#                                         is given; by ./scene's program if none is given
#
# A row has four numbers, and each of four systems adds to one of them. A column of 131,072 numbers and more is parted
# among the workers; the calling thread alone writes others, so up to 100,000 rows further workers make no difference.
# For each size and number of workers it prints the milliseconds of an advance, less those of the same script without
# advances, and how often they take those of one worker. Each is the least of seven runs, in which the numbers of workers
# come in turn, since a machine's speed changes from one minute to the next. It needs python3.
set -euo pipefail
cd "$(dirname "$0")/.."
program=${2:-crates/scene/out/scene}
[ -x "$program" ] || tools/build
python3 - "$program" "${1:-1000000}" <<'P'
import os, subprocess, sys, tempfile, time

program, most = sys.argv[1], int(sys.argv[2])
KINDS = "ABCD"
WORKERS = (1, 2, 4, 8, 16)

def script(rows, advances):
    lines = [f"kind {kind} Int" for kind in KINDS] + [f"slots {rows}", "begin"]
    lines += ["spawn " + " ".join(f"{kind}=1" for kind in KINDS)] * rows + ["commit"]
    lines += [f"system s{kind} need={kind} addint:{kind}:1" for kind in KINDS] + ["advance"] * advances
    return ("\n".join(lines) + "\n").encode()

def once(text, workers):
    """The milliseconds of a run by the clock, and of processor time."""
    with tempfile.TemporaryFile() as file:
        file.write(text)
        file.seek(0)
        began = time.monotonic()
        child = subprocess.Popen([program, "run", "--workers", str(workers)], stdin=file, stdout=subprocess.DEVNULL)
        _, status, used = os.wait4(child.pid, 0)
        if status:
            sys.exit(f"{workers} workers: status {status}")
        return 1000 * (time.monotonic() - began), 1000 * (used.ru_utime + used.ru_stime)

def least(texts):
    """The least of seven runs of each text by each number of workers."""
    found = {(text, workers): [] for workers in WORKERS for text in texts}
    for _ in range(7):
        for text, workers in found:
            found[text, workers].append(once(text, workers))
    return {key: [min(each) for each in zip(*runs)] for key, runs in found.items()}

print(f"{'rows':>9}{'workers':>9}{'clock':>11}{'factor':>8}{'processor':>11}{'factor':>8}")
for rows in (1000, 10000, 100000, 1000000):
    if rows > most:
        break
    advances = max(100, 200000 // rows)
    texts = with_them, without = script(rows, advances), script(rows, 0)
    found = least(texts)
    alone = None
    for workers in WORKERS:
        each = [(a - b) / advances for a, b in zip(found[with_them, workers], found[without, workers])]
        alone = alone or each
        print(f"{rows:9}{workers:9}{each[0]:11.3f}{each[0] / alone[0]:8.2f}{each[1]:11.3f}{each[1] / alone[1]:8.2f}", flush=True)
P
