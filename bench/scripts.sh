#!/usr/bin/env bash
# What scripts cost: frames of one command and of very many, refused ones, undo and redo of everything, moves between tables,
# indices that are taken again, trees, many children of one parent, systems, queries, and scene texts that are loaded and dumped.
#
#   bench/scripts.sh [MOST [PROGRAM [WORKS]]]     at the top of the repository; scripts of 10,000 lines and more, up to MOST,
#                                                 100000 if none is given; by ./scene's program if none is given; of all works,
#                                                 or of those named, as spawn,moves
#
# bench/scripts.py writes the scripts, and says what each does. Where the folder ../shared, or the one that SHARED names, has the
# same program in plain Rust, its tools/measure times both side by side, and then each script is played once more for its memory in
# KiB, which measure rounds. Else the program is timed alone: for each script least processor time of five runs, and memory. A run
# ends after two minutes, or the seconds that SECONDS_A_RUN gives, and then no longer script of its work is played.
set -euo pipefail
cd "$(dirname "$0")/.."
most=${1:-100000}
program=${2:-crates/scene/out/scene}
works=${3:-}
shared=${SHARED:-../shared}
[ -x "$program" ] || tools/build
sizes=()
for size in 10000 100000 1000000; do
    [ "$size" -gt "$most" ] || sizes+=("$size")
done
place=$(mktemp -d)
trap 'rm -rf "$place"' EXIT
# measure takes the scripts that lie at this place
inputs="$place/inputs"
[ "$most" -le 100000 ] || inputs="$inputs--big"
python3 bench/scripts.py --program "$program" ${works:+--works "$works"} "$inputs" "${sizes[@]}"
way=alone
if [ -d "$shared/peer" ] && [ -x "$shared/tools/measure" ]; then
    MEASURE_DIR="$place" "$shared/tools/measure" "$program" "$most"
    way=memory
else
    echo "$shared/peer isn't there: the program is timed alone"
fi
PYTHONPATH=bench python3 -B - "$way" "$program" "$inputs" "${SECONDS_A_RUN:-120}" <<'P'
import pathlib, sys
from one_run import run_once

way, program, inputs, limit = sys.argv[1], sys.argv[2], pathlib.Path(sys.argv[3]), float(sys.argv[4])
runs = 5 if way == "alone" else 1

def once(word, script):
    """What a run takes, or None where it doesn't end in time."""
    with open(script, "rb") as lines:
        used = run_once([program, word], lines, seconds=limit)
    if used is not None and used.status not in (0, 1):
        sys.exit(f"{script}: status {used.status}")
    return used

def least(word, script):
    found = [once(word, script)]
    while None not in found and len(found) < runs:
        found.append(once(word, script))
    return None if None in found else (min(used.seconds for used in found), min(used.memory for used in found))

def tell(work, size, used):
    if way == "memory":
        print(f"memory of {work} {size}: {1024 * used[1]:.0f} KiB", flush=True)
    else:
        print(f"{work:14} {size:8} | {1000 * used[0]:9.1f} {used[1]:8.2f}", flush=True)

if way == "alone":
    start = least("run", "/dev/null")
    print(f"start-up (empty script), ms: scene {1000 * start[0]:.2f}", flush=True)
    print(f"{'workload':14} {'size':>8} | {'cpu min':>9} {'MiB':>8}   (ms)")
for work in sorted({script.name.split(".")[0] for script in inputs.iterdir()}):
    for size in sorted(int(script.name.split(".")[1]) for script in inputs.glob(f"{work}.*.txt")):
        used = least("check" if work.endswith("_check") else "run", inputs / f"{work}.{size}.txt")
        if used is None:
            print(f"{work} {size}: scene died or timed out", flush=True)
            break
        tell(work, size, used)
P
