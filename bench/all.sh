#!/usr/bin/env bash
# All figures of cost, held against those of bench/bounds.
#
#   bench/all.sh [--only SECTIONS] [--works WORKS] [--propose] [--keep FOLDER] [MOST [PROGRAM]]
#
# at the top of the repository; scripts and worlds of up to MOST lines or entities, 100000 if none is given; by ./scene's program
# if none is given. The sections, one after another, are these, or those of --only, as scripts,beside:
#
#   scripts    what scripts cost, beside the same program in plain Rust where that is there: bench/scripts.sh; --works names some
#   beside     the same steps by SQLite and by Godot: bench/beside/run
#   systems    what an advance takes on one worker and on more: bench/systems.sh
#   world      the calls of a world beside plain Rust: bench/world.sh
#   journal    recorded commands beside plain ones: bench/journal.sh
#   sessions   calls of sessions beside those of an editor: bench/sessions.sh
#   lock       the lock beside a Mutex: bench/lock.sh
#
# Each prints its own table; at the end bench/figures.py prints one of all figures: the bound, the figure as it is, whether it holds,
# and the goal. The status is 1 where a figure is beyond its bound, or a section fails. Growth, the memory of a line and the time
# beside that of the workload spawn are held also where no peer is there. --propose prints bounds for what was measured instead, in
# the form of bench/bounds. --keep leaves what the sections printed in a folder; tools/plot_cost draws a picture of scripts.txt there.
#
# The last four sections prove and build their programs by tools/bench_program; SCENE_BENCH, SCENE_SESSION_BENCH and
# SCENE_LOCK_BENCH name ones that are built.
# It takes a quarter of an hour; nothing else should run meanwhile.
set -euo pipefail
cd "$(dirname "$0")/.."
only=scripts,beside,systems,world,journal,sessions,lock
works= propose= keep=
while [ $# -gt 0 ] && [ "${1#--}" != "$1" ]; do
    case "$1" in
        --only) only=$2; shift 2 ;;
        --works) works=$2; shift 2 ;;
        --keep) keep=$2; shift 2 ;;
        --propose) propose=--propose; shift ;;
        *) echo "bench/all.sh: there is no option $1" >&2; exit 2 ;;
    esac
done
most=${1:-100000}
program=${2:-crates/scene/out/scene}
place=$keep
if [ -z "$keep" ]; then
    place=$(mktemp -d)
    trap 'rm -rf "$place"' EXIT
fi
mkdir -p "$place"
rm -f "$place"/*.txt

# What a section prints, which goes to its file too.
section() {
    case "$1" in
        scripts) bench/scripts.sh "$most" "$program" "$works" ;;
        beside) bench/beside/run 100000 "$program" ;;
        systems) bench/systems.sh "$most" "$program" ;;
        world) bench/world.sh "$most" ;;
        journal) bench/journal.sh "$most" ;;
        sessions) bench/sessions.sh ;;
        lock) bench/lock.sh ;;
        *) echo "bench/all.sh: there is no section $1" >&2; return 2 ;;
    esac
}

failed=
for name in ${only//,/ }; do
    echo "== $name"
    section "$name" | tee "$place/$name.txt" || failed="$failed $name"
done
echo "== figures"
status=0
bench/figures.py $propose bench/bounds "$place" || status=1
if [ -n "$failed" ]; then
    echo "bench/all.sh: these sections failed:$failed" >&2
    status=1
fi
exit "$status"
