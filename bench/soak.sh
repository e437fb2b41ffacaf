#!/usr/bin/env bash
# Whether sessions bear much use: eight threads make calls by chance over one state, and then its history is played again by one
# thread, from the opening on.
#
#   bench/soak.sh [SECONDS [SEED]]      at the top of the repository; 60 seconds, and the seed 1, if none are given
#
# The threads submit frames, some of which are refused, undo, redo, advance and ask. Compared are the scene texts of the state and of
# the one that was played again, their undos and redos, the reply of each entry with that of the replay and with the one that its session
# was told, and the calls of each session, each once and in its order. A state that has seen half a million turns is compared, and
# another one begun, while there is time. It prints threads, calls, entries and differences, and its status is 1 where there is a
# difference. It needs rt, for tools/bench_program.
set -euo pipefail
cd "$(dirname "$0")/.."
program=$(tools/bench_program scene_session_bench)
"$program" soak "${1:-60}" "${2:-1}"
