#!/bin/sh
# sqlite.sh [LIVE [WORKBENCH [ROUNDS [SEED [KILLS [STATEMENTS]]]]]]: SQLite as a guest (guests/sqlite) beside the host's own SQLite. In each of ROUNDS rounds three keepers, of
# whom two must hold an answer, and a primary; so many random statements, while the primary is killed (kill -9) KILLS times at random moments and two random keepers hand over to the
# next one. Each statement must be answered as the host's SQLite answers it, no number may have two words, and the machine to which the keepers' logs lead must have put out
# what was answered. LIVE and WORKBENCH are the built programs, by themselves those that `rt run` leaves. The last line is 'N passed, N failed'. Needs python3 with SQLite 3.
top=$(cd "$(dirname "$0")/../.." && pwd)
live=${1:-$top/crates/live/out/live}
workbench=${2:-$top/crates/workbench/out/workbench}
exec python3 "$top/samples/live/sqlite.py" "$live" "$workbench" "$top/guests/out/-O2/sqlite.image" "${3:-10}" "${4:-1}" "${5:-5}" "${6:-60}"
