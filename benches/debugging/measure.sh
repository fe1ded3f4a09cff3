#!/bin/sh
# measure.sh [PROGRAM [COUNT [SEED [FIRST]]]]: holds COUNT sessions of a debugger, 10,000 by itself, over logs of guests that fall by chance, and compares what they show and
# where they stop with what `trace` and `replay .. at` say (sessions.py says how); then as many in which bytes fall by chance (packets.py). PROGRAM is the built workbench, by
# itself the one that `rt run` leaves. The seed is printed; given again, with the number of the first, it makes the same. JOBS says how many at a time, by itself 2. The status
# is 1 where one differs. Needs python3 and /dev/shm.
set -eu
here=$(cd "$(dirname "$0")" && pwd)
program=${1:-$here/../../crates/workbench/out/workbench}
ulimit -c 0
python3 -B "$here/sessions.py" "$program" "${2:-10000}" ${3:-} ${4:-}
python3 -B "$here/packets.py" "$program" "${2:-10000}" ${3:-} ${4:-}
