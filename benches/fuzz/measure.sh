#!/bin/sh
# measure.sh [PROGRAM [COUNT [SEED [FIRST]]]]: calls the program COUNT times, 100,000 by itself, on images, scripts, events and logs that are changed by
# chance (fuzz.py says how, and what a call may come to), and prints how the calls ended. PROGRAM is the built workbench, by itself the one that `rt run`
# leaves. The seed is printed; given again, with the number of the first call, it makes the same calls. JOBS says how many at a time, by itself 2. The
# status is 1 where a call ended otherwise than it may. Needs python3 and /dev/shm.
set -eu
here=$(cd "$(dirname "$0")" && pwd)
program=${1:-$here/../../crates/workbench/out/workbench}
ulimit -c 0
exec python3 -B "$here/fuzz.py" "$program" "${2:-100000}" ${3:-} ${4:-}
