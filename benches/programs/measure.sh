#!/bin/sh
# measure.sh [PROGRAM [COUNT [SEED [FIRST]]]]: runs COUNT guests that fall by chance, 20,000 by itself, and compares what quick runs on threads came to with what each step
# by itself comes to (programs.py says how). PROGRAM is the built workbench, by itself the one that `rt run` leaves. The seed is printed; given again, with the number of
# the first guest, it makes the same guests. JOBS says how many at a time, by itself 2. The status is 1 where one differs. Needs python3 and /dev/shm.
set -eu
here=$(cd "$(dirname "$0")" && pwd)
program=${1:-$here/../../crates/workbench/out/workbench}
ulimit -c 0
exec python3 -B "$here/programs.py" "$program" "${2:-20000}" ${3:-} ${4:-}
