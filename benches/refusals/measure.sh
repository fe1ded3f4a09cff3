#!/bin/sh
# measure.sh [PROGRAM [quick|every|leaks]]: refuses each growth of the worked rows in turn, a process each, in a minute, and prints for each row how many
# answers were refusals, how many the ample answer, and how many another one (sweep.py says what each is, `rows` which rows). With `quick` at most 40 growths
# of a row are tried, in ten seconds; with `every` the rows are all cases of crates/cases/data. With `leaks` two growths of a row are refused under valgrind,
# and three where there are threads, which must find no bad access and no block that is not freed. PROGRAM is the built workbench, by itself the one that `rt
# run` leaves. TIMES says how often a growth is refused where there are threads, by itself 3.
# measure.sh tests [FOLDER]: refuses the growths of the tests of `tests`, and prints for each test with how many refused it passed, gave up and failed
# (sweep_tests.py says what each is); of a test of more than 1,000 growths 100 are refused. Their programs are those that `.ci/run`, or `rt test` in their
# crates, leave as crates/NAME/out/NAME_tests, or those of FOLDER.
# JOBS says how many rows or tests at a time, by itself 2. The status is 1 where an answer was another one, or a test failed. Needs a C compiler, python3 and
# /dev/shm; `leaks` needs valgrind.
set -eu
here=$(cd "$(dirname "$0")" && pwd)
program=${1:-$here/../../crates/workbench/out/workbench}
work=$(mktemp -d)
trap 'rm -rf "$work"' EXIT

ulimit -c 0
cc -O2 -shared -fPIC -o "$work/refuse.so" "$here/refuse.c" -ldl
if [ "$program" = tests ]; then
    python3 -B "$here/sweep_tests.py" "$work/refuse.so" ${2:-}
else
    python3 -B "$here/sweep.py" "$program" "$work/refuse.so" ${2:-}
fi
