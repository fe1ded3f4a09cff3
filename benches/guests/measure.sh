#!/bin/sh
# measure.sh [PROGRAM]: what a step of each guest takes, recorded by `run` and replayed, counted by callgrind between 300,000 and 1,000,000
# steps. PROGRAM is the built workbench, by itself the one that `rt run` leaves. Needs valgrind.
set -eu
here=$(cd "$(dirname "$0")" && pwd)
program=${1:-$here/../../crates/workbench/out/workbench}
work=$(mktemp -d)
trap 'rm -rf "$work"' EXIT

# count ARGUMENTS..: the host instructions of a call of the program.
count() {
    valgrind --tool=callgrind --callgrind-out-file=/dev/null "$program" "$@" 2>&1 >/dev/null | sed -n 's/.*Collected : //p'
}

for guest in mixture dhrystone_apart dhrystone_mixed outputs; do
    image=$here/images/$guest.image
    few=$(count run "$image" /dev/null 300000 "$work/few.log")
    many=$(count run "$image" /dev/null 1000000 "$work/many.log")
    few_again=$(count replay "$image" "$work/few.log")
    many_again=$(count replay "$image" "$work/many.log")
    awk "BEGIN {
        run = ($many - $few) / 700000; again = ($many_again - $few_again) / 700000
        printf \"%s: recorded %.1f, replayed %.1f, ratio %.3f\n\", \"$guest\", run, again, again / run }"
done
