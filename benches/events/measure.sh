#!/bin/sh
# measure.sh [PROGRAM]: what an event of `failover` takes, of lists of 100,000, 200,000 and 400,000 events, counted by callgrind beside an
# empty list. PROGRAM is the built workbench, by itself the one that `rt run` leaves. Needs valgrind.
set -eu
here=$(cd "$(dirname "$0")" && pwd)
program=${1:-$here/../../crates/workbench/out/workbench}
work=$(mktemp -d)
trap 'rm -rf "$work"' EXIT

# A guest of one hart that jumps to itself.
printf 'harts 1\npages 1\n0000006f\n' > "$work/guest.image"

# list EVENTS ACKNOWLEDGED: rounds of eight steps, a seal and the delivery of the frame that it sent, and where ACKNOWLEDGED is 1, of an
# acknowledgement and a release behind them.
list() {
    awk "BEGIN {
        print \"deliver 0 0\"
        for (frame = 1; frame <= $1 / ($2 ? 12 : 10); frame++) {
            for (at = 0; at < 8; at++) print \"step 0\"
            print \"seal\"; print \"deliver 0 \" frame
            if ($2) { print \"ack 0\"; print \"release\" }
        }
    }"
}

# count LIST: the host instructions of a call of the program.
count() {
    valgrind --tool=callgrind --callgrind-out-file=/dev/null "$program" failover "$work/guest.image" "$1" 1 1 2>&1 >/dev/null |
        sed -n 's/.*Collected : //p'
}

: > "$work/none.events"
none=$(count "$work/none.events")
for events in 100000 200000 400000; do
    for acknowledged in 0 1; do
        list "$events" "$acknowledged" > "$work/some.events"
        "$program" failover "$work/guest.image" "$work/some.events" 1 1 > "$work/said.txt"
        some=$(count "$work/some.events")
        lines=$(wc -l < "$work/some.events")
        awk "BEGIN { printf \"%d events, %s acknowledgements: %.1f instructions per event\n\", $events, $acknowledged ? \"with\" : \"without\", ($some - $none) / $lines }"
    done
done
