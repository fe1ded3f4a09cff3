#!/bin/bash
# keeper.sh [LIVE [WORKBENCH [ROUNDS [SEED]]]]: three keepers, each a process of its own, over FIFOs that are fed with the frames of a run. One of them
# is killed (kill -9) at random moments and begins again, and then two hand their logs over to term 2 while frames still come. Of each of these two, all
# that it ever acknowledged of term 1 must lie inside what it handed over; the third must come to the end of the run. Then what a keeper refuses:
# each with its fault line and its status. LIVE and WORKBENCH are the built programs, by themselves those that `rt run` leaves. The last line is
# 'N passed, N failed'. Needs bash, GNU od and mkfifo.
set -u
top=$(cd "$(dirname "$0")/../.." && pwd)
live=${1:-$top/crates/live/out/live}
workbench=${2:-$top/crates/workbench/out/workbench}
rounds=${3:-5}
RANDOM=${4:-1}
image=$top/samples/four_harts.image
work=$(mktemp -d)
passed=0
failed=0

# Ends what this script started, and nothing else.
finish() {
    { kill -9 $(jobs -rp); wait; } 2> /dev/null
    rm -rf "$work"
}
trap finish EXIT
trap 'exit 1' INT TERM

for program in "$live" "$workbench"; do
    if [ ! -x "$program" ]; then
        echo "there is no $program: build it by .ci/run, or by rt run in its folder"
        exit 2
    fi
done

pass() { passed=$((passed + 1)); }

# faults FILE..: the lines of these files that are no notes.
faults() { grep -hv '^note ' "$@"; }

# fail WHAT: counts it, and shows what standard input has of it.
fail() {
    failed=$((failed + 1))
    echo "failed: $1"
    sed -n '1,20s/^/    /p'
}

# is WHAT WANTED GOT: whether two texts are one.
is() {
    if [ "$2" = "$3" ]; then pass; else fail "$1" < <(printf 'wanted: %s\ngot: %s\n' "$2" "$3"); fi
}

# split LOG FOLDER: writes the frames of a log into the folder, each into a file with its number of four digits.
split() {
    local size at=0 number=0 body
    size=$(wc -c < "$1")
    mkdir -p "$2"
    while [ "$at" -lt "$size" ]; do
        body=$(od -An -tu4 --endian=little -j "$((at + 4))" -N 4 "$1" | tr -d ' ')
        tail -c "+$((at + 1))" "$1" | head -c "$((body + 40))" > "$2/$(printf %04d "$number")"
        at=$((at + body + 40))
        number=$((number + 1))
    done
}

# stop PROCESS: kills it as a machine that stops would.
stop() { { kill -9 "$1" && wait "$1"; } 2> /dev/null; }

# feed FIFO FRAMES: sends all frames, and begins anew where the reader is gone, until all went out over one connection.
feed() {
    local frame whole=no
    while [ "$whole" = no ]; do
        whole=yes
        {
            for frame in "$2"/*; do
                if ! cat "$frame"; then
                    whole=no
                    break
                fi
                if [ "$((RANDOM % 4))" = 0 ]; then sleep "0.0$((RANDOM % 9))"; fi
            done
        } > "$1" 2> /dev/null
    done
}

# hear FIFO FILE: keeps what is acknowledged, over one connection behind the other.
hear() {
    local line
    while true; do
        while read -r line; do echo "$line"; done < "$1" >> "$2"
    done
}

# make_log K LOG [FRAMES]: makes keeper K's log, of a pair of five keepers, with the frames of a file.
pair=$(od -An -N8 -tx8 /dev/urandom | tr -d ' ')
make_log() {
    if ! "$live" make "$image" "$1" 5 3 "$pair" "$2" 2> "$work/unmade"; then fail "make $2" < "$work/unmade"; fi
    if [ $# = 3 ]; then cat "$3" > "$2"; fi
}

# keep ROUND K: starts keeper K of a round, whose process is then `started`.
keep() {
    "$live" keeper "$image" "$2" "$1/log.$2" from "$1/frames.$2" to "$1/acks.$2" 2>> "$1/faults.$2" &
    started=$!
}

# counts FILE: the term and the counts of the position of the frames in a file.
counts() { "$workbench" cut "$image" "$1" | sed -n 's/^position term \([0-9]*\) top [0-9]* counts \(.*\)$/\1 \2/p'; }

# inside ACKS POSITION: prints each acknowledgement of term 1 that is not inside a position of term 1.
inside() {
    awk -v position="$2" '
        BEGIN { harts = split(position, limit, " ") }
        $1 == "ack" && $2 == 1 {
            bad = limit[1] != 1 || NF != harts + 3
            for (i = 2; i <= harts; i++) if ($(i + 2) > limit[i]) bad = 1
            if (bad) print
        }' "$1"
}

# frames_of HANDED FILE: writes the frames of what was handed over to a file, and prints the line before them without its seal.
frames_of() {
    local pair line
    pair=$(head -n 1 "$1")
    line=$(sed -n 2p "$1")
    tail -c "+$((${#pair} + ${#line} + 3))" "$1" > "$2"
    echo "${line% *}"
}

# round NUMBER: one drill.
round() {
    local at=$work/round.$1 k victim=$((RANDOM % 3)) process kills heirs over
    mkdir "$at"
    for k in 0 1 2; do
        mkfifo "$at/frames.$k" "$at/acks.$k"
        make_log "$k" "$at/log.$k"
        keep "$at" "$k"
        process[$k]=$started
        hear "$at/acks.$k" "$at/said.$k" &
        feed "$at/frames.$k" "$work/frames" &
        feeder[$k]=$!
    done
    for kills in 1 2 3; do
        sleep "0.$((RANDOM % 3))$((RANDOM % 10))"
        if ! kill -0 "${process[$victim]}" 2> /dev/null; then fail "round $1: keeper $victim runs until it is killed" <<< 'it has ended'; fi
        stop "${process[$victim]}"
        keep "$at" "$victim"
        process[$victim]=$started
    done
    sleep "0.$((RANDOM % 4))$((RANDOM % 10))"
    heirs="$victim $(((victim + 1) % 3))"
    for k in $heirs; do
        if "$live" hand "$image" "$k" "$at/log.$k" 2 > "$at/handed.$k" 2> "$at/refused.$k"; then pass; else fail "round $1: hand $k" < "$at/refused.$k"; fi
    done
    # A feeder ends once its keeper took all frames over one connection.
    for _ in $(seq 1200); do
        if ! kill -0 "${feeder[0]}" "${feeder[1]}" "${feeder[2]}" 2> /dev/null; then break; fi
        sleep 0.1
    done
    # Until the keeper that is not fenced has come to the end.
    k=$(((victim + 2) % 3))
    for _ in $(seq 1200); do
        if tail -n 1 "$at/said.$k" | grep -q "^ack 1 $k $end "; then break; fi
        sleep 0.1
    done
    is "round $1: keeper $k comes to the end" "ack 1 $k $end" "$(tail -n 1 "$at/said.$k" | sed 's/ [0-9a-f]*$//')"
    "$workbench" replay "$image" "$at/log.$k" > "$at/text" 2>&1
    if cmp -s "$work/text" "$at/text"; then pass; else fail "round $1: the replay of log $k" < "$at/text"; fi
    for k in $heirs; do
        is "round $1: keeper $k hands over" "handed 2 $k $(($(wc -c < "$at/handed.$k") - $(head -n 2 "$at/handed.$k" | wc -c)))" "$(frames_of "$at/handed.$k" "$at/heir.$k")"
        inside "$at/said.$k" "$(counts "$at/heir.$k")" > "$at/outside.$k"
        if [ -s "$at/outside.$k" ]; then fail "round $1: keeper $k acknowledged more than it handed over" < "$at/outside.$k"; else pass; fi
        grep -c '^ack 1' "$at/said.$k" >> "$work/tally"
    done
    # Both together lead at least as far as each acknowledged.
    "$workbench" join "$image" "$at/joined" "$at/heir.${heirs% *}" "$at/heir.${heirs#* }" > /dev/null
    for k in $heirs; do
        inside "$at/said.$k" "$(counts "$at/joined")" > "$at/outside.$k"
        if [ -s "$at/outside.$k" ]; then fail "round $1: what both handed over lacks what keeper $k acknowledged" < "$at/outside.$k"; else pass; fi
    done
    for k in 0 1 2; do
        stop "${process[$k]}"
        # The keeper that was killed may say, as it begins again where the one before it stood in a frame, that no frame begins there; it passes that connection over.
        over='^$'
        if [ "$k" = "$victim" ]; then over='^fault input 0 frame 1$'; fi
        grep "$over" "$at/faults.$k" >> "$work/passed.over"
        if faults "$at/faults.$k" | grep -v "$over" > "$at/others.$k"; then fail "round $1: keeper $k has a fault" < "$at/others.$k"; else pass; fi
    done
}

# refuses WHAT STATUS LINE WORDS..: what the words are answered, on standard error, with this status.
refuses() {
    local what=$1 status=$2 line=$3 got
    shift 3
    "$live" "$@" > "$work/out" 2> "$work/err" < /dev/null
    got=$?
    is "$what: status" "$status" "$got"
    is "$what: line" "$line" "$(faults "$work/err")"
}

cut_line() { head -n "$1" "$2" | tail -n 1 | sed 's/ [0-9a-f]*$//'; }

# Words for each of four harts, of which a piece of a log tells 256: a run of some 80 frames.
awk 'BEGIN { for (i = 1; i <= 5120; i++) for (hart = 0; hart < 4; hart++) printf "%d %d word %08x\n", hart, 4 * i, i }' > "$work/script"
"$workbench" run "$image" "$work/script" 50000 "$work/run.log" > "$work/text" || exit 1
end=$(counts "$work/run.log" | cut -d' ' -f2-)
split "$work/run.log" "$work/frames"
for number in $(seq "$rounds"); do round "$number"; done

# Files as inputs and outputs are read and written once, and the keeper ends.
: > "$work/acks"
make_log 4 "$work/log"
refuses 'a keeper over a file' 0 '' keeper "$image" 4 "$work/log" from "$work/run.log" to "$work/acks"
is 'it asks for all frames' 'again 4' "$(cut_line 1 "$work/acks")"
is 'it acknowledges the end' "ack 1 4 $end" "$(tail -n 1 "$work/acks" | sed 's/ [0-9a-f]*$//')"
if cmp -s "$work/run.log" "$work/log"; then pass; else fail 'the log has the frames that came' < /dev/null; fi
refuses 'the same frames again' 0 '' keeper "$image" 4 "$work/log" from "$work/run.log" "$work/run.log" to "$work/acks"
if cmp -s "$work/run.log" "$work/log"; then pass; else fail 'frames that come again are not added' < /dev/null; fi

# Frames that come over three inputs at once.
for frame in "$work"/frames/*; do
    number=$((10#$(basename "$frame")))
    cat "$frame" >> "$work/third.$((number % 3))"
done
make_log 4 "$work/thirds"
refuses 'frames over three inputs' 0 '' keeper "$image" 4 "$work/thirds" from "$work/third.0" "$work/third.1" "$work/third.2" to "$work/acks"
is 'all of them are acknowledged' "ack 1 4 $end" "$(tail -n 1 "$work/acks" | sed 's/ [0-9a-f]*$//')"
"$workbench" replay "$image" "$work/thirds" > "$work/replayed" 2>&1
if cmp -s "$work/text" "$work/replayed"; then pass; else fail 'the replay of what came over three inputs' < "$work/replayed"; fi

# One output, which nobody reads: once it is full, the input whose frames it acknowledges waits, and what another one brings is logged.
mkfifo "$work/often" "$work/once" "$work/unread"
: > "$work/written"
make_log 4 "$work/unheard"
"$live" keeper "$image" 4 "$work/unheard" from "$work/often" "$work/once" to "$work/unread" 2> "$work/err" &
keeper=$!
sleep 60 < "$work/unread" &
for _ in $(seq 8000); do cat "$work/frames/0000" && echo >> "$work/written"; done 2> /dev/null > "$work/often" &
writer=$!
written=-1
while sleep 0.5 && [ "$(wc -l < "$work/written")" -gt "$written" ]; do written=$(wc -l < "$work/written"); done
if kill -0 "$writer" 2> /dev/null; then pass; else fail 'an input waits for the only output' <<< "$written were written"; fi
cat "$work"/frames/* > "$work/once"
for _ in $(seq 100); do
    if cmp -s "$work/run.log" "$work/unheard"; then break; fi
    sleep 0.1
done
if cmp -s "$work/run.log" "$work/unheard"; then pass; else fail 'what comes beside an input that waits is logged' < "$work/err"; fi
stop "$keeper"
stop "$writer"

# A rest that is less than a frame is cut off.
size=$(wc -c < "$work/run.log")
head -c "$((size - 7))" "$work/run.log" > "$work/begun"
make_log 0 "$work/torn" "$work/begun"
: > "$work/nothing"
refuses 'a torn log' 0 '' keeper "$image" 0 "$work/torn" from "$work/nothing" to "$work/acks"
is 'its rest is cut off' "$((size - $(wc -c < "$work/frames/$(ls "$work/frames" | tail -n 1)")))" "$(wc -c < "$work/torn")"

# Words.
refuses 'no words' 2 'fault usage'
refuses 'a keeper without outputs' 2 'fault usage' keeper "$image" 0 "$work/log" from "$work/run.log"
refuses 'a sixth keeper' 2 'fault usage' keeper "$image" 5 "$work/log" from "$work/run.log" to "$work/acks"
refuses 'a log of a fourth keeper of three' 2 'fault usage' make "$image" 3 3 2 "$pair" "$work/none"
refuses 'a pair of another form' 2 'fault usage' make "$image" 0 3 2 "${pair%?}" "$work/none"
refuses 'a pair in upper case' 2 'fault usage' make "$image" 0 3 2 0123456789ABCDEF "$work/none"
refuses 'term 0' 2 'fault usage' hand "$image" 0 "$work/log" 0
refuses 'a number of another form' 2 'fault usage' hand "$image" 00 "$work/log" 1

# Logs.
make_log 0 "$work/broken" "$work/run.log"
printf 'x' >> "$work/broken"
refuses 'a log at fault' 1 'fault log frame 1' keeper "$image" 0 "$work/broken" from "$work/nothing" to "$work/acks"
is 'it is left as it is' "$((size + 1))" "$(wc -c < "$work/broken")"
refuses 'a log at fault, handed over' 1 'fault log frame 1' hand "$image" 0 "$work/broken" 2
"$workbench" run "$top/samples/hand_over.image" "$top/samples/hand_over.script" 100 "$work/other.log" > "$work/other.text"
make_log 0 "$work/foreign" "$work/other.log"
refuses "another guest's log" 1 'fault log guest' keeper "$image" 0 "$work/foreign" from "$work/nothing" to "$work/acks"
refuses "another guest's log, handed over" 1 'fault log guest' hand "$image" 0 "$work/foreign" 2
mkfifo "$work/waits"
"$live" keeper "$image" 4 "$work/log" from "$work/waits" to "$work/acks" &
holder=$!
for _ in $(seq 100); do
    if [ "$(grep -c '^again 4' "$work/acks")" -gt 3 ]; then break; fi
    sleep 0.05
done
refuses 'a log that another keeper has' 1 'fault log locked' keeper "$image" 4 "$work/log" from "$work/nothing" to "$work/acks"
stop "$holder"

# Terms.
refuses 'a log is handed over' 0 '' hand "$image" 4 "$work/log" 3
is 'its first line' "pair 5 3 $pair" "$(head -n 1 "$work/out" | sed 's/ [0-9a-f]*$//')"
is 'its second line' "handed 3 4 $size" "$(sed -n 2p "$work/out" | sed 's/ [0-9a-f]*$//')"
refuses 'to the same term' 1 'fault fence 3' hand "$image" 4 "$work/log" 3
printf 'fence 9 0000' >> "$work/log.fences"
refuses 'behind a torn fence' 0 '' hand "$image" 4 "$work/log" 4
refuses 'to an earlier term' 1 'fault fence 4' hand "$image" 4 "$work/log" 2
: > "$work/acks"
refuses 'a keeper behind its fence' 0 '' keeper "$image" 4 "$work/log" from "$work/run.log" to "$work/acks"
is 'it acknowledges nothing of an earlier term' 'again 4' "$(sed 's/ [0-9a-f]*$//' "$work/acks")"

# Inputs and outputs.
printf 'VFx' > "$work/bad"
for n in 1 2 4 5 6; do make_log 0 "$work/new.$n"; done
"$live" make "$top/samples/hand_over.image" 0 5 3 "$pair" "$work/new.3"
refuses 'an input at fault' 1 'fault input 1 frame 2' keeper "$image" 0 "$work/new.1" from "$work/run.log" "$work/bad" to "$work/acks"
if cmp -s "$work/run.log" "$work/new.1"; then pass; else fail 'the other input is taken' < /dev/null; fi
refuses "another guest's frames" 1 'fault input 0 guest' keeper "$image" 0 "$work/new.2" from "$work/other.log" to "$work/acks"
is 'they are not taken' 0 "$(wc -c < "$work/new.2")"
printf '0 5 word 0000002b\n' > "$work/script"
"$workbench" run "$top/samples/hand_over.image" "$work/script" 100 "$work/clash.log" > "$work/out"
"$live" keeper "$top/samples/hand_over.image" 0 "$work/new.3" from "$work/other.log" to "$work/acks"
refuses 'a frame that clashes' 1 'fault input 0 clash' keeper "$top/samples/hand_over.image" 0 "$work/new.3" from "$work/clash.log" to "$work/acks"
if cmp -s "$work/other.log" "$work/new.3"; then pass; else fail 'the log is left as it was' < /dev/null; fi
refuses 'an input that is not there' 1 "fault file $work/none: No such file or directory (os error 2)" keeper "$image" 0 "$work/new.4" from "$work/none" to "$work/acks"
refuses 'an output that is full' 1 'fault file /dev/full: No space left on device (os error 28)' keeper "$image" 0 "$work/new.5" from "$work/waits" to /dev/full
"$live" hand "$image" 0 "$work/new.5" 1 > /dev/full 2> "$work/err"
is 'standard output that is full' 'fault write' "$(faults "$work/err")"
(
    trap '' XFSZ
    ulimit -f 1
    exec "$live" keeper "$image" 0 "$work/new.6" from "$work/run.log" to /dev/null
) 2> "$work/err"
is 'a disk that is full' "fault file $work/new.6: File too large (os error 27)" "$(faults "$work/err")"
refuses 'a log that failed' 1 'fault log failed' keeper "$image" 0 "$work/new.6" from "$work/run.log" to "$work/acks"
refuses 'a log that failed, handed over' 1 'fault log failed' hand "$image" 0 "$work/new.6" 1
rm "$work/new.6.failed"
refuses 'its log begins again' 0 '' keeper "$image" 0 "$work/new.6" from "$work/run.log" to "$work/acks"
if cmp -s "$work/run.log" "$work/new.6"; then pass; else fail 'it comes to the end' < /dev/null; fi

echo "of $(awk '{ sum += $1 } END { print sum + 0 }' "$work/tally") acknowledgements each lies inside what was handed over, unless it is told above"
echo "a keeper that was killed within a frame passed a connection over $(wc -l < "$work/passed.over") times"
echo "$passed passed, $failed failed"
[ "$failed" = 0 ]
