#!/bin/bash
# mend.sh [LIVE [WORKBENCH]]: what `live check` tells of logs, and how `live mend` mends them: bytes behind what was brought to disk, frames that lack, a frame that turned,
# logs of another pair or guest, frames that clash, a log that a keeper has. LIVE and WORKBENCH are the built programs, by themselves those that `rt run` leaves.
# The last line is 'N passed, N failed'. Needs bash, GNU od, mkfifo and timeout.
set -u
top=$(cd "$(dirname "$0")/../.." && pwd)
live=${1:-$top/crates/live/out/live}
workbench=${2:-$top/crates/workbench/out/workbench}
image=$top/samples/four_harts.image
other=$top/samples/hand_over.image
work=$(mktemp -d)
passed=0
failed=0

# Ends what this script started, and nothing else.
finish() {
    { kill -9 $(jobs -rp); wait; } 2> /dev/null
    rm -rf "$work"
}
trap finish EXIT
trap 'exit 1' INT TERM

for program in "$live" "$workbench"; do
    if [ ! -x "$program" ]; then
        echo "there is no $program: build it by .ci/run, or by rt run in its folder"
        exit 2
    fi
done
cd "$work" || exit 2

pass() { passed=$((passed + 1)); }

# faults FILE..: the lines of these files that are no notes.
faults() { grep -hv '^note ' "$@"; }

# fail WHAT: counts it, and shows what standard input has of it.
fail() {
    failed=$((failed + 1))
    echo "failed: $1"
    sed -n '1,20s/^/    /p'
}

# is WHAT WANTED GOT: whether two texts are one.
is() {
    if [ "$2" = "$3" ]; then pass; else fail "$1" < <(printf 'wanted: %s\ngot: %s\n' "$2" "$3"); fi
}

# says WHAT STATUS LINE WORDS..: the status and the line of fault of a program, whose output is then in `out`.
says() {
    local what=$1 status=$2 line=$3 got
    shift 3
    timeout 20 "$live" "$@" > out 2> err
    got=$?
    is "$what" "$status $line" "$got $(faults err)"
}

# make K LOG [FRAMES]: makes keeper K's log, of a pair of three, with the bytes of a file.
pair=$(od -An -N8 -tx8 /dev/urandom | tr -d ' ')
make() {
    "$live" make "$image" "$1" 3 2 "$pair" "$2" || fail "make $2" < /dev/null
    if [ $# = 3 ]; then cat "$3" > "$2"; fi
}

# counts LOG: the position of the frames of a log.
counts() { "$workbench" cut "$image" "$1" | tail -n 1; }

# sizes LOG: the sizes of its frames.
sizes() {
    local size at=0 body
    size=$(wc -c < "$1")
    while [ "$at" -lt "$size" ]; do
        body=$(od -An -tu4 --endian=little -j "$((at + 4))" -N 4 "$1" | tr -d ' ')
        echo "$((body + 40))"
        at=$((at + body + 40))
    done
}

"$workbench" run "$image" "$top/samples/four_harts.script" 20000 all > machine
many=$(sizes all | wc -l)
size=$(wc -c < all)
half=$(sizes all | head -n $((many / 2)) | awk '{ n += $1 } END { print n }')
head -c "$half" all > front
place=$(counts all | sed 's/ top [0-9]*//')
head -c 512 /dev/zero > zeros

# What is told of a log.
make 0 new
says 'a log that was made' 0 '' check "$image" new
is 'has nothing' "keeper 0 keepers 3 need 2 pair $pair
fence 0
bytes 0
frames 0 bytes 0
last term 0
position term 0 counts 0 0 0 0
grant 1
rest 0" "$(cat out)"
make 1 whole all
says 'a whole log' 0 '' check "$image" whole
is 'has all' "keeper 1 keepers 3 need 2 pair $pair
fence 0
bytes $size
frames $many bytes $size
last term 1
$place
grant 2
rest 0" "$(cat out)"
"$live" hand "$image" 1 whole 7 > handed
says 'a log that was fenced off' 0 '' check "$image" whole
is 'has its fence' 'fence 7' "$(sed -n 2p out)"
is 'and the next term' 'grant 8' "$(sed -n 7p out)"
"$live" hand "$image" 1 whole 36864 > handed
says 'a log that a candidate asked for' 0 '' check "$image" whole
is 'has the next round for a person' 'grant 65536' "$(sed -n 7p out)"
make 0 torn front
head -c 20 all >> torn
says 'a log that is torn' 0 '' check "$image" torn
is 'has a rest' 'rest 20' "$(tail -n 1 out)"

# Bytes behind what was brought to disk: the log is cut there, and gets what lacks.
make 0 behind front
cat zeros >> behind
says 'bytes behind' 1 'fault log frame 1' check "$image" behind
is 'have a place' "fault 1 byte $half" "$(tail -n 1 out)"
says 'are cut off' 0 '' mend "$image" behind behind
is 'and nothing else is' "$(sha256sum < front)" "$(sha256sum < behind)"
cat zeros >> behind
cp behind.fences was.fences
says 'what lacks comes from another log' 0 '' mend "$image" behind whole
says 'then a keeper begins' 0 '' check "$image" behind
is 'with all' "$place" "$(sed -n 6p out)"
is 'behind its own frames' "$(sha256sum < front)" "$(head -c "$half" behind | sha256sum)"
is 'its fences stay' "$(sha256sum < was.fences)" "$(sha256sum < behind.fences)"
says 'once more adds nothing' 0 '' mend "$image" behind whole new
is 'since nothing lacks' "$size" "$(wc -c < behind)"
make 2 most front
cat zeros >> most
says 'of another log its front is taken' 0 '' mend "$image" new most
is 'and no more' "$(sha256sum < front)" "$(sha256sum < new)"

# kept WHAT LINE FROM: the log `mine` is not mended from it, and stays.
kept() {
    local was
    was=$(cat mine mine.fences | sha256sum)
    says "$1" 1 "$2" mend "$image" mine "$3"
    is "$1: it stays" "$was" "$(cat mine mine.fences | sha256sum)"
}
make 0 mine front
printf '\001' | dd of=mine bs=1 seek=20 conv=notrunc 2> /dev/null
says 'a frame that turned' 1 'fault log frame 5' check "$image" mine
kept 'whole frames stand behind it' 'fault log behind' whole
cat front zeros > mine
"$live" make "$image" 1 3 2 "$(echo "$pair" | tr 0-9a-f 1-9a-f0)" foreign
kept 'a log of another pair' 'fault from 0 pair' foreign
cp whole bare
kept 'a log without fences' 'fault file bare.fences: No such file or directory (os error 2)' bare
"$live" make "$other" 1 3 2 "$pair" theirs
kept 'a log of another guest' 'fault from 0 line' theirs
cp whole.fences gone.fences
kept 'no log' 'fault file gone: No such file or directory (os error 2)' gone
cat "$top/samples/four_harts.script" > script
echo '0 1 word 00000077' >> script
"$workbench" run "$image" script 20000 unlike > machine
make 2 clash unlike
kept 'frames that clash' 'fault from 0 clash' clash
mkfifo frames acks
exec 7<> frames 8<> acks
cat front > mine
"$live" keeper "$image" 0 mine from frames to acks 2> err.keeper &
read -r -t 10 line <&8
kept 'a log that a keeper has' 'fault log locked' whole
says 'it is looked at beside the keeper' 0 '' check "$image" mine
kill -9 $! 2> /dev/null
touch mine.failed
kept 'a log that failed' 'fault log failed' whole
says 'it is told' 1 'fault log failed' check "$image" mine
cp mine copied
cp mine.fences copied.fences
says 'a copy is none' 1 'fault log other' mend "$image" copied whole
says 'and is told' 1 'fault log other' check "$image" copied

# All three keepers of a pair have bytes behind what was brought to disk.
for k in 0 1 2; do
    make $k log.$k front
    cat zeros >> log.$k
    says "keeper $k does not begin" 1 'fault log frame 1' hand "$image" $k log.$k 2
done
for k in 0 1 2; do says "keeper $k is mended" 0 '' mend "$image" log.$k log.$(((k + 1) % 3)) log.$(((k + 2) % 3)); done
for k in 0 1 2; do says "keeper $k hands over" 0 '' hand "$image" $k log.$k 3; done

echo "$passed passed, $failed failed"
[ "$failed" = 0 ]
