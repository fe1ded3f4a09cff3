#!/bin/bash
# paths.sh [LIVE [WORKBENCH]]: paths between the processes of a pair that are torn, are removed, or are read by nobody, a row each: who is at another one goes on, and
# nobody waits. LIVE and WORKBENCH are the built programs, by themselves those that `rt run` leaves. In some forty seconds; the last line is 'N passed, N failed'.
# Needs bash, mkfifo and timeout.
. "$(dirname "$0")/common.sh"
# What the system says of a file that is not there.
gone=': No such file or directory (os error 2)'
image=$work/image
# A guest of one hart that says each word that it is given.
printf '%s\n' 'harts 1' 'pages 1' f00000b7 00000293 00001337 00135313 0040a103 fe510ee3 0060a623 0000a183 00010293 0030a423 fe9ff06f > "$image"

# words MANY: so many words, one a line; those of more begin with those of fewer.
words() { awk -v many="$1" 'BEGIN { for (i = 1; i <= many; i++) printf "%08x\n", i }'; }

# begin NAME [S..]: a folder of its own with the FIFOs of these sites, a site's name being a suffix, and keepers 0 to 2 over them; they acknowledge by a path each, or,
# with acks=one, all by that of keeper 0.
declare -A keeper
begin() {
    local s k
    for k in "${!keeper[@]}"; do stop "${keeper[$k]}"; done
    mkdir "$work/$1"
    cd "$work/$1" || exit 2
    shift
    sites=("$@")
    for s in "$@"; do
        mkfifo "in$s" "out$s"
        for k in 0 1 2; do mkfifo "frames.$k$s" "acks.$k$s"; done
    done
    if [ $# = 0 ]; then return; fi
    for k in 0 1 2; do
        make_log "$k" "log.$k"
        keep "$k"
    done
    sleep 0.3
}

# keep K: starts keeper K.
keep() {
    local k=$1 s from=() to=()
    for s in "${sites[@]}"; do
        from+=("frames.$k$s")
        to+=("acks.$(path "$k")$s")
    done
    "$live" keeper "$image" "$k" "log.$k" from "${from[@]}" to "${to[@]}" 2>> "faults.$k" &
    keeper[$k]=$!
}

# lead TERM SITE K..: these keepers hand over to the term, and a primary leads it.
lead() {
    local term=$1 s=$2 k from=()
    shift 2
    hand . "$term" log "$@"
    for k in 0 1 2; do if [ "$(path "$k")" = "$k" ]; then from+=("acks.$k$s"); fi; done
    "$live" primary "$image" "$term" 3 2 in "in$s" out "out$s" to "frames.0$s" "frames.1$s" "frames.2$s" from "${from[@]}" with "${handed[@]}" 2>> faults.primary &
    primary=$!
}

# ask WHAT SITE MANY [SECONDS]: whether so many words are all answered in time.
ask() {
    words "$3" > words
    timeout "${4:-20}" "$live" client words 8 200 to "in$2" from "out$2" > answers 2> faults.client
    local status=$?
    is "$1" "0 $3 $(tail -n 1 words)" "$status $(wc -l < answers) $(tail -n 1 answers | cut -d ' ' -f 4)"
}

# A keeper that is paused finds half of a frame of a primary that is gone, and behind it, on the same connection, frames of the next ones.
begin torn ''
lead 1 '' 0 1
ask 'term 1' '' 2000
kill -STOP "${keeper[0]}"
stop "$primary"
lead 2 '' 1 2
ask 'term 2' '' 2001
stop "$primary"
lead 3 '' 1 2
ask 'term 3' '' 2002
kill -CONT "${keeper[0]}"
sleep 1
stop "${keeper[1]}"
ask 'a keeper that was paused is heard again' '' 2003 30
stop "$primary"

# The FIFOs of a site are removed, and then its primary is gone: keepers say once that theirs fail, and go on at the other site.
begin removed .a .b
lead 1 .a 0 1
ask 'at the first site' .a 50
rm in.a out.a frames.*.a acks.*.a
stop "$primary"
sleep 0.5
lead 2 .b 0 1
ask 'paths of another site are removed' .b 100
for k in 0 1 2; do is "keeper $k runs" yes "$(runs "${keeper[$k]}" && echo yes)"; done
sleep 1
is 'each path is told once' "fault file acks.0.a$gone fault file frames.0.a$gone" "$(faults faults.0 | sort | tr '\n' ' ' | sed 's/ $//')"
stop "$primary"

# The path to a keeper is removed, which is gone.
begin one ''
lead 1 '' 0 1
ask 'a primary with all paths' '' 50
stop "${keeper[2]}"
rm frames.2
ask 'a path to one keeper is removed' '' 100
is 'the path is told' "fault file frames.2$gone" "$(faults faults.primary)"
mkfifo frames.2
keep 2
sleep 1.5
stop "${keeper[0]}"
ask 'its keeper is back, and another one gone' '' 150

# No keeper is there, and one word is asked for again and again: nothing new comes of it.
for k in 1 2; do stop "${keeper[$k]}"; done
before=$(wc -c < log.2)
words 151 > words
timeout 3 "$live" client words 1 1 to in from out > /dev/null 2>&1
keep 1
keep 2
ask 'a word that was asked for again and again' '' 151
grown=$(($(wc -c < log.2) - before))
is 'what is asked again does not make the log grow' yes "$([ "$grown" -lt 50000 ] && echo yes || echo "$grown bytes")"
stop "$primary"

# Who holds the path of answers open, reads nothing, and says behind each answer that it has read it, makes nobody wait: with a path for what each keeper acknowledges, and
# with one for all.
liar() {
    local n
    exec 5< out 6> in
    for n in $(seq 0 8 2999); do
        printf '0 word %08x %d\n' $((n + 1)) "$n" $((n + 2)) $((n + 1)) $((n + 3)) $((n + 2)) $((n + 4)) $((n + 3)) $((n + 5)) $((n + 4)) \
            $((n + 6)) $((n + 5)) $((n + 7)) $((n + 6)) $((n + 8)) $((n + 7)) >&6
        sleep 0.002
        printf '0 from %d\n' $((n + 8)) >&6
    done
    : > lied
    exec sleep 60
}
for acks in each one; do
    begin "lies.$acks" ''
    lead 1 '' 0 1
    sleep 0.3
    liar &
    liar=$!
    for _ in $(seq 300); do if [ -e lied ]; then break; fi; sleep 0.1; done
    sleep 0.5
    before=$(wc -c < log.0)
    printf '0 word 00000bb9 3000\n' | timeout 2 tee in > /dev/null
    sleep 1
    is "who says that it has read makes nobody wait, acks=$acks" yes "$([ "$(wc -c < log.0)" -gt "$before" ] && echo yes)"
    # What keepers say is heard: one that lost its log asks for all frames.
    stop "${keeper[2]}"
    rm log.2 log.2.fences
    make_log 2 log.2
    keep 2
    for _ in $(seq 20); do printf '0 word 00000bb9 3000\n' | timeout 2 tee in > /dev/null; done
    sleep 2
    is "and what keepers say is heard, acks=$acks" yes "$([ "$(wc -c < log.2)" -ge "$before" ] && echo yes || wc -c log.2 log.0)"
    stop "$liar"
    ask "others are answered behind it, acks=$acks" '' 3001
    stop "$primary"
done
acks=each

# A keeper with two inputs and one output, whose reader reads nothing: while the input that brought a frame waits for it, what comes by the other one goes to the log.
begin beside
words 30 | awk '{ print "0 word", $1, NR - 1 }' > requests
: > none
: > answers
: > frames
"$live" make "$image" 0 1 1 "$pair" first
"$live" hand "$image" 0 first 1 > handed
"$live" primary "$image" 1 1 1 in requests out answers to frames from none with handed 2>> faults
at=$((40 + $(od -An -tu4 -j4 -N4 frames)))
size=$((40 + $(od -An -tu4 -j$((at + 4)) -N4 frames)))
head -c "$at" frames > frame.0
tail -c +$((at + 1)) frames | head -c "$size" > frame.1
cat frame.0 frame.1 > wanted
late=0
for n in 0 1 2 3 4 5 6 7 8 9; do
    rm -f a b acks log log.fences
    make_log 0 log
    mkfifo a b acks
    exec 7<> acks
    head -c 65516 /dev/zero >&7 # room for `again 0 S` alone
    "$live" keeper "$image" 0 log from a b to acks 2>> faults &
    beside=$!
    exec 8> a 9> b
    sleep 0.1
    cat frame.0 >&8
    if [ "$n" != 0 ]; then sleep "0.000$n"; fi
    cat frame.1 >&9
    sleep 0.5
    if [ "$(wc -c < log)" != "$(wc -c < wanted)" ]; then late=$((late + 1)); fi
    stop "$beside"
    exec 7>&- 8>&- 9>&-
done
is 'what comes beside an input that waits is in the log' 0 "$late"

echo "$passed passed, $failed failed"
[ "$failed" = 0 ]
