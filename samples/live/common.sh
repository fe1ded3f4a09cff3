# What the drills of `live` share: read by drill.sh, power.sh, carried.sh and paths.sh, which are given LIVE and WORKBENCH, the built programs, by themselves those that
# `rt run` leaves. It sets `live`, `workbench`, `top` and the folder `work`, which goes at the end with all that the script started.
set -u
top=$(cd "$(dirname "$0")/../.." && pwd)
live=${1:-$top/crates/live/out/live}
workbench=${2:-$top/crates/workbench/out/workbench}
work=$(mktemp -d)
passed=0
failed=0
: > "$work/tally"

# Ends what this script started, and nothing else.
finish() {
    { kill -9 $(jobs -rp); wait; } 2> /dev/null
    rm -rf "$work"
}
trap finish EXIT
trap 'exit 1' INT TERM

for program in "$live" "$workbench"; do
    if [ ! -x "$program" ]; then
        echo "there is no $program: build it by .ci/run, or by rt run in its folder"
        exit 2
    fi
done

pass() { passed=$((passed + 1)); }

# fail WHAT: counts it, and shows what standard input has of it.
fail() {
    failed=$((failed + 1))
    echo "failed: $1"
    sed -n '1,20s/^/    /p'
}

# faults FILE..: the lines of these files that are no notes.
faults() { grep -hv '^note ' "$@"; }

# same WHAT WANTED GOT: whether two files are one.
same() {
    if cmp -s "$2" "$3"; then pass; else fail "$1" < <(diff "$2" "$3"); fi
}

# Whether a process that this script started runs.
runs() { jobs -rp | grep -qx "$1"; }

# stop PROCESS: kills it, where it runs, as a machine that stops would.
stop() { if runs "$1"; then { kill -9 "$1" && wait "$1"; } 2> /dev/null; fi; }

# ask SEED FOLDER NAME: writes `many` random requests of the guest, and its answers to them, each as the client prints it.
ask() { awk -v seed="$1" -v many="$many" -v words="$2/$3.words" -v answers="$2/$3.wanted" -f "$top/samples/live/$guest.awk"; }

# The name of the pairs, of three keepers of whom two must hold an answer.
pair=$(od -An -N8 -tx8 /dev/urandom | tr -d ' ')

# make_log K LOG: makes keeper K's log.
make_log() { if ! "$live" make "$image" "$1" 3 2 "$pair" "$2" 2> "$work/unmade"; then fail "make $2" < "$work/unmade"; fi; }

# Keepers acknowledge by a path each, or, with ACKS=one, all by one.
acks=${ACKS:-each}

# path K: the number of the path by which keeper K acknowledges.
path() { if [ "$acks" = one ]; then echo 0; else echo "$1"; fi; }

# keep FOLDER K: starts keeper K, whose process is then `started`.
keep() {
    "$live" keeper "$image" "$2" "$1/log.$2" from "$1/frames.$2.a" "$1/frames.$2.b" to "$1/acks.$(path "$2").a" "$1/acks.$(path "$2").b" 2>> "$1/faults.$2" &
    started=$!
}

# hand FOLDER TERM LOGS K..: what these keepers hand over to the term, from LOGS.K; its files are then `handed`.
hand() {
    local at=$1 term=$2 logs=$3 k
    shift 3
    handed=()
    for k in "$@"; do
        if ! "$live" hand "$image" "$k" "$logs.$k" "$term" > "$at/handed.$term.$k" 2> "$at/refused"; then fail "$at: hand $k to term $term" < "$at/refused"; fi
        handed+=("$at/handed.$term.$k")
    done
}

# Two of three keepers, which are then `heirs`.
choose() {
    local k=$((RANDOM % 3))
    heirs="$k $(((k + 1 + RANDOM % 2) % 3))"
}

# has FILE N PROCESS: waits until the file has N lines, or the process has ended.
has() {
    for _ in $(seq 20000); do
        if [ "$(wc -l < "$1")" -ge "$2" ] || ! runs "$3"; then return; fi
        sleep 0.002
    done
}

# ends PROCESS: waits until it has ended, for two minutes.
ends() {
    for _ in $(seq 1200); do
        if ! runs "$1"; then return; fi
        sleep 0.1
    done
}

# blink: sleeps less than a hundredth of a second, in which a client has some hundred answers.
blink() { sleep "0.00$((RANDOM % 10))"; }

# nap [TENTHS]: sleeps less than so many tenths of a second, or than one.
nap() { sleep "0.$((RANDOM % ${1:-1}))$((RANDOM % 10))"; }

# outputs FOLDER FILE: the outputs of the machine to which the keepers' logs lead, each as the client prints it.
outputs() {
    "$workbench" replay "$image" "$1/log.0" "$1/log.1" "$1/log.2" > "$1/text" 2>&1
    awk '$1 == "hart" { hart = $2 } $1 == "out" && hart == 0 { print "number", $2, "word", $6 }' "$1/text" > "$2"
}

# contradicts ONE OTHER: numbers to which two files of answers have different words.
contradicts() { awk 'NR == FNR { word[$2] = $4; next } $2 in word && word[$2] != $4 { print $2, word[$2], $4 }' "$1" "$2"; }

# is WHAT WANTED GOT: whether two texts are one.
is() {
    if [ "$2" = "$3" ]; then pass; else fail "$1" < <(printf 'wanted: %s\ngot: %s\n' "$2" "$3"); fi
}

# Tells what was counted; its status is whether nothing failed.
tell() {
    echo "of $(awk '{ sum += $1 } END { print sum + 0 }' "$work/tally") answers each is in the machine that goes on, unless it is told above"
    echo "$passed passed, $failed failed"
    [ "$failed" = 0 ]
}
