#!/bin/bash
# renew.sh [LIVE [WORKBENCH [ROUNDS [SEED [REQUESTS]]]]]: a primary, three keepers of whom two must hold an answer, and a client, each a process of its own, over FIFOs. In
# each of so many rounds the disks of all three keepers are lost, one behind the other, at random moments while requests go on: log and fences are removed, the two others
# hand over to the next term, and what they handed over makes the keeper a new log (`live renew`) beside the next primary. The client must have the answers that the guest
# gives to requests that are taken in order, each once, and the machine to which the three new logs lead must have those outputs and no others. Then one round in which a
# lost log is made anew with nothing in it: there answers must be lost or contradict, or the rounds before show nothing. Then what `renew` refuses. LIVE and WORKBENCH are
# the built programs, by themselves those that `rt run` leaves. The last line is 'N passed, N failed'. Needs bash and mkfifo.
. "$(dirname "$0")/common.sh"
rounds=${3:-10}
RANDOM=${4:-1}
many=${5:-2000}
guest=service
image=$top/guests/images/$guest.image

# lead FOLDER TERM SITE: a primary of the term, from what was handed over; its process is then `started`.
lead() {
    local at=$1 s=$3
    "$live" primary "$image" "$2" 3 2 in "$at/in.$s" out "$at/out.$s" to "$at/frames.0.$s" "$at/frames.1.$s" "$at/frames.2.$s" \
        from "$at/acks.0.$s" "$at/acks.1.$s" "$at/acks.2.$s" with "${handed[@]}" 2>> "$at/faults.primary" &
    started=$!
}

# begin FOLDER: FIFOs and keepers.
begin() {
    local k s
    mkdir "$1"
    for s in a b; do
        mkfifo "$1/in.$s" "$1/out.$s"
        for k in 0 1 2; do mkfifo "$1/frames.$k.$s" "$1/acks.$k.$s"; done
    done
    for k in 0 1 2; do
        make_log "$k" "$1/log.$k"
        keep "$1" "$k"
        keeper[$k]=$started
    done
}

# lose FOLDER K: the keeper ends, and what it had on disk is gone.
lose() {
    stop "${keeper[$2]}"
    rm -f "$1/log.$2" "$1/log.$2.fences"
}

# again FOLDER K TERM: the keeper has a log again, of what was handed over.
again() {
    if ! "$live" renew "$image" "$2" "$1/log.$2" "$3" "${handed[@]}" 2> "$1/refused"; then
        fail "$1: renew $2 for term $3" < "$1/refused"
    fi
}

# lost ROUND: the disks of all keepers are lost, one behind the other.
lost() {
    local at=$work/lost.$1 term=1 site=a other=b losses=0 victim others primary client swap window=$((1 + RANDOM % 4))
    begin "$at"
    ask "$((RANDOM * 32768 + RANDOM))" "$at" client
    choose
    hand "$at" 1 "$at/log" $heirs
    lead "$at" 1 a
    primary=$started
    : > "$at/answers"
    "$live" client "$at/client.words" "$window" 300 to "$at/in.a" "$at/in.b" from "$at/out.a" "$at/out.b" > "$at/answers" 2> "$at/faults.client" &
    client=$!
    for victim in $(shuf -e 0 1 2 --random-source=<(yes "$RANDOM")); do
        losses=$((losses + 1))
        has "$at/answers" "$((losses * many / 4 - RANDOM % (many / 8)))" "$client"
        blink
        lose "$at" "$victim"
        # The pair goes on for a while with the two that are left, and answers what the third never held.
        nap 2
        others=$(seq 0 2 | grep -vx "$victim")
        term=$((term + 1))
        if [ "$((RANDOM % 2))" = 0 ]; then stop "$primary"; fi
        hand "$at" "$term" "$at/log" $others
        again "$at" "$victim" "$term"
        stop "$primary"
        if [ "$((RANDOM % 2))" = 0 ]; then
            keep "$at" "$victim"
            keeper[$victim]=$started
        fi
        swap=$site site=$other other=$swap
        lead "$at" "$term" "$site"
        primary=$started
        if ! runs "${keeper[$victim]}"; then
            nap
            keep "$at" "$victim"
            keeper[$victim]=$started
        fi
    done
    ends "$client"
    if runs "$client"; then fail "round $1: the client comes to its end" < "$at/answers"; fi
    stop "$client"
    for victim in 0 1 2; do stop "${keeper[$victim]}"; done
    stop "$primary"
    same "round $1: the answers, with $window under way" "$at/client.wanted" "$at/answers"
    outputs "$at" "$at/outputs"
    same "round $1: each request stands once in the logs" "$at/client.wanted" "$at/outputs"
    faults "$at/faults.client" "$at/faults.primary" > "$at/faults"
    if [ -s "$at/faults" ]; then fail "round $1: a fault" < "$at/faults"; else pass; fi
    wc -l < "$at/answers" >> "$work/tally"
    rm -rf "$at"
}

# refuses WHAT STATUS LINE WORDS..: what the words are answered, on standard error, with this status.
refuses() {
    local what=$1 status=$2 line=$3 got
    shift 3
    "$live" "$@" > "$work/out" 2> "$work/err" < /dev/null
    got=$?
    is "$what: status" "$status" "$got"
    is "$what: line" "$line" "$(faults "$work/err")"
}

for number in $(seq "$rounds"); do lost "$number"; done

# An empty log in the place of a lost one: with the other that held an answer its quorum hands over, and the answer is not in the next machine.
at=$work/empty
begin "$at"
ask 7 "$at" client
hand "$at" 1 "$at/log" 0 1
# Keeper 2 hears nothing: keepers 0 and 1 hold each answer.
stop "${keeper[2]}"
lead "$at" 1 a
primary=$started
: > "$at/answers"
"$live" client "$at/client.words" 1 300 to "$at/in.a" from "$at/out.a" > "$at/answers" 2> /dev/null &
client=$!
has "$at/answers" 200 "$client"
stop "$client"
stop "$primary"
lose "$at" 1
make_log 1 "$at/log.1"
hand "$at" 2 "$at/log" 1 2
for k in 0 1; do stop "${keeper[$k]}"; done
"$workbench" replay "$image" "$at/log.1" "$at/log.2" > "$at/text" 2>&1
if grep -q '^out' "$at/text"; then fail 'an empty log in the place of a lost one loses answers' < "$at/text"; else pass; fi

# What renew makes, and refuses.
for k in 0 1 2; do make_log "$k" "$work/log.$k"; done
hand "$work" 3 "$work/log" 0 1
refuses 'a log is there' 1 'fault log there' renew "$image" 2 "$work/log.2" 3 "${handed[@]}"
refuses 'a new log' 0 '' renew "$image" 2 "$work/new" 3 "${handed[@]}"
refuses 'it is fenced off for the term' 1 'fault fence 3' hand "$image" 2 "$work/new" 3
refuses 'and hands over to a later one' 0 '' hand "$image" 2 "$work/new" 4
refuses 'of one other alone' 1 'fault live 1' renew "$image" 2 "$work/few" 3 "${handed[0]}"
refuses 'of one other twice' 1 'fault live 1' renew "$image" 2 "$work/few" 3 "${handed[0]}" "${handed[0]}"
refuses 'for another term' 1 'fault handed term' renew "$image" 2 "$work/few" 4 "${handed[@]}"
refuses 'of its own' 1 'fault handed keeper' renew "$image" 1 "$work/few" 3 "${handed[@]}"
refuses "of no keeper's number" 1 'fault log keeper' renew "$image" 3 "$work/few" 3 "${handed[@]}"
refuses 'of what is no file' 1 "fault file $work/none: No such file or directory (os error 2)" renew "$image" 2 "$work/few" 3 "${handed[0]}" "$work/none"
head -c -1 "${handed[1]}" > "$work/torn"
refuses 'of a torn one' 1 'fault handed 1 line' renew "$image" 2 "$work/few" 3 "${handed[0]}" "$work/torn"
for name in few few.fences few.failed; do if [ -e "$work/$name" ]; then fail "what is refused leaves no $name" < /dev/null; else pass; fi; done
: > "$work/half.failed"
refuses 'beside a mark' 1 'fault log there' renew "$image" 2 "$work/half" 3 "${handed[@]}"

tell
