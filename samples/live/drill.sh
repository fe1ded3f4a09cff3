#!/bin/bash
# drill.sh [LIVE [WORKBENCH [ROUNDS [SEED [REQUESTS [PAUSES [GUEST]]]]]]]: a primary, three keepers of whom two must hold an answer, and a client, each a process of its own,
# over FIFOs. GUEST is `service` (guests/service) or `lua`, Lua as a service (guests/README.md). So many rounds in each of which the primary is killed (kill -9) twice at
# random moments, mostly a keeper too, and the next one goes live at another site from what two random keepers hand over. The client must have the answers that the guest
# gives to requests that are taken in order, each once, and the machine to which the keepers' logs lead must have those outputs and no others. Then PAUSES rounds, as many by
# themselves, in which the primary is paused (SIGSTOP), two keepers hand over, and it goes on (SIGCONT) beside the next one, each with a client of its own: no number may
# have two words. And one round in which copies of the logs are handed over, so that no keeper is fenced off: there they must contradict, or the rounds
# before show nothing. With ACKS=one keepers acknowledge by one path, and not by one each. LIVE and WORKBENCH are the built programs, by themselves those that
# `rt run` leaves. The last line is 'N passed, N failed'. Needs bash and mkfifo.
. "$(dirname "$0")/common.sh"
rounds=${3:-10}
RANDOM=${4:-1}
many=${5:-2000}
pauses=${6:-$rounds}
guest=${7:-service}
image=$top/guests/images/$guest.image
if [ "$guest" = lua ]; then image=$top/guests/out/-O2/lua.image; fi

# lead FOLDER TERM SITE: a primary of the term, from what was handed over; its process is then `started`.
lead() {
    local at=$1 s=$3 k from=("$1/acks.0.$3")
    if [ "$acks" = each ]; then for k in 1 2; do from+=("$at/acks.$k.$s"); done; fi
    "$live" primary "$image" "$2" 3 2 in "$at/in.$s" out "$at/out.$s" to "$at/frames.0.$s" "$at/frames.1.$s" "$at/frames.2.$s" \
        from "${from[@]}" with "${handed[@]}" 2>> "$at/faults.primary" &
    started=$!
}

# begin FOLDER: FIFOs and keepers.
begin() {
    local k s
    mkdir "$1"
    for s in a b; do
        mkfifo "$1/in.$s" "$1/out.$s"
        for k in 0 1 2; do mkfifo "$1/frames.$k.$s" "$1/acks.$k.$s"; done
    done
    for k in 0 1 2; do
        make_log "$k" "$1/log.$k"
        keep "$1" "$k"
        keeper[$k]=$started
    done
}

# killed ROUND: the primary is killed twice.
killed() {
    local at=$work/killed.$1 term=1 site=a other=b kills window=$((1 + RANDOM % 4)) victim when primary client swap
    begin "$at"
    ask "$((RANDOM * 32768 + RANDOM))" "$at" client
    choose
    hand "$at" 1 "$at/log" $heirs
    lead "$at" 1 a
    primary=$started
    : > "$at/answers"
    "$live" client "$at/client.words" "$window" 700 to "$at/in.a" "$at/in.b" from "$at/out.a" "$at/out.b" > "$at/answers" 2> "$at/faults.client" &
    client=$!
    for kills in 1 2; do
        has "$at/answers" "$((kills * many / 3 - RANDOM % (many / 4)))" "$client"
        blink
        victim=$((RANDOM % 3))
        when=$((RANDOM % 4))
        if [ "$when" = 0 ]; then stop "${keeper[$victim]}"; fi
        if ! runs "$primary"; then fail "round $1: the primary of term $term runs until it is killed" < "$at/faults.primary"; fi
        stop "$primary"
        if [ "$when" = 1 ]; then stop "${keeper[$victim]}"; fi
        term=$((term + 1))
        choose
        hand "$at" "$term" "$at/log" $heirs
        if [ "$when" = 2 ]; then stop "${keeper[$victim]}"; fi
        swap=$site site=$other other=$swap
        lead "$at" "$term" "$site"
        primary=$started
        if [ "$when" != 3 ]; then
            nap
            keep "$at" "$victim"
            keeper[$victim]=$started
        fi
    done
    ends "$client"
    if runs "$client"; then fail "round $1: the client comes to its end" < "$at/answers"; fi
    stop "$client"
    for victim in 0 1 2; do stop "${keeper[$victim]}"; done
    stop "$primary"
    same "round $1: the answers, with $window under way" "$at/client.wanted" "$at/answers"
    outputs "$at" "$at/outputs"
    same "round $1: each request stands once in the logs" "$at/client.wanted" "$at/outputs"
    faults "$at/faults.client" "$at/faults.primary" > "$at/faults"
    if [ -s "$at/faults" ]; then fail "round $1: a fault" < "$at/faults"; else pass; fi
    wc -l < "$at/answers" >> "$work/tally"
    rm -rf "$at"
}

# split ROUND LOGS..: the primary is paused, and goes on beside the next one. What is handed over are the logs, or copies of them.
split() {
    local at=$work/split.$1 first second one other k many=$many
    # Copies are made while the client has more to ask.
    if [ "$2" = copies ]; then many=$((many * 4)); fi
    begin "$at"
    ask "$((RANDOM * 32768 + RANDOM))" "$at" one
    ask "$((RANDOM * 32768 + RANDOM))" "$at" other
    choose
    hand "$at" 1 "$at/log" $heirs
    lead "$at" 1 a
    first=$started
    : > "$at/answers.one"
    "$live" client "$at/one.words" 3 700 to "$at/in.a" from "$at/out.a" > "$at/answers.one" 2> /dev/null &
    one=$!
    has "$at/answers.one" "$((RANDOM % (many / 3) + 2))" "$one"
    blink
    kill -STOP "$first"
    choose
    if [ "$2" = copies ]; then
        for k in $heirs; do
            make_log "$k" "$at/copy.$k"
            cat "$at/log.$k" > "$at/copy.$k"
        done
        hand "$at" 2 "$at/copy" $heirs
        kill -CONT "$first"
        has "$at/answers.one" "$((many / 2))" "$one"
        lead "$at" 2 b
    else
        hand "$at" 2 "$at/log" $heirs
        if [ "$((RANDOM % 2))" = 0 ]; then
            kill -CONT "$first"
            nap 9
            lead "$at" 2 b
        else
            lead "$at" 2 b
            second=$started
            nap 9
            kill -CONT "$first"
        fi
    fi
    second=$started
    : > "$at/answers.other"
    "$live" client "$at/other.words" 3 700 to "$at/in.b" from "$at/out.b" > "$at/answers.other" 2> "$at/faults.client" &
    other=$!
    ends "$other"
    nap
    stop "$one"
    stop "$other"
    stop "$first"
    stop "$second"
    for k in 0 1 2; do stop "${keeper[$k]}"; done
    contradicts "$at/answers.one" "$at/answers.other" > "$at/contradictions"
    if [ "$2" = copies ]; then
        if [ -s "$at/contradictions" ]; then pass; else fail "without a fence two primaries contradict each other" < /dev/null; fi
    else
        if [ -s "$at/contradictions" ]; then fail "split $1: numbers with two words" < "$at/contradictions"; else pass; fi
        if [ "$(wc -l < "$at/answers.other")" = "$many" ]; then pass; else fail "split $1: the next primary answers all" < "$at/faults.client"; fi
        outputs "$at" "$at/outputs"
        same "split $1: what the second client has is in the logs, each once" "$at/outputs" "$at/answers.other"
        wc -l < "$at/answers.one" >> "$work/tally"
    fi
    rm -rf "$at"
}

# refuses WHAT STATUS LINE WORDS..: what the words are answered, on standard error, with this status.
refuses() {
    local what=$1 status=$2 line=$3 got
    shift 3
    "$live" "$@" > "$work/out" 2> "$work/err" < /dev/null
    got=$?
    is "$what: status" "$status" "$got"
    is "$what: line" "$line" "$(faults "$work/err")"
}

# Files as inputs and outputs are read and written once, and a primary and a client end.
ask 1 "$work" files
awk '{ print "0 word", $1, NR - 1 }' "$work/files.words" > "$work/requests"
for name in none frames answers; do : > "$work/$name"; done
refuses 'a log is made' 0 '' make "$image" 0 1 1 "$pair" "$work/log.0"
"$live" hand "$image" 0 "$work/log.0" 1 > "$work/handed"
cp "$work/handed" "$work/again"
make_log 0 "$work/third"
"$live" hand "$image" 0 "$work/third" 1 > "$work/of.three"
leads=(in "$work/requests" out "$work/answers" to "$work/frames" from "$work/none" with)
refuses 'a primary over files' 0 '' primary "$image" 1 1 1 "${leads[@]}" "$work/handed"
is 'it tells nothing that no keeper has' 0 "$(wc -c < "$work/answers")"
cp "$work/frames" "$work/log.1"
for k in 0 2; do : > "$work/log.$k"; done
outputs "$work" "$work/outputs"
same 'its frames have each request once' "$work/files.wanted" "$work/outputs"
refuses 'it is started once more' 1 "fault file $work/handed: No such file or directory (os error 2)" primary "$image" 1 1 1 "${leads[@]}" "$work/handed"
refuses 'a client over files' 0 '' client "$work/files.words" 4 1000 to "$work/answers" from <(sed 's/number/term 1 hart 0 number/; s/word/step 1 word/' "$work/files.wanted")
same 'it prints the answers' "$work/files.wanted" "$work/out"

# What a primary and a client refuse.
refuses 'a primary without what was handed over' 2 'fault usage' primary "$image" 1 1 1 in "$work/none" out "$work/none" to "$work/none" from "$work/none"
refuses 'a need above the keepers' 2 'fault usage' primary "$image" 1 1 2 "${leads[@]}" "$work/again"
refuses 'two paths to three keepers' 2 'fault usage' primary "$image" 1 3 2 in "$work/none" out "$work/none" to "$work/none" "$work/none" from "$work/none" with "$work/again"
refuses 'another term' 1 'fault handed term' primary "$image" 2 1 1 "${leads[@]}" "$work/again"
refuses 'one of two keepers' 1 'fault live 1' primary "$image" 1 3 2 "${leads[@]}" "$work/of.three"
refuses 'another number of keepers' 1 'fault handed 0 quorum' primary "$image" 1 3 2 "${leads[@]}" "$work/again"
refuses 'nothing was handed over' 1 'fault handed 0 pair' primary "$image" 1 1 1 "${leads[@]}" "$work/none"
refuses "another guest's" 1 'fault handed 0 pair' primary "$top/samples/four_harts.image" 1 1 1 "${leads[@]}" "$work/again"
printf x >> "$work/again"
refuses 'a stream that goes on' 1 'fault handed 0 length' primary "$image" 1 1 1 "${leads[@]}" "$work/again"
printf '01070011\n0107\n' > "$work/bad.words"
refuses 'a word of another form' 1 'fault words line 2' client "$work/bad.words" 1 1000 to "$work/none" from "$work/none"
refuses 'no answers' 1 'fault unanswered 0' client "$work/files.words" 1 1000 to "$work/answers" from "$work/none"
refuses 'two answers to one word' 1 'fault contradiction' client "$work/files.words" 1 1000 to "$work/answers" from \
    <(printf 'term 1 hart 0 number 0 step 1 word 0000000%s\n' 1 2)
refuses 'no word may be open' 2 'fault usage' client "$work/files.words" 0 1000 to "$work/answers" from "$work/none"

for number in $(seq "$rounds"); do killed "$number"; done
for number in $(seq "$pauses"); do split "$number" logs; done
split 0 copies

tell
