#!/bin/bash
# breaks.sh [LIVE [WORKBENCH [BREAKS [SEED]]]]: a primary, three keepers of whom two must hold an answer, and a client, which reach each other by links: out of a FIFO, through two
# processes of socat and a socket between them, into another FIFO. So many times, 50 by themselves, links stand still at a random moment, and then ends of theirs are killed, with
# all that was under way there. No process of the pair is begun anew, and behind each few breaks twenty more answers must come within five seconds. They must be those that the guest gives
# to requests that are taken in order, each once, and those of the machine to which the keepers' logs lead. LIVE and WORKBENCH are the built programs, by themselves those that
# `rt run` leaves. In some minute; the last line is 'N passed, N failed'. Needs bash, mkfifo and socat.
. "$(dirname "$0")/common.sh"
breaks=${3:-50}
RANDOM=${4:-1}
many=200000
guest=service
image=$top/guests/images/$guest.image
links=(requests answers)
loops=()

# Ends all links, each end a process group of its own, and what else this script started.
end_links() {
    local loop
    for loop in "${loops[@]}"; do kill -9 -- "-$loop" 2> /dev/null; done
    finish
}
trap end_links EXIT

# end_of NAME ADDRESS ADDRESS: an end of a link, begun again whenever it ends.
end_of() {
    set -m
    while :; do
        socat -u "$2" "$3" &
        echo $! > "$work/end.$1"
        wait $!
        sleep 0.05
    done 2> /dev/null &
    set +m
    loops+=($!)
}

# link NAME FROM TO: what comes out of one FIFO goes into another one.
link() {
    mkfifo "$work/$2" "$work/$3"
    end_of "heard.$1" "UNIX-LISTEN:$work/socket.$1,unlink-early" "OPEN:$work/$3,wronly"
    end_of "said.$1" "OPEN:$work/$2,rdonly" "UNIX-CONNECT:$work/socket.$1"
}

# choose_links: one link, or all that bring frames, or acknowledgements, or all that there are: a machine between them stands still.
choose_links() {
    case $((RANDOM % 6)) in
        0) broken=(frames.0 frames.1 frames.2) ;;
        1) broken=(acks.0 acks.1 acks.2) ;;
        2) broken=("${links[@]}") ;;
        *) broken=("${links[RANDOM % ${#links[@]}]}") ;;
    esac
}

# break_links: links stand still for less than three tenths of a second, and then one end of each, or both, are killed.
break_links() {
    local name heard=() said=()
    choose_links
    for name in "${broken[@]}"; do
        heard+=("$(cat "$work/end.heard.$name")")
        said+=("$(cat "$work/end.said.$name")")
    done
    {
        kill -STOP "${heard[@]}"
        nap 3
        case $((RANDOM % 3)) in
            0) kill -9 "${heard[@]}" ;;
            1) kill -9 "${heard[@]}" "${said[@]}" ;;
            2) kill -9 "${said[@]}" && kill -CONT "${heard[@]}" ;;
        esac
    } 2> /dev/null
}

answered() { wc -l < "$work/answered"; }

# goes_on: whether twenty more answers come within five seconds.
goes_on() {
    local before since=${EPOCHREALTIME/./} now
    before=$(answered)
    for _ in $(seq 500); do
        sleep 0.01
        now=${EPOCHREALTIME/./}
        if [ "$(answered)" -ge "$((before + 20))" ]; then
            longest=$((now - since > longest ? now - since : longest))
            return 0
        fi
        if [ "$((now - since))" -ge 5000000 ]; then return 1; fi
    done
    return 1
}

link requests requests in
link answers out answers
for k in 0 1 2; do
    links+=("frames.$k" "acks.$k")
    link "frames.$k" "to.$k" "frames.$k"
    link "acks.$k" "acks.$k" "from.$k"
    make_log "$k" "$work/log.$k"
    "$live" keeper "$image" "$k" "$work/log.$k" from "$work/frames.$k" to "$work/acks.$k" 2>> "$work/faults.keepers" &
    processes+=($!)
done
hand "$work" 1 "$work/log" 0 1
"$live" primary "$image" 1 3 2 in "$work/in" out "$work/out" to "$work/to.0" "$work/to.1" "$work/to.2" from "$work/from.0" "$work/from.1" "$work/from.2" \
    with "${handed[@]}" 2> "$work/faults.primary" &
processes+=($!)
ask "$RANDOM" "$work" client
: > "$work/answered"
"$live" client "$work/client.words" 4 200 to "$work/requests" from "$work/answers" > "$work/answered" 2> "$work/faults.client" &
processes+=($!)

done=0
longest=0
while [ "$done" -lt "$breaks" ]; do
    few=$((1 + RANDOM % 4))
    for _ in $(seq "$few"); do
        nap 3
        break_links
        done=$((done + 1))
    done
    if ! goes_on; then
        fail "behind $done breaks, the last one of ${broken[*]}, answers come within five seconds" < <(tail -n 2 "$work"/faults.* "$work/answered")
        break
    fi
    pass
done
for process in "${processes[@]}"; do if runs "$process"; then pass; else fail 'each process runs to the end' < <(cat "$work"/faults.*); fi; done
for process in "${processes[@]}"; do stop "$process"; done
count=$(answered)
head -n "$count" "$work/answered" > "$work/got"
head -n "$count" "$work/client.wanted" > "$work/wanted"
same 'the answers' "$work/wanted" "$work/got"
outputs "$work" "$work/outputs"
head -n "$count" "$work/outputs" > "$work/held"
same 'each request stands once in the logs' "$work/got" "$work/held"
echo "$count" >> "$work/tally"
echo "behind $done breaks at most $((longest / 1000)) milliseconds went by before answers came again"
tell
