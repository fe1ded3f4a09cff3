#!/bin/bash
# carried.sh [LIVE [WORKBENCH [ROUNDS [SEED [REQUESTS [WAY]]]]]]: the pair over carriers. Each process has FIFOs of its own, and between those WAY carries the bytes:
# `redis`, a stream of a Redis server for each, or `socat`, a connection for each between two network namespaces, the primaries in one of them, the keepers and the client
# in the other. In each round the server, or the line between the namespaces, is down for a while, a keeper is killed then and begins again later, and the primary is killed
# once (kill -9). The client must have the answers that the service gives to requests that are taken in order, each once, and the machine to which the keepers' logs lead must
# have those outputs and no others. LIVE and WORKBENCH are the built programs, by themselves those that `rt run` leaves. The last line is 'N passed, N failed'. Needs bash and
# mkfifo, and redis-server, redis-cli and python3, or ip and socat and the right to make namespaces.
. "$(dirname "$0")/common.sh"
rounds=${3:-10}
RANDOM=${4:-1}
many=${5:-200}
way=${6:-redis}
guest=service
image=$top/guests/images/$guest.image

# ---- what carries

# Ends a process and what it started.
cut_off() { { kill -9 "$1" $(pgrep -P "$1"); wait "$1"; } 2> /dev/null; }

redis_up() {
    redis-server --bind 127.0.0.1 --port "$port" --dir "$work" --save '' --appendonly yes --appendfsync always > "$work/server" 2>&1 &
    server=$!
    until [ "$(redis-cli -p "$port" ping 2> /dev/null)" = PONG ]; do sleep 0.05; done
}

redis_down() { stop "$server"; }

redis_begin() {
    port=$(python3 -c 'import socket; s = socket.socket(); s.bind(("127.0.0.1", 0)); print(s.getsockname()[1])')
    redis_up
}

redis_end() { redis_down; }

# redis_carry NAME KIND FROM TO: from one FIFO to another, frames or lines.
redis_carry() {
    python3 "$top/samples/live/carrier.py" "$port" put "$1" "$2" "$3" &
    carriers+=($!)
    python3 "$top/samples/live/carrier.py" "$port" get "$1" "$4" &
    carriers+=($!)
}

socat_up() { ip netns exec "$names.keepers" ip link set eth up; }

socat_down() { ip netns exec "$names.keepers" ip link set eth down; }

socat_begin() {
    names=wazhilom.$$
    next_port=7000
    ip netns add "$names.primaries" && ip netns add "$names.keepers" || exit 2
    ip -n "$names.primaries" link add eth type veth peer name eth netns "$names.keepers" || exit 2
    ip -n "$names.primaries" addr add 10.0.0.1/24 dev eth
    ip -n "$names.keepers" addr add 10.0.0.2/24 dev eth
    for side in primaries keepers; do
        ip -n "$names.$side" link set lo up
        ip -n "$names.$side" link set eth up
    done
}

socat_end() {
    ip netns del "$names.primaries"
    ip netns del "$names.keepers"
}

# joined SIDE WORDS..: socat in a namespace, over and over: each connection of the FIFO is one of the line.
joined() {
    local side=$1
    shift
    while :; do
        ip netns exec "$names.$side" socat -u "$@" 2> /dev/null
        sleep 0.05
    done
}

# socat_carry NAME KIND FROM TO: from a FIFO of one namespace to one of the other.
socat_carry() {
    local writer=primaries reader=keepers address=10.0.0.2
    next_port=$((next_port + 1))
    case $1 in acks.* | requests.*) writer=keepers reader=primaries address=10.0.0.1 ;; esac
    joined "$reader" "TCP-LISTEN:$next_port,reuseaddr" "OPEN:$4,wronly" &
    carriers+=($!)
    joined "$writer" "OPEN:$3,rdonly" "TCP:$address:$next_port" &
    carriers+=($!)
}

# ---- the pair

# lead FOLDER TERM SITE: a primary of the term, from what was handed over; its process is then `started`.
lead() {
    local at=$1 s=$3
    "$live" primary "$image" "$2" 3 2 in "$at/in.$s" out "$at/out.$s" to "$at/sent.0.$s" "$at/sent.1.$s" "$at/sent.2.$s" \
        from "$at/told.0.$s" "$at/told.1.$s" "$at/told.2.$s" with "${handed[@]}" 2>> "$at/faults.primary" &
    started=$!
}

# begin FOLDER: FIFOs, carriers and keepers.
begin() {
    local k s
    mkdir "$1"
    carriers=()
    for s in a b; do
        mkfifo "$1/asked.$s" "$1/in.$s" "$1/out.$s" "$1/answered.$s"
        "${way}_carry" "requests.${1##*.}.$s" lines "$1/asked.$s" "$1/in.$s"
        "${way}_carry" "answers.${1##*.}.$s" lines "$1/out.$s" "$1/answered.$s"
        for k in 0 1 2; do
            mkfifo "$1/sent.$k.$s" "$1/frames.$k.$s" "$1/acks.$k.$s" "$1/told.$k.$s"
            "${way}_carry" "frames.${1##*.}.$k.$s" frames "$1/sent.$k.$s" "$1/frames.$k.$s"
            "${way}_carry" "acks.${1##*.}.$k.$s" lines "$1/acks.$k.$s" "$1/told.$k.$s"
        done
    done
    for k in 0 1 2; do
        make_log "$k" "$1/log.$k"
        keep "$1" "$k"
        keeper[$k]=$started
    done
}

# carried ROUND: what carries is down once, a keeper is killed, and the primary.
carried() {
    local at=$work/carried.$1 window=$((1 + RANDOM % 4)) victim=$((RANDOM % 3)) primary client process k
    begin "$at"
    ask "$((RANDOM * 32768 + RANDOM))" "$at" client
    choose
    hand "$at" 1 "$at/log" $heirs
    lead "$at" 1 a
    primary=$started
    : > "$at/answers"
    "$live" client "$at/client.words" "$window" 700 to "$at/asked.a" "$at/asked.b" from "$at/answered.a" "$at/answered.b" > "$at/answers" 2> "$at/faults.client" &
    client=$!
    has "$at/answers" "$((RANDOM % (many / 4) + 1))" "$client"
    "${way}_down"
    nap 9
    stop "${keeper[$victim]}"
    "${way}_up"
    has "$at/answers" "$((many / 4 + RANDOM % (many / 4)))" "$client"
    keep "$at" "$victim"
    keeper[$victim]=$started
    has "$at/answers" "$((many / 2 + RANDOM % (many / 4)))" "$client"
    if ! runs "$primary"; then fail "round $1: the primary runs until it is killed" < "$at/faults.primary"; fi
    stop "$primary"
    choose
    hand "$at" 2 "$at/log" $heirs
    lead "$at" 2 b
    primary=$started
    ends "$client"
    if runs "$client"; then fail "round $1: the client comes to its end" < "$at/answers"; fi
    stop "$client"
    stop "$primary"
    for k in 0 1 2; do stop "${keeper[$k]}"; done
    for process in "${carriers[@]}"; do cut_off "$process"; done
    same "round $1: the answers, with $window under way" "$at/client.wanted" "$at/answers"
    outputs "$at" "$at/outputs"
    same "round $1: each request stands once in the logs" "$at/client.wanted" "$at/outputs"
    faults "$at/faults.client" "$at/faults.primary" > "$at/faults"
    if [ -s "$at/faults" ]; then fail "round $1: a fault" < "$at/faults"; else pass; fi
    wc -l < "$at/answers" >> "$work/tally"
    rm -rf "$at"
}

carriers=()
leave() {
    for process in "${carriers[@]}"; do cut_off "$process"; done
    "${way}_end"
    finish
}
trap leave EXIT
"${way}_begin"
for number in $(seq "$rounds"); do carried "$number"; done
tell
