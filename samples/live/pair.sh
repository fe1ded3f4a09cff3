#!/bin/bash
# pair.sh [LIVE [GUEST]]: three keepers, a primary and a client, each a process of its own, over FIFOs. The primary is killed, the next one goes live from what two
# keepers hand over, and goes on. LIVE is the built program, by itself the one that `rt run` leaves; where there is none, it is built first, without a proof. GUEST is
# `service`, which is asked words, `lua` or `sqlite` (guests/README.md), which are asked lines, or `race`. IMAGE is another image of the guest, and LOGS a folder to which the
# keepers' logs are copied at the end. Needs bash, grep, GNU od and mkfifo.
set -eu
top=$(cd "$(dirname "$0")/../.." && pwd)
live=${1:-$top/crates/live/out/live}
case $live in /*) ;; *) live=$PWD/$live ;; esac
guest=${2:-service}
image=$top/guests/images/$guest.image
case $guest in
    lua | sqlite) image=$top/guests/out/-O2/$guest.image ;;
    race) image=$top/samples/race.image ;;
esac
image=${IMAGE:-$image}
logs=$(cd "${LOGS:-.}" && pwd)
at=$(mktemp -d)
# Ends what this script started, and nothing else.
finish() {
    for process in $(jobs -rp); do { kill -9 "$process" && wait "$process"; } 2> /dev/null || true; done
    grep -sv '^note ' "$at/notes" >&2 || true
    rm -rf "$at"
}
trap finish EXIT
if [ ! -x "$live" ]; then
    echo 'live is built, without a proof, in some minutes' >&2
    "$top/samples/keep_program.sh" live "$at/built" make image 0 1 1 0000000000000000 log
    live=$at/built/program
fi
cd "$at"
mkfifo in out frames.0 frames.1 frames.2 acks.0 acks.1 acks.2
: > words
: > notes

# lead TERM K..: these keepers hand over to the term, and a primary leads it.
lead() {
    term=$1
    shift
    for k in "$@"; do "$live" hand "$image" "$k" "log.$k" "$term" > "handed.$k"; done
    "$live" primary "$image" "$term" 3 2 in in out out to frames.0 frames.1 frames.2 from acks.0 acks.1 acks.2 with "handed.$1" "handed.$2" 2>> notes &
    primary=$!
}

# A client that asks all that was ever asked: what was answered once is answered so again.
ask() { "$live" client words 1 1000 to in from out; }

# ask_words WORD..: asks these words too.
ask_words() {
    printf '%s\n' "$@" >> words
    ask
}

# ask_lines LINE..: asks these lines too, four bytes a word and the first of them its lowest, and behind each line words of 0 that fetch the rest of its answer. It prints
# what these lines are answered.
ask_lines() {
    before=$(wc -l < words)
    for line in "$@"; do
        echo "> $line"
        printf '%s\n' "$line" | od -An -v -tx4 -w4 --endian=little | tr -d ' ' >> words
        printf '00000000\n%.0s' 1 2 3 4 >> words
    done
    ask | tail -n "+$((before + 1))" | sed 's/.* word \(..\)\(..\)\(..\)\(..\)$/\\x\4\\x\3\\x\2\\x\1/' > answers
    printf "$(tr -d '\n' < answers)" | tr -d '\0'
}

pair=$(od -An -N8 -tx8 /dev/urandom | tr -d ' ')
for k in 0 1 2; do
    "$live" make "$image" "$k" 3 2 "$pair" "log.$k"
    "$live" keeper "$image" "$k" "log.$k" from "frames.$k" to "acks.$k" 2>> notes &
done
asks=ask_words
case $guest in
    lua | sqlite) asks=ask_lines ;;
esac
case $guest in
    race) first=(00000064 000003e8) second=(00000007) ;;
    service) first=(01070011 01070012 01080012 03070012) second=(02070011 01070012 01280011 00080011) ;;
    sqlite)
        first=('create table stock(part text primary key, many int);' "insert into stock values('bolts', 7), ('nuts', 12);" 'select * from stock;')
        second=("update stock set many = many - 2 where part = 'bolts';" 'select sum(many) from stock;')
        ;;
    lua) first=('stock = {bolts = 7}' 'stock.bolts = stock.bolts - 2' 'stock.bolts') second=('stock.nuts = 12' 'stock.bolts + stock.nuts') ;;
esac
lead 1 0 1
"$asks" "${first[@]}"
{ kill -9 "$primary" && wait "$primary"; } 2> /dev/null || true
echo 'the primary of term 1 is killed'
lead 2 1 2
"$asks" "${second[@]}"
if [ -n "${LOGS:-}" ]; then cp log.0 log.1 log.2 "$logs"; fi
