#!/bin/bash
# door.sh PORT: a door to a pair whose guest takes lines, as guests/sqlite does. Each line that comes over TCP is asked, one behind the other, and its answer goes back; all
# connections talk to one guest. three.sh begins it (`three.sh FILE door PORT`) in the folder of the client's machine, where there are
#   words       each word that was ever asked, a line a word, as `live client` reads them. A number is a word for good: this file is neither removed nor restored
#   settled     how many of them have their answers; whoever asks has its lock
#   requests.P  a FIFO to each machine P that may lead, and `told`, one of what these answer
# A line is in `words`, and on disk, before its first word is sent: one that was answered is never lost, and none is done twice, whenever the door, or a connection, ends. A line
# whose line feed did not come is not asked; one whose connection ended is done, though nobody is told.
# door.sh talk serves a connection, and door.sh hear takes answers. Needs bash, socat, flock, dd, od, sed and grep.
set -eu
export LC_ALL=C
DOOR=$(realpath "$0")
export DOOR
# How many bytes a guest takes as a line (guests/kit/lines.c), and how many words at once.
longest=4096
window=256
# How many words of 0 fetch an answer at first.
fetches='00000000 00000000 00000000 00000000 00000000 00000000 00000000 00000000'

# Ends what this script started, and nothing else.
finish() { for process in $(jobs -rp); do kill -- "-$process" 2> /dev/null || true; done; }
trap finish EXIT
trap 'exit 1' INT TERM

fault() {
    echo "fault $*" >&2
    exit 1
}

# load: the words that are not settled are then `asked`, each with its line feed. A line of which the end does not stand there was never sent, and goes.
load() {
    read -r settled < settled || true
    settled=$((10#${settled:-0}))
    mapfile asked < <(tail -c "+$((9 * settled + 1))" words)
    local there=${#asked[@]}
    while [ "${#asked[@]}" -gt 0 ] && ! [[ ${asked[-1]} =~ ^(00)*(0a[0-9a-f]*)?$'\n'$ && ${#asked[-1]} = 9 ]]; do unset 'asked[-1]'; done
    if [ "${#asked[@]}" != "$there" ]; then truncate -s "$((9 * (settled + ${#asked[@]})))" words; fi
    got=()
    sent=0
    next=0
}

# add WORD..: asks these words too.
add() {
    local word
    printf '%s\n' "$@" >> words
    sync -d words
    for word in "$@"; do asked+=("$word"$'\n'); done
}

# request [LINE]: sends this line, and the first words that have no answer; a machine that takes none now goes without. No line is sent empty: it would end one that was cut.
request() {
    local at fifo lines=${1:+$1$'\n'}
    sent=$((next + window < ${#asked[@]} ? next + window : ${#asked[@]}))
    for ((at = next; at < sent; at++)); do
        if [ -z "${got[at]:-}" ]; then lines+="0 word ${asked[at]%?} $((settled + at))"$'\n'; fi
    done
    for fifo in requests.[0-9]; do printf %s "$lines" | dd bs=4096 iflag=fullblock oflag=nonblock status=none of="$fifo" 2> /dev/null || true; done
}

# note: takes an answer's line, where one comes in time.
note() {
    local term full number word at
    read -r -t 0.25 -u 7 term full _ _ _ number _ _ _ word || return 1
    if [ "$term $full" = '0 full' ]; then fault full; fi
    if [ "$term" != term ] || [ "${#word}" != 8 ]; then return 0; fi
    at=$((10#$number - settled))
    if [ "$at" -lt 0 ]; then return 0; fi
    if [ "$at" -ge "${#asked[@]}" ]; then fault words behind; fi
    if [ "${got[at]:-$word}" != "$word" ]; then fault contradiction; fi
    got[at]=$word
}

# settle: waits until each word has its answer, and asks for more while the answer goes on: these are then `got`.
settle() {
    local more=32
    while :; do
        while [ "$next" -lt "${#asked[@]}" ]; do
            if [ "$next" = "$sent" ]; then request; fi
            if ! note; then request "0 from $((settled + next))"; fi
            while [ -n "${got[next]:-}" ]; do next=$((next + 1)); done
        done
        if [ "$next" = 0 ] || [ "${got[-1]:0:2}" = 00 ]; then break; fi
        add $(printf '00000000 %.0s' $(seq "$more"))
        more=$((more < window ? 2 * more : more))
    done
    printf '%015d\n' "$((settled + next))" 1<> settled
}

# ask WORD..: asks these words behind what another one has left.
ask() {
    load
    if [ "${#asked[@]}" -gt 0 ]; then
        sync -d words
        settle
        load
    fi
    add "$@"
    settle
}

# answer: what was answered, as text.
answer() { printf '%b' "$(printf '%s\n' "${got[@]}" | sed 's/\(..\)\(..\)\(..\)\(..\)/\\x\4\\x\3\\x\2\\x\1/' | tr -d '\n')" | tr -d '\0'; }

# line_comes: takes a line, which is then `text`; what is longer than a line is passed over, and said.
line_comes() {
    local rest
    while IFS= read -r -n "$((longest + 1))" text; do
        if [ "${#text}" -le "$longest" ]; then return 0; fi
        while IFS= read -r -n "$longest" rest && [ "${#rest}" = "$longest" ]; do :; done
        echo "a line has at most $longest bytes"
    done
    return 1
}

talk() {
    exec 7<> told 8<> settled
    while line_comes; do
        flock 8
        ask $(printf '%s\n' "$text" | od -An -v -tx4 -w4 --endian=little) $fetches
        flock -u 8
        answer
    done
}

# A new door asks one word first, and looks whether more were asked than it knows of.
listen() {
    local door
    touch words settled
    sync words settled .
    exec 7<> told 8<> settled
    flock 8
    load
    if [ "$(wc -c < words)" -lt "$((9 * settled))" ]; then fault words behind; fi
    set -m
    socat "TCP-LISTEN:$1,reuseaddr,fork,max-children=64,keepalive,keepidle=1,keepintvl=1,keepcnt=2" 'SYSTEM:exec "$DOOR" talk,nofork' 8>&- &
    door=$!
    set +m
    ask 00000000
    request "0 from $((settled + next - 1))"
    while note; do :; done
    flock -u 8
    wait "$door"
}

case $1 in
    talk) talk ;;
    hear) exec grep --line-buffered -xE 'term [0-9]{1,10} hart 0 number [0-9]{1,15} step [0-9]{1,15} word [0-9a-f]{8}|0 full' > told ;;
    *) listen "$1" ;;
esac
