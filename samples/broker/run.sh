#!/bin/sh
# run.sh [PROGRAM]: hands a primary's frames to three keepers over a broker, and exits 0 only if each keeper's log replays to the
# primary's text. PROGRAM is the built workbench. Needs redis-server, redis-cli, base64, python3 and timeout.
#
# The broker is a Redis server on a free port of this machine alone. The frames stand in one stream, in base64, an entry for each, and
# each keeper has a consumer group of its own. One keeper is killed half-way, and what comes after it reads again from the beginning, into
# a second log. The server is killed once, too, and started again over what it wrote.
set -eu
[ -n "${BROKER_HAS_A_LIMIT:-}" ] || exec env BROKER_HAS_A_LIMIT=yes timeout 240 sh "$0" "$@"

top=$(cd "$(dirname "$0")/../.." && pwd)
program=${1:-$top/crates/workbench/out/workbench}
image=$top/guests/images/service.image
for tool in "$program" redis-server redis-cli; do
    command -v "$tool" > /dev/null || { echo "there is no $tool"; exit 2; }
done
work=$(mktemp -d)
server=
readers=
trap 'kill -9 $server $readers 2> /dev/null || true; rm -rf "$work"' EXIT
trap 'exit 1' INT TERM
port=$(python3 -c 'import socket; s = socket.socket(); s.bind(("127.0.0.1", 0)); print(s.getsockname()[1])')

# With -e, redis-cli's status tells whether the server did what it was asked.
ask() {
    redis-cli -e -h 127.0.0.1 -p "$port" --raw "$@" 2> /dev/null
}

# Each write is on disk before it is answered.
start_server() {
    redis-server --bind 127.0.0.1 --port "$port" --dir "$work" --save '' --appendonly yes --appendfsync always > "$work/server" 2>&1 &
    server=$!
    until [ "$(ask ping)" = PONG ]; do
        kill -0 "$server" || { cat "$work/server"; exit 1; }
        sleep 0.05
    done
}

# frames LOG: each frame of a log in base64, one a line. A frame has 8 bytes, the last four of which are its body's length; the body; and
# 32 bytes.
frames() {
    size=$(wc -c < "$1")
    at=0
    while [ "$at" -lt "$size" ]; do
        length=$(($(od -An -tu4 --endian=little -j "$((at + 4))" -N 4 "$1") + 40))
        tail -c "+$((at + 1))" "$1" | head -c "$length" | base64 -w 0
        echo
        at=$((at + length))
    done
}

# append FIELD VALUE: an entry at the stream's end. Where the server does not answer, it may stand there twice.
append() {
    until ask xadd frames '*' "$1" "$2" > /dev/null; do
        sleep 0.05
    done
}

# The primary appends the frames one by one, and then an entry that says that these were all.
primary() {
    while read -r frame; do
        append frame "$frame"
        sleep 0.1
    done < "$work/frames"
    append end ''
}

# keeper NUMBER LOG PAUSE: reads the entries of its group and acknowledges each once its frame is in the log. It begins, also after the
# server did not answer, with what was handed to it and not acknowledged (from 0), and goes on with what is new (from >).
keeper() {
    from=0
    while :; do
        entry=$(ask xreadgroup group "keeper$1" reader count 1 streams frames "$from") || { from=0; sleep 0.05; continue; }
        id=$(echo "$entry" | sed -n 2p)
        if [ -z "$id" ]; then
            from='>'
            sleep "$3"
            continue
        fi
        is_end=$(echo "$entry" | sed -n '3s/^end$/yes/p')
        [ -n "$is_end" ] || echo "$entry" | sed -n 4p | base64 -d >> "$2"
        ask xack frames "keeper$1" "$id" > /dev/null || { from=0; continue; }
        [ -z "$is_end" ] || return 0
        sleep "$3"
    done
}

# 400 requests to the service, and closing time.
awk 'BEGIN {
    for (n = 1; n <= 400; n++) printf "0 %d word 01%02x%04x\n", 400 * n, n % 40, 1 + n % 7
    print "0 164000 timer"
}' > "$work/script"
"$program" run "$image" "$work/script" 1000000 "$work/log" > "$work/text"
frames "$work/log" > "$work/frames"
echo "the primary's log has $(wc -l < "$work/frames") frames, $(wc -c < "$work/log") bytes"

start_server
for number in 0 1 2; do
    ask xgroup create frames "keeper$number" 0 mkstream > /dev/null
done
primary &
readers=$!
keeper 0 "$work/log0.a" 0.02 &
first=$!
keeper 1 "$work/log1.a" 0.05 &
second=$!
keeper 2 "$work/log2.a" 0.3 &
third=$!
readers="$readers $first $second $third"

# The second keeper is killed once it has half of the log.
until [ -f "$work/log1.a" ] && [ "$(($(wc -c < "$work/log1.a") * 2))" -ge "$(wc -c < "$work/log")" ]; do
    sleep 0.01
done
kill -9 "$second"
wait "$second" 2> /dev/null || true
# What it was still asking the server is answered by then.
sleep 0.2
echo "keeper 1 was killed when it had $(wc -c < "$work/log1.a") bytes, and reads again from the beginning"
ask xgroup destroy frames keeper1 > /dev/null
ask xgroup create frames keeper1 0 > /dev/null
keeper 1 "$work/log1.b" 0.05 &
second=$!
readers="$readers $second"

kill -9 "$server"
wait "$server" 2> /dev/null || true
start_server
echo "the server was killed and started again, with $(ask xlen frames) entries"

wait "$first" "$second" "$third"
agree=0
for number in 0 1 2; do
    "$program" join "$image" "$work/joined" "$work/log$number".* | sed "s/^/keeper $number has /"
    "$program" replay "$image" "$work/joined" | cmp - "$work/text" && agree=$((agree + 1))
done
echo "$agree of 3 keepers lead to the primary's text"
[ "$agree" = 3 ]
