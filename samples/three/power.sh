#!/bin/bash
# power.sh [LIVE]: three machines and a client's, each a network namespace of its own, led by three.sh. The machine that leads loses its power; another one leads the next
# term; the first one comes back, catches up, and leads again once the other has lost its power too. The client must have each answer once more each time, and the next ones.
# Before that the line of a third one is down for a while. It prints how many commands were typed up to there, and how long things took. LIVE is the built program, by itself the one that `.ci/run` leaves. The last line is
# 'N passed, N failed'. Needs bash, mkfifo, ip, socat, and the right to make namespaces.
set -u
. "$(dirname "$0")/machines.sh"
image=$top/guests/images/service.image

# asks WORD=ANSWER..: these words too; the client must have all answers so far.
asks() {
    for it in "$@"; do
        echo "${it%=*}" >> "$work/words"
        echo "number $(wc -l < "$work/wanted") word ${it#*=}" >> "$work/wanted"
    done
    on client client "$work/words" > "$work/answers"
    if diff "$work/wanted" "$work/answers" > "$work/differs"; then pass; else fail "answers up to $1" < "$work/differs"; fi
}

machines 0 1 2 client
: > "$work/wanted"

for k in 0 1 2; do started "$k" new "$k"; done
for k in 0 1 2; do until_so "the log of keeper $k" [ -s "$work/$k/log.fences" ]; done
started 1 hand 1 1 0
started 0 primary 0 1 1
asks 01070011=a0070011 01070012=b0070011 01080012=a0080012 03070012=a0070011

# The line of machine 2 is down for longer than keepalive waits, while frames go to it.
ip -n "$net.2" link set eth down
asks 01280011=e0280011
sleep 5
began=$(now)
back 2
until_so 'keeper 2 catches up' cmp -s "$work/0/log" "$work/2/log"
told 'the line of machine 2 is back, and it keeps all' "$began"

began=$(now)
off 0
started 2 hand 2 2 1
started 1 primary 1 2 2
asks 02070011=a0070000 01070012=a0070012
told 'machine 0 is lost, and machine 1 has answered' "$began"

began=$(now)
back 0
started 0 run 0
until_so 'keeper 0 catches up' cmp -s "$work/0/log" "$work/2/log"
told 'machine 0 is back, and keeps all' "$began"

began=$(now)
off 1
started 2 hand 2 3 0
started 0 primary 0 3 2
asks 00080011=e0080011
told 'machine 1 is lost, and machine 0 has answered' "$began"

sort "$work/told" | uniq -c | sed 's/^/told: /'
echo "$passed passed, $failed failed"
[ "$failed" = 0 ]
