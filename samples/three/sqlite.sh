#!/bin/bash
# sqlite.sh [LIVE [IMAGE [ROUNDS]]]: SQLite as a service on three machines, a door to it on a fourth, and a user on a fifth who has socat alone, each a namespace of the
# network, led by three.sh. The machine that leads loses its power, and the next one answers: ten commands in all. Then connections: one behind the other, some at once, cut
# within a line or behind it, with lines that are too long. Then ROUNDS times, 6 by itself, while lines are under way, the door's machine loses its power, the door is ended,
# or a connection of it is killed: no line that was answered is lost, and none is done twice. At last a door whose file of words is older than what was asked. It prints how
# long things took. LIVE is the built program, by itself the one that `.ci/run` leaves, IMAGE the one that guests/foreign.mk makes. The last line is 'N passed, N failed'.
# Needs what power.sh and door.sh need.
set -u
. "$(dirname "$0")/machines.sh"
image=$(realpath "${2:-$top/guests/out/-O2/sqlite.image}")
rounds=${3:-6}

# typed WORDS..: socat, as a user types it.
typed() { ip netns exec "$net.user" socat "$@" 2>> "$work/said"; }

# asked: what the lines of standard input are answered, over one connection; lines LINE..: what these are.
asked() { typed -t 60 - TCP:10.9.0.13:9000; }
lines() { printf '%s\n' "$@" | asked; }

# inserts FROM TO: lines that put these numbers into the table.
inserts() { seq -f 'insert into seen values(%g);' "$1" "$2"; }

# is WHAT WANTED GOT: whether two texts are one.
is() {
    if [ "$2" = "$3" ]; then pass; else fail "$1" < <(printf 'wanted: %s\ngot: %s\n' "$2" "$3"); fi
}

# many WHAT WANTED WHERE: whether so many rows are such.
many() { is "$1" "$(printf '%s\nok' "$2")" "$(lines "select count(*) from seen where $3;")"; }

# open: the door is begun, and takes connections.
opens() { typed -u OPEN:/dev/null TCP:10.9.0.13:9000; }
open() {
    started client door 9000
    until_so 'the door opens' opens
}

# of_door WORDS: the processes on the door's machine whose words end so.
of_door() {
    local process
    for process in $(ip netns pids "$net.client"); do
        if tr '\0' ' ' < "/proc/$process/cmdline" | grep -q "$1 \$"; then echo "$process"; fi
    done 2> /dev/null
}

# end: ends the door as an operator does; nothing of it is left.
is_ended() { [ -z "$(ip netns pids "$net.client")" ]; }
end() {
    kill $(of_door 'door 9000')
    until_so 'nothing is left of the door' is_ended
}

# lose HOW: the door loses its power, is ended, or one of its connections is killed.
lose() {
    case $1 in
        0)
            off client
            off user
            back client
            back user
            open
            ;;
        1)
            end
            open
            ;;
        2) kill -9 $(of_door talk | shuf -n 1) ;;
    esac
}

machines 0 1 2 client user

for k in 0 1 2; do started "$k" new "$k"; done
for k in 0 1 2; do until_so "the log of keeper $k" [ -s "$work/$k/log.fences" ]; done
started 1 hand 1 1 0
started 0 primary 0 1 1
open
echo user >> "$work/typed"
is 'the first line' ok "$(lines 'create table seen(n integer);')"
lines 'insert into seen values(1);' > /dev/null
began=$(now)
off 0
started 2 hand 2 2 1
started 1 primary 1 2 2
echo user >> "$work/typed"
is 'a line behind a loss of power' "$(printf '1|1\nok')" "$(lines 'select count(*), sum(n) from seen;')"
told 'machine 0 is lost, and machine 1 has answered' "$began"
back 0
started 0 run 0

# One connection behind the other, and some at once.
began=$(now)
for n in 2 3 4 5 6; do inserts "$n" "$n" | asked; done > "$work/answers"
echo "five connections, one behind the other, in $(($(now) - began)) ms"
began=$(now)
for n in 1 2 3 4; do inserts "${n}00" "${n}04" | asked >> "$work/answers" & done
wait $(jobs -rp)
echo "twenty lines of four connections at once in $(($(now) - began)) ms"
is 'connections' '25 ok' "$(sort "$work/answers" | uniq -c | sed 's/^ *//')"
many 'what they put' 26 'n < 500'

# A connection that is cut within a line, and one that is cut behind it.
printf 'insert into seen values(501);\ninsert into seen values(502);' | typed -t 0.5 - TCP:10.9.0.13:9000 > /dev/null
printf 'insert into seen values(503);\ninsert into' | typed -u - TCP:10.9.0.13:9000,linger=0
many 'lines that came whole' 2 'n between 501 and 503'

# A line as long as a guest takes, and longer ones.
long=$(printf 'x%.0s' $(seq 4077))
is 'a line of 4,096 bytes' "$(printf '4077\nok')" "$(lines "select length('$long') ;")"
is 'longer ones' "$(printf 'a line has at most 4096 bytes\n%.0s' 1 2; printf '7\nok')" "$(lines "select length('$long')  ;" "delete from seen where n > 0; $long$long" 'select 7;')"
is 'a long answer' "$(seq 2000 2999; echo ok)" "$(lines 'with recursive c(n) as (select 2000 union all select n + 1 from c where n < 2999) select n from c;')"

# The door, or a connection of it, is lost while lines are under way.
for round in $(seq "$rounds"); do
    for c in 1 2 3; do inserts "$round${c}01" "$round${c}40" | asked > "$work/answers.$c" 2> /dev/null & done
    sleep "$((RANDOM % 3)).$((RANDOM % 10))"
    began=$(now)
    lose "$((round % 3))"
    is "round $round: a line behind the loss" "$(printf '\nok')" "$(lines 'select group_concat(n) from (select n from seen group by n having count(*) > 1);')"
    echo "$(cat "$work"/answers.? | grep -c ok) lines were answered; the next one after $(($(now) - began)) ms"
    wait $(jobs -rp)
    for c in 1 2 3; do
        answered=$(grep -c ok "$work/answers.$c")
        many "round $round: what was answered by connection $c" "$answered" "n > $round${c}00 and n <= $round${c}00 + $answered"
    done
    many "round $round: lines that were done twice" 0 'n in (select n from seen group by n having count(*) > 1)'
done

# A file of words that was restored from a backup is refused.
cp "$work/client/words" "$work/client/settled" "$work"
lines 'insert into seen values(0);' > /dev/null
end
cp "$work/words" "$work/settled" "$work/client"
: > "$work/told"
started client door 9000
until_so 'the door is refused' grep -q 'fault' "$work/told"
until_so 'it ends' is_ended
is 'an older file of words' 'fault words behind' "$(grep fault "$work/told")"

echo "$passed passed, $failed failed"
[ "$failed" = 0 ]
