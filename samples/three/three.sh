#!/bin/bash
# three.sh FILE ROLE ..: one service on several machines, a command a role. FILE is the same on all machines and sets, as a shell does:
#   IMAGE PAIR NEED   as docs/FORMATS.md has them
#   KEEPERS           the addresses of the keepers' machines, from keeper 0 on
#   LEADERS           the numbers of those of them that may lead
#   CLIENT            the address of the client's machine
#   FOLDER            where log, FIFOs and what is handed over lie; LIVE is the program, by itself `live`
# Roles, of the machine of keeper K (docs/OPERATING.md says when which is typed):
#   make K            makes the keeper's log, once for good
#   run K             the keeper and all links of its machine, until it is stopped
#   new K             makes, and runs
#   hand K T P        hands the log over to term T, to the machine of keeper P, which leads that
#   primary P T K..   leads term T here, from the log of this machine and those that the keepers K.. hand over
# and of the client's machine:
#   client WORDS      asks for the words of a file, or
#   door PORT         asks for the lines that come over TCP to a port, and answers each there (door.sh), until it is stopped
# Frames come to ports 7000 + P, acknowledgements to 7100 + K, requests to 7200, answers to 7300 + P, logs to 7400 + K. Needs bash, mkfifo and socat.
set -eu
here=$(cd "$(dirname "$0")" && pwd)
export DOOR=$here/door.sh
LIVE=live
. "$1"
keepers=($KEEPERS)
leaders=($LEADERS)
role=$2
shift 2
# A machine that loses its power is known to be gone after three seconds.
alive=keepalive,keepidle=1,keepintvl=1,keepcnt=2
mkdir -p "$FOLDER"
cd "$FOLDER"

# Ends what this script started, and nothing else.
finish() { for process in $(jobs -rp); do kill -- "-$process" 2> /dev/null || kill "$process" 2> /dev/null || true; done; }
trap finish EXIT
trap 'exit 1' INT TERM

# fifos NAME..: those that are not there yet.
fifos() { for name in "$@"; do [ -p "$name" ] || mkfifo "$name" 2> /dev/null || [ -p "$name" ]; done; }

# link FROM TO: socat in a process group of its own, over and over.
link() {
    set -m
    while :; do
        socat -u "$1" "$2" 2> /dev/null || true
        sleep 0.05
    done &
    set +m
}

# heard PORT FIFO, said FIFO ADDRESS PORT: what comes to a port goes into a FIFO, and what comes out of one to an address.
heard() { link "TCP-LISTEN:$1,reuseaddr,$alive" "OPEN:$2,wronly"; }
said() { link "OPEN:$1,rdonly" "TCP:$2:$3,connect-timeout=2,$alive"; }

# names WORD N..: WORD.N for each N.
names() {
    local word=$1
    shift
    printf "$word.%s " "$@"
}

leads() { case " $LEADERS " in *" $1 "*) ;; *) return 1 ;; esac; }

links() {
    local k p
    for p in "${leaders[@]}"; do
        fifos "frames.$p" "acks.$p"
        heard "$((7000 + p))" "frames.$p"
        said "acks.$p" "${keepers[$p]}" "$((7100 + $1))"
    done
    if leads "$1"; then
        fifos in out
        heard 7200 in
        said out "$CLIENT" "$((7300 + $1))"
        for k in "${!keepers[@]}"; do
            fifos "to.$k" "from.$k"
            said "to.$k" "${keepers[$k]}" "$((7000 + $1))"
            heard "$((7100 + k))" "from.$k"
        done
    fi
}

run() {
    links "$1"
    "$LIVE" keeper "$IMAGE" "$1" log from $(names frames "${leaders[@]}") to $(names acks "${leaders[@]}")
}

make() { "$LIVE" make "$IMAGE" "$1" "${#keepers[@]}" "$NEED" "$PAIR" log; }

new() {
    make "$1"
    run "$1"
}

hand() { "$LIVE" hand "$IMAGE" "$1" log "$2" | socat -u STDIN "TCP:${keepers[$3]}:$((7400 + $1)),retry=60,interval=0.5"; }

primary() {
    local p=$1 term=$2 k handed=()
    shift 2
    for k in "$@"; do
        set -m
        socat -u "TCP-LISTEN:$((7400 + k)),reuseaddr" "CREATE:handed.$term.$k" &
        set +m
        handed+=("handed.$term.$k")
    done
    "$LIVE" hand "$IMAGE" "$p" log "$term" > "handed.$term.$p"
    fifos in out $(names to "${!keepers[@]}") $(names from "${!keepers[@]}")
    wait
    "$LIVE" primary "$IMAGE" "$term" "${#keepers[@]}" "$NEED" in in out out to $(names to "${!keepers[@]}") from $(names from "${!keepers[@]}") \
        with "handed.$term.$p" "${handed[@]}"
}

client() {
    local p
    fifos $(names requests "${leaders[@]}") $(names answers "${leaders[@]}")
    for p in "${leaders[@]}"; do
        said "requests.$p" "${keepers[$p]}" 7200
        heard "$((7300 + p))" "answers.$p"
    done
    "$LIVE" client "$1" 1 500 to $(names requests "${leaders[@]}") from $(names answers "${leaders[@]}")
}

door() {
    local p
    fifos told $(names requests "${leaders[@]}")
    # They stay open, whoever comes and goes.
    exec 7<> told
    for p in "${leaders[@]}"; do
        exec {held}<> "requests.$p"
        said "requests.$p" "${keepers[$p]}" 7200
        link "TCP-LISTEN:$((7300 + p)),reuseaddr,fork,$alive" 'SYSTEM:exec "$DOOR" hear,nofork' "answers.$p"
    done
    bash "$DOOR" "$1" &
    wait $!
}

"$role" "$@"
