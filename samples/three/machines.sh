# What power.sh and sqlite.sh share: machines that are namespaces of the network, on which three.sh is typed. It sets `live` by their first word, `top`, and the folder
# `work`, which goes at the end with all that was started. Whoever reads it sets `image` before `machines`.
top=$(cd "$(dirname "${BASH_SOURCE[0]}")/../.." && pwd)
live=${1:-$top/crates/live/out/live}
work=$(mktemp -d)
net=wazhilom.three.$$
names=
passed=0
failed=0

pass() { passed=$((passed + 1)); }

# fail WHAT: counts it, and shows what standard input has of it.
fail() {
    failed=$((failed + 1))
    echo "failed: $1"
    sed -n '1,20s/^/    /p'
}

# Ends what this script started, and nothing else.
finish() {
    for m in $names; do
        off "$m"
        ip netns del "$net.$m" 2> /dev/null
    done
    ip link del "wb$$" 2> /dev/null
    rm -rf "$work"
}
trap finish EXIT
trap 'exit 1' INT TERM

# machines M..: these, with the addresses 10.9.0.10 and up and a file each for three.sh. The first three keep, the first two may lead, the fourth is the client's.
machines() {
    local m last=10
    ip link add "wb$$" type bridge && ip link set "wb$$" up || exit 2
    for m in "$@"; do
        names="$names $m"
        ip netns add "$net.$m"
        ip link add "w$$$m" type veth peer name eth netns "$net.$m"
        ip link set "w$$$m" master "wb$$" up
        ip -n "$net.$m" addr add "10.9.0.$last/24" dev eth
        ip -n "$net.$m" link set lo up
        ip -n "$net.$m" link set eth up
        last=$((last + 1))
        cat > "$work/$m.conf" << END
IMAGE=$image
PAIR=0123456789abcdef
NEED=2
KEEPERS='10.9.0.10 10.9.0.11 10.9.0.12'
LEADERS='0 1'
CLIENT=10.9.0.13
FOLDER=$work/$m
LIVE=$live
END
    done
}

# off M: the power of machine M: its line is down first, so that nobody is told.
off() {
    local left
    ip -n "$net.$1" link set eth down 2> /dev/null
    while left=$(ip netns pids "$net.$1" 2> /dev/null) && [ -n "$left" ]; do
        kill -9 $left 2> /dev/null
        sleep 0.02
    done
}

# back M: the line of machine M is up again.
back() { ip -n "$net.$1" link set eth up; }

# on M WORDS..: three.sh as it is typed on machine M; started M WORDS..: without waiting for its end, and without the shell's word that it was killed.
on() {
    local m=$1
    shift
    echo "$m $*" >> "$work/typed"
    ip netns exec "$net.$m" bash "$top/samples/three/three.sh" "$work/$m.conf" "$@" 2>> "$work/told"
}
started() {
    on "$@" 2> /dev/null &
    disown
}

now() { date +%s%3N; }

# until_so WHAT COMMAND..: waits for the command to go well, ten seconds at most.
until_so() {
    local what=$1 end=$(($(now) + 10000))
    shift
    until "$@"; do
        if [ "$(now)" -gt "$end" ]; then
            fail "$what" < "$work/told"
            exit 1
        fi
        sleep 0.05
    done
}

# told WHAT SINCE: what was typed so far, and how long something took.
told() { echo "$(wc -l < "$work/typed") commands; $1 after $(($(now) - $2)) ms"; }
