#!/bin/sh
# check.sh [PROGRAM]: runs what README.md, docs/GUIDE.md, docs/FAILOVER.md and docs/OPERATING.md print, as printed, in a fresh copy of the repository, and compares
# the answers that they show; then runs each guest of guests/ and replays its log, looks at names and lengths of the documents (tools/names), at versions, manual pages, units
# and the package (tools/version, tools/manual, samples/package.sh), refuses memory to the rows of benches/refusals, kills keepers and primaries that are processes
# (samples/live), refuses their file calls, and sends them what is changed by chance (benches/live). PROGRAM is the built workbench, by itself the one that `.ci/run` and `rt run` leave. The last line is
# 'N passed, N failed'. Needs rt; what needs more is left out where that is not there.
#
# In these documents each indented block is typed into a shell of its own at the top of the repository. Where it has lines that begin with
# '$ ', these are the commands, and the lines below each are all that it answers. Where it has none, each line is a command.
set -u
top=$(cd "$(dirname "$0")/.." && pwd)
program=${1:-$top/crates/workbench/out/workbench}
work=$(mktemp -d)
trap 'rm -rf "$work"' EXIT
fresh=$work/fresh
passed=0
failed=0

if [ ! -x "$program" ]; then
    echo "there is no $program: build it by .ci/run, or by rt run in crates/workbench"
    exit 2
fi
mkdir "$fresh"
tar -C "$top" --exclude=./.git --exclude=out -cf - . | tar -C "$fresh" -xf -
mkdir -p "$fresh/crates/workbench/out"
cp "$program" "$fresh/crates/workbench/out/workbench"
live=$top/crates/live/out/live
if [ -x "$live" ]; then
    mkdir -p "$fresh/crates/live/out"
    cp "$live" "$fresh/crates/live/out/live"
fi
lua=$top/guests/out/-O2/lua.image
sqlite=$top/guests/out/-O2/sqlite.image
for image in "$lua" "$sqlite"; do
    if [ -f "$image" ]; then
        mkdir -p "$fresh/guests/out/-O2"
        cp "$image" "$fresh/guests/out/-O2/"
    fi
done

pass() {
    passed=$((passed + 1))
}

# fail WHAT: counts it, and shows what standard input has of it.
fail() {
    failed=$((failed + 1))
    echo "failed: $1"
    sed -n '1,20s/^/    /p'
}

# Whether processes can be joined by socat between namespaces of the network.
has_namespaces() { command -v socat > /dev/null && ip netns add wazhilom.tried 2> /dev/null && ip netns del wazhilom.tried; }

# lacks BLOCK: why a block is left out; nothing where it is run.
lacks() {
    if grep -q '\.ci/run' "$1"; then
        echo "it is the whole gate, for an hour or two"
    elif grep -q 'samples/quick\.sh' "$1"; then
        echo "it runs this script itself"
    elif [ -n "${TRIED:-}" ] && grep -q 'rt try' "$1"; then
        echo "this program was built by rt try"
    elif grep -q 'rt run' "$1"; then
        echo "it proves every crate below the program, for half an hour"
    elif grep -q -e 'samples/live' -e 'crates/live/out/live' -e 'samples/three' -e 'make .*install' "$1" && [ ! -x "$fresh/crates/live/out/live" ]; then
        echo "there is no $live"
    elif grep -q 'samples/three' "$1" && ! has_namespaces; then
        echo "there is no socat or no right to make namespaces"
    elif grep -q 'samples/three/sqlite' "$1" && [ ! -f "$sqlite" ]; then
        echo "there is no $sqlite"
    elif grep -q 'samples/live' "$1" && ! command -v bash > /dev/null; then
        echo "no bash is installed"
    elif grep -q 'pair.sh .* lua' "$1" && [ ! -f "$lua" ]; then
        echo "there is no $lua"
    elif grep -q 'pair.sh .* sqlite' "$1" && [ ! -f "$sqlite" ]; then
        echo "there is no $sqlite"
    elif grep -q 'apt-get' "$1"; then
        echo "it installs packages"
    elif grep -q 'make -' "$1" && ! grep -q 'make .*install' "$1" && [ "$(riscv64-unknown-elf-gcc -dumpfullversion 2> /dev/null)" != 12.2.0 ]; then
        echo "riscv64-unknown-elf-gcc 12.2.0 is not installed"
    elif grep -q 'gdb-multiarch' "$1" && ! command -v gdb-multiarch > /dev/null; then
        echo "no gdb-multiarch is installed"
    elif grep -q 'broker' "$1" && ! command -v redis-server > /dev/null; then
        echo "no redis-server is installed"
    elif grep -q 'python3' "$1" && ! command -v python3 > /dev/null; then
        echo "no python3 is installed"
    fi
}

# blocks DOCUMENT FOLDER: writes the indented blocks into the folder, each into a file with its number.
blocks() {
    mkdir "$2"
    awk -v folder="$2" '
        /^```/ { fenced = !fenced }
        !fenced && /^    / {
            block += !inside
            inside = 1
            print substr($0, 5) > sprintf("%s/%03d", folder, block)
            next
        }
        { inside = 0 }' "$1"
}

# commands BLOCK: writes the block's commands to the files 1, 2, .. of `typed`, and what they should answer, where it is shown, to `shown`.
commands() {
    rm -rf "$work/typed" "$work/shown" "$work/said"
    mkdir "$work/typed" "$work/shown" "$work/said"
    awk -v typed="$work/typed" -v shown="$work/shown" '
        NR == FNR { session = session || /^\$ /; next }
        !session || /^\$ / {
            number++
            print (session ? substr($0, 3) : $0) > (typed "/" number)
            if (session) printf "" > (shown "/" number)
            next
        }
        { print > (shown "/" number) }' "$1" "$1"
}

# run_block DOCUMENT BLOCK: runs its commands in one shell, and judges each by its status and its answer.
run_block() {
    commands "$2"
    count=$(ls "$work/typed" | wc -l)
    for number in $(seq "$count"); do
        echo "{ :"  # ':' since dash 0.5.12 drops the redirection of a subshell that stands alone in braces
        cat "$work/typed/$number"
        echo "} > '$work/said/$number' 2>&1 < /dev/null"
        echo "echo \$? > '$work/said/$number.status'"
    done > "$work/script"
    (cd "$fresh" && sh "$work/script")
    for number in $(seq "$count"); do
        said=$work/said/$number
        command=$(cat "$work/typed/$number")
        if [ "$(cat "$said.status")" != 0 ]; then
            fail "$1: $command: status $(cat "$said.status")" < "$said"
        elif [ -f "$work/shown/$number" ] && ! diff "$work/shown/$number" "$said" > "$work/differs"; then
            fail "$1: $command: it shows another answer" < "$work/differs"
        else
            pass
        fi
    done
}

for document in README.md docs/GUIDE.md docs/FAILOVER.md docs/OPERATING.md; do
    blocks "$fresh/$document" "$work/$(basename "$document")"
    [ -f "$work/$(basename "$document")/001" ] || fail "$document: it prints no command" < /dev/null
    for block in "$work/$(basename "$document")"/*; do
        why=$(lacks "$block")
        if [ -n "$why" ]; then
            commands "$block"
            sed "s|^|left out of $document, since $why: |" "$work"/typed/*
        else
            run_block "$document" "$block"
        fi
    done
done

# Each guest's outputs are those that stand beside its source, and its log replays to the text that its run printed.
for image in "$top"/guests/images/*.image; do
    guest=$(basename "$image" .image)
    at=$work/$guest
    source=$top/guests/$guest
    if ! "$program" run "$image" "$source/script" 1000000 "$at.log" > "$at.text" 2> "$at.faults"; then
        fail "the run of $guest" < "$at.faults"
        continue
    fi
    awk -f "$top/guests/kit/outputs.awk" "$at.text" > "$at.outputs"
    if diff "$source/outputs" "$at.outputs" > "$at.differs"; then pass; else fail "the outputs of $guest" < "$at.differs"; fi
    "$program" replay "$image" "$at.log" > "$at.replayed" 2>&1
    if diff "$at.text" "$at.replayed" > "$at.differs"; then pass; else fail "the replay of $guest" < "$at.differs"; fi
done

# Each name that the documents cite is there, none of them is too long, and crates.txt is in its order.
if ! command -v python3 > /dev/null; then
    echo "left out tools/names, since no python3 is installed"
elif "$top/tools/names" > "$work/names"; then
    pass
else
    fail "names and lengths of the documents" < "$work/names"
fi

# Versions are one, what programs tell of their forms stands in docs/FORMATS.md and in share/, units are right, and the package works without the kit.
if ! command -v python3 > /dev/null; then
    echo "left out tools/version and tools/manual, since no python3 is installed"
else
    if "$top/tools/version" > "$work/versions"; then pass; else fail "versions" < "$work/versions"; fi
    if [ -x "$live" ]; then
        if "$top/tools/manual" "$live" "$program" "$work/share" > "$work/differs" 2>&1 && diff -r "$top/share" "$work/share" > "$work/differs"; then pass; else fail "manual pages and completion" < "$work/differs"; fi
        for build in "$live" "$program"; do
            for form in $("$build" --help | sed -n '/^Commands:/,/^$/s/^  \([a-z]*\) .*/\1/p'); do
                usage=$("$build" "$form" --help | sed -n 's/^Usage: [a-z]* //p' | sed 's/ \[.*//')
                if grep -qF "\`$usage\`" "$top/docs/FORMATS.md"; then pass; else fail "docs/FORMATS.md has no $usage" < /dev/null; fi
            done
        done
    else
        echo "left out manual pages and completion, since there is no $live"
    fi
fi
if command -v systemd-analyze > /dev/null; then
    mkdir "$work/units"
    for unit in "$top"/samples/systemd/*.service; do sed "s|/usr/share/wazhilom|$top|" "$unit" > "$work/units/$(basename "$unit")"; done
    if systemd-analyze verify "$work"/units/*.service > "$work/differs" 2>&1 && [ ! -s "$work/differs" ]; then pass; else fail "units of samples/systemd" < "$work/differs"; fi
else
    echo "left out samples/systemd, since no systemd-analyze is installed"
fi
if [ ! -x "$live" ] || ! command -v dpkg-buildpackage > /dev/null || ! unshare -m true 2> /dev/null; then
    echo "left out samples/package.sh, since there is no $live, no dpkg-buildpackage or no right to make namespaces"
elif bash "$top/samples/package.sh" "$live" "$program" > "$work/packed" 2>&1; then
    pass
else
    fail "the package" < "$work/packed"
fi

# At most 40 growths of each row are refused, in some ten seconds.
if [ -n "${TRIED:-}" ]; then
    echo "left out benches/refusals, since a program of rt try has a malloc of its own"
elif command -v cc > /dev/null && command -v python3 > /dev/null && [ -d /dev/shm ]; then
    if sh "$top/benches/refusals/measure.sh" "$program" quick > "$work/refused" 2>&1; then
        pass
    else
        grep -v ' 0 other' "$work/refused" > "$work/differs"
        fail "rows to which memory is refused" < "$work/differs"
    fi
else
    echo "left out benches/refusals, since a C compiler, python3 or /dev/shm is not there"
fi

# A hundred guests whose instructions fall by chance, recorded, replayed and taken step by step; five by a program of `rt try`.
if ! command -v python3 > /dev/null || [ ! -d /dev/shm ]; then
    echo "left out benches/programs, since python3 or /dev/shm is not there"
elif sh "$top/benches/programs/measure.sh" "$program" "$([ -n "${TRIED:-}" ] && echo 5 || echo 100)" > "$work/differ" 2>&1; then
    pass
else
    fail "guests whose instructions fall by chance" < "$work/differ"
fi

# A hundred sessions of a debugger by chance, ten by a program of `rt try`, and gdb over logs, backwards.
if ! command -v python3 > /dev/null || [ ! -d /dev/shm ]; then
    echo "left out benches/debugging, since python3 or /dev/shm is not there"
elif sh "$top/benches/debugging/measure.sh" "$program" "$([ -n "${TRIED:-}" ] && echo 10 || echo 100)" > "$work/differ" 2>&1; then
    pass
else
    fail "sessions of a debugger by chance" < "$work/differ"
fi
if ! command -v gdb-multiarch > /dev/null || ! command -v bash > /dev/null; then
    echo "left out samples/debug.sh, since no gdb-multiarch or bash is installed"
elif bash "$top/samples/debug.sh" "$program" "$live" > "$work/looked" 2>&1; then
    pass
else
    fail "gdb over logs" < "$work/looked"
fi

# Three keepers over FIFOs: one is killed and begins again, two hand their logs over behind a fence, in some twenty seconds. Then primaries and clients
# too: primaries are killed and paused.
# keeps BUILD: a log that is made and gets frames is handed over; its keeper says where it begins again and acknowledges it, and ends where its input does. rt's runner
# can't be asked for this: its programs may not open /dev/stdout, and a log that is copied is none.
keeps() {
    rm -rf "$work/kept" "$work/told"
    cp -R "$top/crates/live/data" "$work/kept"
    if (cd "$work/kept" && "$1" make load_store.image 0 1 1 0123456789abcdef log && cat load_store.log > log &&
        "$1" keeper load_store.image 0 log from /dev/null to /dev/stdout && "$1" hand load_store.image 0 log 1) >> "$work/told" 2> "$work/refused" &&
        { printf 'again 0 e3e11754\nack 1 0 6 e034cebb\npair 1 1 0123456789abcdef 8596ae14\nhanded 1 0 189 a522c827\n'; cat "$work/kept/load_store.log"; } | cmp -s - "$work/told" &&
        cmp -s "$top/crates/live/data/load_store.log" "$work/kept/log"; then
        pass
    else
        cat "$work/refused" >> "$work/told"
        fail "a keeper over a log that is made, by $1" < "$work/told"
    fi
}

for build in "$live" "$live.by-rattle"; do
    if [ -x "$build" ]; then keeps "$build"; fi
done
if [ ! -x "$live" ]; then
    echo "left out samples/live, since there is no $live"
elif ! command -v bash > /dev/null; then
    echo "left out samples/live, since no bash is installed"
elif bash "$top/samples/live/keeper.sh" "$live" "$program" 2 > "$work/keepers" 2>&1; then
    pass
else
    fail "keepers that are processes" < "$work/keepers"
fi
# drills WHAT SCRIPT WORDS..: one of samples/live, with these words behind the programs.
drills() {
    what=$1 script=$2
    shift 2
    if bash "$top/samples/live/$script" "$live" "$program" "$@" > "$work/drills" 2>&1; then pass; else fail "$what" < "$work/drills"; fi
}

# By a program of `rt try` each replay behind a drill takes most of a minute.
if [ -n "${TRIED:-}" ]; then
    echo "left out samples/live, which replay by the built program"
elif [ -x "$live" ] && command -v bash > /dev/null; then
    drills 'primaries that are processes' drill.sh 10
    if [ -f "$lua" ]; then
        drills 'Lua on primaries that are processes' drill.sh 10 1 800 10 lua
    else
        echo "left out Lua on primaries that are processes, since there is no $lua"
    fi
    if [ -f "$sqlite" ] && python3 -c 'import sqlite3' 2> /dev/null; then
        drills "SQLite beside the host's" sqlite.sh 10
    else
        echo "left out SQLite beside the host's, since there is no $sqlite or no python3 with SQLite"
    fi
    if command -v redis-server > /dev/null && command -v python3 > /dev/null; then
        drills 'processes over a Redis server' carried.sh 10 1 200 redis
    else
        echo "left out processes over a Redis server, since no redis-server or python3 is installed"
    fi
    if has_namespaces; then
        drills 'processes in two network namespaces' carried.sh 10 1 200 socat
    else
        echo "left out processes in two network namespaces, since there is no socat or no right to make them"
    fi
    drills 'what goes amiss between processes' amiss.sh
    drills 'each fault line' faults.sh
    drills 'what is told of logs, and how they are mended' mend.sh
    drills 'disks that are lost, and new logs' renew.sh 3
    if ! command -v cc > /dev/null; then
        echo "left out samples/live/power.sh, since no C compiler is installed"
    elif bash "$top/samples/live/power.sh" "$live" 2 > "$work/drills" 2>&1; then
        pass
    else
        fail 'processes whose power fails' < "$work/drills"
    fi
    drills 'paths that are torn, removed, or read by nobody' paths.sh
    drills 'a primary that nobody acknowledges' ahead.sh
    if command -v socat > /dev/null; then
        drills 'links that break' breaks.sh
    else
        echo "left out links that break, since there is no socat"
    fi
fi

# Each row of refused file calls with three of them, and what is changed by chance for five seconds.
if [ -n "${TRIED:-}" ] || [ ! -x "$live" ]; then
    echo "left out benches/live, since there is no proved $live"
elif command -v cc > /dev/null && command -v python3 > /dev/null && [ -d /dev/shm ]; then
    if sh "$top/benches/live/refusals.sh" "$live" "$program" quick > "$work/calls" 2>&1; then
        pass
    else
        fail "processes of which file calls are refused" < "$work/calls"
    fi
    if sh "$top/benches/live/chance.sh" "$live" 5 > "$work/chance" 2>&1; then
        pass
    else
        fail "processes that are sent what is changed by chance" < "$work/chance"
    fi
else
    echo "left out benches/live, since a C compiler, python3 or /dev/shm is not there"
fi

echo "$passed passed, $failed failed"
[ "$failed" = 0 ]
