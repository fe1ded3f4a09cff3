#!/bin/bash
# debug.sh [WORKBENCH [LIVE]]: gdb looks at logs, backwards. It finds the steps of two harts that race for a word (guests/race): in samples/race.log from the end back, and, where
# the program LIVE is there, in what three keepers of a pair hold whose primary was killed. Where a build of Lua with DEBUG=-g is in guests/out/-O2-g (guests/README.md), it
# finds in the keepers' logs of Lua on a pair the C function and line that put out the third answer. WORKBENCH and LIVE are the built programs, by themselves those that `rt run`
# leaves. The last line is 'N passed, N failed'. Needs bash and Debian's gdb-multiarch.
set -u
top=$(cd "$(dirname "$0")/.." && pwd)
workbench=$(realpath "${1:-$top/crates/workbench/out/workbench}")
live=$(realpath "${2:-$top/crates/live/out/live}")
work=$(mktemp -d)
trap 'rm -rf "$work"' EXIT
passed=0
failed=0

# look IMAGE LOG.. -- COMMAND..: what gdb says where it is given these commands over these logs.
look() {
    local files=() words=(-q -nx -batch -ex 'set architecture riscv:rv32' -ex 'set confirm off' -ex 'set pagination off')
    while [ "$1" != -- ]; do files+=("$1"); shift; done
    shift
    local target="target remote | $workbench debug ${files[*]}"
    for command in "$@"; do words+=(-ex "${command/TARGET/$target}"); done
    timeout 300 gdb-multiarch "${words[@]}" 2> "$work/errors"
}

# is WHAT WANTED GOT: whether two texts are one.
is() {
    if [ "$2" = "$3" ]; then
        passed=$((passed + 1))
    else
        failed=$((failed + 1))
        echo "failed: $1"
        diff <(echo "$2") <(echo "$3") | sed -n '1,30s/^/    /p'
        sed -n '1,10s/^/    /p' "$work/errors"
    fi
}

# line_of PATTERN: the line of the console of guests where this stands.
line_of() { grep -n "$1" "$top/guests/lua/lua.c" "$top/guests/kit/console.c" | head -1 | cut -d: -f2; }

# written: of what gdb says going back, who wrote the balance, and what it was before and behind.
written() { awk '/hit Hardware/ { thread = $2 } /^Old value/ { old = $4 } /^New value/ { print "thread", thread, "from", $4, "to", old }'; }

# lost: of two such lines, the later first, what each of two harts paid on what it had read: both read the same.
lost() { awk 'NR == 1 { thread = $2; end = $6 } NR == 2 && $2 != thread { print $6 - $4, end - $4 }' | tr ' ' '\n' | sort -n | xargs; }

back=('watch *(int *) 0x8000100c' reverse-continue reverse-continue)
(cd "$top" && look samples/race.image samples/race.log -- TARGET continue "${back[@]}") | written > "$work/written"
is 'who wrote the balance last, and who before' "$(printf 'thread 1 from 5 to 100\nthread 2 from 0 to 5')" "$(cat "$work/written")"
is 'what both paid' '5 100' "$(lost < "$work/written")"

# keep GUEST IMAGE: three keepers' logs of a pair whose primary was killed.
keep() {
    mkdir "$work/$1"
    LOGS=$work/$1 IMAGE=$2 "$top/samples/live/pair.sh" "$live" "$1" > "$work/$1/said" 2> "$work/errors"
}

if [ ! -x "$live" ]; then
    echo "left out what keepers hold, since there is no $live"
else
    keep race "$top/samples/race.image"
    logs=("$work"/race/log.*)
    look "$top/samples/race.image" "${logs[@]}" -- TARGET continue "${back[@]}" | written | lost > "$work/paid"
    is 'what both paid last, by the logs of three keepers' '5 7' "$(cat "$work/paid")"
fi

elf=$top/guests/out/-O2-g/lua.elf
if [ ! -x "$live" ] || [ ! -f "$elf" ]; then
    echo "left out Lua, since there is no $live or $elf"
else
    image=${elf%elf}image
    keep lua "$image"
    logs=("$work"/lua/log.*)
    number=$("$workbench" replay "$image" "${logs[@]}" | awk '$1 == "out" && $6 != "00000000" && number == "" { number = $2 } END { print number }')
    look "$image" "${logs[@]}" -- "file $elf" TARGET "monitor output 0 $number" 'maintenance flush register-cache' 'watch answers[0]' reverse-continue bt > "$work/lua.said"
    sed -nE 's/^#[0-9]+ +(0x[0-9a-f]+ in )?([a-z_A-Z]+) \(.* at [^ ]*(console|lua)\.c:([0-9]+)$/\2 \4/p' "$work/lua.said" | head -2 > "$work/frames"
    is 'the functions of Lua that put out the third answer' "$(printf 'put %s\nprint %s' "$(line_of 'answers\[printed++')" "$(line_of 'put(text\[byte\]')")" "$(cat "$work/frames")"
fi

echo "$passed passed, $failed failed"
[ "$failed" = 0 ]
