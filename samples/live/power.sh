#!/bin/bash
# power.sh [LIVE [ROUNDS [SEED]]]: the power of all machines fails at once, so many times: at a random moment all processes of a pair are killed, and of each log and file of
# fences that is left which was brought to disk, and files alone whose folder was brought to disk behind their making; note_syncs.c, which is loaded before the programs' C
# library, notes what was. Mostly that is while a primary answers a client that has 1 to 64 requests under way, sometimes while two keepers hand over. Then the keepers begin
# again, two of them hand over, and the client of the next term asks other words by the same numbers: each number that had an answer must have it again, and no other.
# Every ten rounds a pair begins anew. At last a pair runs whose fdatasync does nothing: there answers must be lost, or the rounds before show nothing. LIVE is the built program,
# by itself the one that `rt run` leaves. The last line is 'N passed, N failed'. Needs bash, mkfifo, truncate and a C compiler.
here=$(cd "$(dirname "$0")" && pwd)
built=${1:-$here/../../crates/live/out/live}
rounds=${2:-10}
RANDOM=${3:-1}
. "$here/common.sh" "$built" "$built"
cut=0
gone=0

cc -O1 -shared -fPIC -o "$work/notes.so" "$here/note_syncs.c" -ldl || exit 2
# A guest of one hart that says each word that it is given: the answer of number N is the word of number N.
image=$work/image
printf '%s\n' 'harts 1' 'pages 1' f00000b7 00000293 00001337 00135313 0040a103 fe510ee3 0060a623 0000a183 00010293 0030a423 fe9ff06f > "$image"

# begin FOLDER: FIFOs, and nothing answered yet.
begin() {
    local k
    mkdir "$1"
    cd "$1" || exit 2
    mkfifo in out
    for k in 0 1 2; do
        mkfifo "frames.$k" "acks.$k"
        LD_PRELOAD=$work/notes.so NOTES_SKIP=$skip make_log "$k" "log.$k"
    done
    : > answers.before
    term=0
}

# keepers: all three, whose processes are then in `processes`.
keepers() {
    local k
    processes=()
    for k in 0 1 2; do
        LD_PRELOAD=$work/notes.so NOTES_SKIP=$skip "$live" keeper "$image" "$k" "log.$k" from "frames.$k" to "acks.$k" 2>> "faults.$k" &
        processes+=($!)
    done
}

# fails: the power does, so that what the disks have is left.
fails() {
    local f left is
    { kill -9 "${processes[@]}" && wait "${processes[@]}"; } 2> /dev/null
    for f in log.[0-2] log.[0-2].fences; do
        if [ ! -e "$f" ]; then continue; fi
        if ! grep -qxF "$f" folder.synced 2> /dev/null; then
            rm -f "$f" "$f.synced"
            gone=$((gone + 1))
            continue
        fi
        left=$(cat "$f.synced" 2> /dev/null || echo 0)
        is=$(wc -c < "$f")
        if [ "$left" -lt "$is" ]; then
            truncate -s "$left" "$f"
            cut=$((cut + is - left))
        fi
    done
    ls > names
    mv names folder.synced
}

# gives: two keepers hand over to the next term, with a chance that the power fails meanwhile. Whether both did.
gives() {
    local k
    term=$((term + 1))
    choose
    handed=()
    for k in $heirs; do
        LD_PRELOAD=$work/notes.so NOTES_SKIP=$skip "$live" hand "$image" "$k" "log.$k" "$term" > "handed.$k" 2> refused &
        processes+=($!)
        if [ "$1" = dark ]; then
            sleep "0.00$((RANDOM % 10))"
            fails
            return 1
        fi
        if ! wait $!; then
            fail "$PWD: hand $k to term $term" < refused
            return 1
        fi
        handed+=("handed.$k")
    done
}

# round N: a term is led until the power fails; how many numbers have another word than before is then `lost`, and how many have none `missing`.
round() {
    local before window=$((1 + RANDOM % 64)) wanted client
    before=$(wc -l < answers.before)
    keepers
    if [ "$((RANDOM % 4))" = 0 ]; then
        gives dark
        keepers
    fi
    if ! gives ''; then fails; return; fi
    "$live" primary "$image" "$term" 3 2 in in out out to frames.0 frames.1 frames.2 from acks.0 acks.1 acks.2 with "${handed[@]}" 2>> faults.primary &
    processes+=($!)
    awk -v first="$((term * 1000000))" 'BEGIN { for (i = 0; i < 50000; i++) printf "%08x\n", first + i }' > words
    : > answers
    "$live" client words "$window" 100 to in from out > answers 2>> faults.client &
    client=$!
    wanted=$((before + 1 + RANDOM % 500))
    has answers "$wanted" "$client"
    blink
    processes+=("$client")
    fails
    # the last line of a client that was killed may be torn
    awk 'NF == 4' answers > whole
    lost=$(contradicts answers.before whole | wc -l)
    missing=$((before - $(awk -v many="$before" 'NR <= many' whole | wc -l)))
    mv whole answers.before
}

skip=''
for number in $(seq "$rounds"); do
    if [ "$((number % 10))" = 1 ]; then begin "$work/pair.$number"; fi
    lost=0
    missing=0
    round
    is "round $number: answers that are lost, and that are missing" '0 0' "$lost $missing"
    wc -l < answers.before >> "$work/tally"
    is "round $number: faults" '' "$(faults faults.* 2> /dev/null)"
    rm -f faults.*
done

skip=fdatasync
begin "$work/control"
sum=0
for number in 1 2 3; do
    lost=0
    missing=0
    round
    sum=$((sum + lost + missing))
done
if [ "$sum" -gt 0 ]; then pass; else fail 'where fdatasync does nothing answers are lost' < /dev/null; fi

echo "$cut bytes were not on disk and were cut off, and $gone files whose names were not; where fdatasync does nothing $sum answers were lost"
tell
