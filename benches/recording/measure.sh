#!/bin/sh
# Counts the host instructions that a step of a guest with one hart takes, bare, with a decoder and recorded, by callgrind.
# Needs rt and valgrind on the PATH. Works in a folder of its own, which it removes.
set -eu

here=$(cd "$(dirname "$0")" && pwd)
. "$here/../workspace.sh"

workspace recording_bench "ft_types rv32_hart guest_image page_book lease_rounds anyhow" record loop 3000

# All leave the same hart.
for guest in loop outputs; do
    "$program" bare "$guest" 30000 > "$work/bare.txt"
    for way in decoder record; do
        "$program" "$way" "$guest" 30000 > "$work/other.txt"
        cmp "$work/bare.txt" "$work/other.txt"
    done
done

# What the steps from one number to another cost, per step.
per_step() {
    few=$(count "$program" "$1" "$2" "$3")
    many=$(count "$program" "$1" "$2" "$4")
    awk "BEGIN { printf \"%.2f\", ($many - $few) / ($4 - $3) }"
}

a=$(per_step bare loop 300000 1000000)
d=$(per_step decoder loop 300000 1000000)
b=$(per_step record loop 300000 1000000)
echo "bare        $a host instructions per guest instruction"
echo "decoder     $d host instructions per guest instruction"
echo "recorded    $b host instructions per guest instruction"
awk "BEGIN { printf \"ratio       %.2f\n\", $b / $a }"

for way in bare record; do
    a=$(per_step "$way" outputs 0 30000)
    b=$(per_step "$way" outputs 30000 300000)
    echo "$way, with an output at every third step: $a per step up to 30,000 steps, then $b up to 300,000"
done
