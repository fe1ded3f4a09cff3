#!/bin/sh
# Counts what replaying the logs of guests takes, harts in turn, and what auditing them does, by callgrind. Needs rt and valgrind on the
# PATH. Works in a folder of its own, which it removes.
set -eu

here=$(cd "$(dirname "$0")" && pwd)
. "$here/../workspace.sh"

workspace auditing_bench "ft_types scripts guest_image page_book log_join closed_cut hart_replay log_streams log_audit anyhow" audit "$top/samples/four_harts.image" "$top/samples/four_harts.script" 100000 1

# What two more rounds cost, each.
per_round() {
    few=$(count "$program" "$1" "$2" "$3" 1000000 1)
    many=$(count "$program" "$1" "$2" "$3" 1000000 3)
    echo $(((many - few) / 2))
}

# row NAME IMAGE SCRIPT
row() {
    "$program" audit "$2" "$3" 1000000 1
    a=$(per_round replay "$2" "$3")
    b=$(per_round audit "$2" "$3")
    awk "BEGIN { printf \"%s: replay %d, audit %d instructions, ratio %.3f\n\", \"$1\", $a, $b, $b / $a }"
}

row "four harts that add" "$top/samples/four_harts.image" "$top/samples/four_harts.script"
for guest in bank matrix ring service sha256 sort; do
    row "$guest" "$top/guests/images/$guest.image" "$top/guests/$guest/script"
done
