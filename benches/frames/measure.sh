#!/bin/sh
# Counts the instructions per byte of pushing frames and of hashing the same bytes, by callgrind, and the memory of a feed.
# Needs rt and valgrind on the PATH. Works in a folder of its own, which it removes.
set -eu

here=$(cd "$(dirname "$0")" && pwd)
. "$here/../workspace.sh"

workspace frames_bench "log_join fragment_codec ft_types input_log edge_log sha2 anyhow"

# What two more rounds over the stream cost, per byte.
per_byte() {
    few=$(count "$program" "$1" "$2" 1)
    many=$(count "$program" "$1" "$2" 3)
    bytes=$("$program" "$1" "$2" 0 | awk '{ print $1 }')
    awk "BEGIN { printf \"%.3f\", ($many - $few) / 2 / $bytes }"
}

for kind in edges inputs small; do
    a=$(per_byte push "$kind")
    b=$(per_byte hash "$kind")
    c=$(per_byte join "$kind")
    awk "BEGIN { printf \"%-7s push %s, join %s, hash %s instructions per byte, ratios %.3f and %.3f\n\", \"$kind\", $a, $c, $b, $a / $b, $c / $b }"
done
