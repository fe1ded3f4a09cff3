#!/bin/sh
# Counts the instructions per frame of a log that comes frame by frame, by callgrind. Needs rt and valgrind on the PATH. Works
# in a folder of its own, which it removes. Where `counts` is set, as in `counts=10000 sh measure.sh`, only logs of so many frames
# are counted.
set -eu

here=$(cd "$(dirname "$0")" && pwd)
. "$here/../workspace.sh"

workspace tracked_bench "closed_cut tracked_position log_join fragment_codec ft_types input_log edge_log anyhow"

for frames in ${counts:-10000 100000 1000000}; do
    for order in in_turn streams mixed; do
        made=$(count "$program" "$frames" "$order" make)
        joined=$(count "$program" "$frames" "$order" join)
        tracked=$(count "$program" "$frames" "$order" track)
        awk "BEGIN { printf \"%-6s frames, %-7s joined %.0f, tracked %.0f instructions per frame\n\", \"$frames\", \"$order\", ($joined - $made) / $frames, ($tracked - $made) / $frames }"
    done
done
