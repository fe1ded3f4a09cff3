#!/bin/sh
# Counts the instructions per edge of finding the position of a store, by callgrind. Needs rt and valgrind on the PATH. Works
# in a folder of its own, which it removes.
set -eu

here=$(cd "$(dirname "$0")" && pwd)
. "$here/../workspace.sh"

workspace positions_bench "closed_cut log_join fragment_codec ft_types input_log edge_log anyhow"

# What two more rounds cost, per edge.
for edges in 100000 1000000; do
    for kind in met unmet; do
        few=$(count "$program" "$edges" "$kind" 1)
        many=$(count "$program" "$edges" "$kind" 3)
        awk "BEGIN { printf \"%-8s edges, %-5s %.1f instructions per edge\n\", \"$edges\", \"$kind\", ($many - $few) / 2 / $edges }"
    done
done
