#!/bin/sh
# Times a pair of four harts with an output at every 1,000 steps, beside a primary alone, and the positions that a keeper finds over
# a run of many rounds. Needs rt on the PATH. Works in a folder of its own, which it removes.
set -eu

here=$(cd "$(dirname "$0")" && pwd)
. "$here/../workspace.sh"

workspace pair_bench "ft_types input_log edge_log guest_image page_book fragment_codec log_join closed_cut tracked_position hart_threads output_gate log_streams log_pieces fixtures go_live warm_backup warm_live pair anyhow" positions once 1

# Five runs of each.
for _run in 1 2 3 4 5; do
    "$program" bare 1000000
    "$program" rounds 1000000
    for keepers in 1 3 5; do
        "$program" pair "$keepers" 1000000
        "$program" warm "$keepers" 1000000
    done
    for kind in boot ready behind; do
        "$program" live "$kind" 1000000
    done
done

for rounds in 1000 2000; do
    for kind in kept each once; do
        "$program" positions "$kind" "$rounds"
    done
done
