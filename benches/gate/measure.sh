#!/bin/sh
# Counts what a look of a gate takes over a board of five keepers and eight harts, and what a keeper's publish does, by callgrind.
# Needs rt and valgrind on the PATH. Works in a folder of its own, which it removes.
set -eu

here=$(cd "$(dirname "$0")" && pwd)
. "$here/../workspace.sh"

workspace gate_bench "ft_types closed_cut ack_core output_gate anyhow" still 1

# What 1,000 more rounds cost, each.
per_round() {
    few=$(count "$program" "$1" 1000)
    many=$(count "$program" "$1" 2000)
    awk "BEGIN { printf \"%.1f\n\", ($many - $few) / 1000 }"
}

still=$(per_round still)
publish=$(per_round publish)
moved=$(per_round moved)
given=$(per_round given)
awk "BEGIN {
    printf \"a look: %.1f instructions\n\", $still
    printf \"a publish: %.1f instructions\n\", $publish / 5
    printf \"a look after each keeper published: %.1f instructions\n\", $moved - $publish
    printf \"an output that is offered and released: %.1f instructions\n\", $given - $moved
}"
