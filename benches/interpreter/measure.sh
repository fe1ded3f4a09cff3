#!/bin/sh
# Counts the host instructions that one guest instruction takes, proved and in plain Rust, by callgrind.
# Needs rt, rustc and valgrind on the PATH. Works in a folder of its own, which it removes.
set -eu

here=$(cd "$(dirname "$0")" && pwd)
. "$here/../workspace.sh"

workspace interpreter_bench "ft_types rv32_hart anyhow"
proved=$program

# The same interpreter in plain Rust.
plain="$work/baseline"
rustc --edition 2024 -O "$here/baseline.rs" -o "$plain"

# Both leave the same registers.
"$proved" 100000 > "$work/proved.txt"
"$plain" 100000 > "$work/plain.txt"
cmp "$work/proved.txt" "$work/plain.txt"

# What 200,000 more steps cost, per step.
per_step() {
    few=$(count "$1" 100000)
    many=$(count "$1" 300000)
    awk "BEGIN { printf \"%.2f\", ($many - $few) / 200000 }"
}

a=$(per_step "$proved")
b=$(per_step "$plain")
echo "proved      $a host instructions per guest instruction"
echo "plain Rust  $b host instructions per guest instruction"
