#!/bin/sh
# Counts the instructions that `decode` takes per word, proved and in plain Rust, by callgrind.
# Needs rt, rustc and valgrind on the PATH. Works in a folder of its own, which it removes.
set -eu

here=$(cd "$(dirname "$0")" && pwd)
. "$here/../workspace.sh"

workspace decode_bench "rv32_isa anyhow"
proved=$program

# The same decoder in plain Rust.
plain="$work/baseline"
rustc --edition 2024 -O "$here/baseline.rs" -o "$plain"

# Both decode each word of the table alike.
"$proved" > "$work/proved.txt"
"$plain" > "$work/plain.txt"
cmp "$work/proved.txt" "$work/plain.txt"

# What 1,000 more rounds over the table of 76 words cost, per word.
per_word() {
    few=$(count "$1" 1000)
    many=$(count "$1" 2000)
    awk "BEGIN { printf \"%.2f\", ($many - $few) / 1000 / 76 }"
}

a=$(per_word "$proved")
b=$(per_word "$plain")
echo "proved      $a instructions per word"
echo "plain Rust  $b instructions per word"
awk "BEGIN { printf \"ratio       %.2f\n\", $a / $b }"
