#!/bin/sh
# Times reading images of full pages and writing the text of their boot machines, at 8, 16, 32 and 64 pages, and counts the
# instructions of both by callgrind. Needs rt and valgrind on the PATH. Works in a folder of its own, which it removes.
set -eu

here=$(cd "$(dirname "$0")" && pwd)
. "$here/../workspace.sh"

workspace images_bench "guest_image ft_types anyhow" 1 1

for pages in 8 16 32 64; do
    "$program" "$pages" 20
done

# What two more rounds of reading, booting and writing cost, per byte of the file.
for pages in 8 64; do
    few=$(count "$program" "$pages" 1)
    many=$(count "$program" "$pages" 3)
    awk "BEGIN { printf \"pages %d: %.1f instructions per byte of the file\n\", $pages, ($many - $few) / 2 / ($pages * 9216) }"
done
