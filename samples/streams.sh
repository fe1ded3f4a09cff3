#!/bin/sh
# streams.sh LOG COUNT FOLDER: writes the streams 0, 1, .. below COUNT into the folder, out of the frames of a log. Each frame
# goes into two streams, and stands twice in each, in an order that falls by chance. Needs GNU od and shuf.
set -eu
log=$1
count=$2
folder=$3
work=$(mktemp -d)
trap 'rm -rf "$work"' EXIT

# A frame has 8 bytes, the last four of which are its body's length; the body; and 32 bytes.
size=$(wc -c < "$log")
at=0
frames=0
while [ "$at" -lt "$size" ]; do
    body=$(od -An -tu4 --endian=little -j "$((at + 4))" -N 4 "$log" | tr -d ' ')
    tail -c "+$((at + 1))" "$log" | head -c "$((body + 40))" > "$work/$frames"
    at=$((at + body + 40))
    frames=$((frames + 1))
done

mkdir -p "$folder"
stream=0
while [ "$stream" -lt "$count" ]; do
    frame=0
    while [ "$frame" -lt "$frames" ]; do
        if [ "$((frame % count))" -eq "$stream" ] || [ "$(((frame + 1) % count))" -eq "$stream" ]; then
            echo "$work/$frame"
            echo "$work/$frame"
        fi
        frame=$((frame + 1))
    done | shuf | while read -r name; do cat "$name"; done > "$folder/$stream"
    stream=$((stream + 1))
done
