#!/bin/sh
# refusals.sh [LIVE [WORKBENCH [quick]]]: runs a pair of processes over FIFOs, with three keepers of whom two must hold an answer and a client that has six words,
# and refuses each call that whoever makes logs, a keeper, whoever hands a log over, the primary or the client makes of write, fsync or fdatasync, open, ftruncate or unlink, a pair for
# each: that one call alone, with EIO, or from that one on, with half of it done and ENOSPC, as on a disk that is full (refuse_calls.c, which is loaded before the
# programs' C library). The process must end with status 1 and one line of fault, or go on; what ended begins again, or the next term is led, with nothing refused.
# Then the client must have the answers that the service gives to the words in order, what was printed before must begin them, the machine to which the logs lead must have
# these outputs and no others, and each keeper's log must have what the keeper acknowledged. A row a process and kind; the last line is 'N passed, N failed'.
# LIVE and WORKBENCH are the built programs, by themselves those that `rt run` leaves. With `quick` three calls of each row are tried, each once. JOBS says how many pairs at a
# time, by itself 2. The pairs lie in the folder DISK, by itself /dev/shm. Needs a C compiler and python3.
set -eu
here=$(cd "$(dirname "$0")" && pwd)
live=${1:-$here/../../crates/live/out/live}
workbench=${2:-$here/../../crates/workbench/out/workbench}
work=$(mktemp -d)
trap 'rm -rf "$work"' EXIT

ulimit -c 0
cc -O2 -shared -fPIC -o "$work/refuse_calls.so" "$here/refuse_calls.c" -ldl
python3 -B "$here/refusals.py" "$live" "$workbench" "$work/refuse_calls.so" ${3:-}
