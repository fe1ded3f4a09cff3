#!/bin/sh
# measure.sh [LIVE [WORKBENCH [quick]]]: what a pair as processes costs, with three keepers of whom two must hold an answer, the service of guests/service, FIFOs
# and a client in C (hops.c), a row each:
# - from request to answer, one under way: the median and what 99 of 100 are below, with the keepers' logs on disk and in memory, where bringing them to disk costs
#   nothing; and the same over a primary and keepers in plain C that hand as many bytes on and know no guest, with and without fdatasync, in turn with the pair;
#   of processes that run where the system has them run, and, where there are four processors, of each on one of its own; keepers acknowledge by a path each, and in
#   another pair all by one;
# - how many requests a second with 1, 8 and 64 under way, logs on disk;
# - how many steps a second a primary records of a guest that counts, beside `workbench run`;
# - from kill -9 of the primary to the next answer, with 10,000 requests behind it: handing two logs over, going live, and all that keepers are sent once more.
# LIVE and WORKBENCH are the built programs, by themselves those that `rt run` leaves. With `quick` it does less of each. The folder DISK is the disk, by itself
# /var/tmp. In some four minutes, on a machine on which nothing else runs; needs a C compiler, python3 and /dev/shm.
set -eu
here=$(cd "$(dirname "$0")" && pwd)
live=${1:-$here/../../crates/live/out/live}
workbench=${2:-$here/../../crates/workbench/out/workbench}
work=$(mktemp -d)
trap 'rm -rf "$work"' EXIT

cc -O2 -Wall -o "$work/hops" "$here/hops.c"
python3 -B "$here/measure.py" "$live" "$workbench" "$work/hops" ${3:-}
