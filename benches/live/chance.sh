#!/bin/sh
# chance.sh [LIVE [SECONDS [SEED [FIRST [COUNT]]]]]: for SECONDS, 600 by itself, starts keepers, hands, primaries and clients on frames, logs, fences, requests,
# acknowledgements, answers, words and handed logs that are changed by chance: bytes, lines and numbers, and frames whose digests and lines whose seals are right
# again, so that it is their content that is wrong. Over files a process must end in time with status 0 and nothing on standard error, with 1 and lines of fault, or with 2 and
# `fault usage`, and not for want of memory; a keeper's log must keep the frames that it had, and have whole ones; what is handed over must be the log's; a client's
# answers must come in order. Every thirtieth process is one over FIFOs: what was changed comes first, and it must go on and take what is right behind it. Prints how
# many of each kind ended how; what is otherwise is printed, and its files are kept in the temporary folder. The last line is 'N passed, N failed'. LIVE is the built
# program, by itself the one that `rt run` leaves. The seed is printed: given again, with the number of the first process and how many, it makes the same. JOBS says how many
# at a time, by itself 2. Needs python3 and /dev/shm.
set -eu
here=$(cd "$(dirname "$0")" && pwd)
live=${1:-$here/../../crates/live/out/live}
ulimit -c 0
exec python3 -B "$here/chance.py" "$live" "${2:-600}" "${3:-$(od -An -N4 -tu4 /dev/urandom | tr -d ' ')}" ${4:-} ${5:-}
