#!/bin/sh
# Counts what running four harts takes and what replaying their log does, in turn and on threads, what feeding a follower that log
# piece by piece takes, what going live from two stores of it does and what joining and replaying these stores does, and what a
# frame of a long log of small pieces costs to join and to plan, by callgrind. Needs rt and valgrind on the PATH. Works in a
# folder of its own, which it removes.
set -eu

here=$(cd "$(dirname "$0")" && pwd)
. "$here/../workspace.sh"

workspace replaying_bench "ft_types input_log guest_image page_book lease_rounds fragment_codec log_pieces log_join closed_cut hart_replay hart_threads warm_backup go_live anyhow" run 1

"$program" run 1
"$program" replay 1
"$program" live 1
"$program" parts 1
"$program" threads_run 1
"$program" threads_replay 1
"$program" follow 250 1
"$program" backup 250 1

# What two more rounds cost, each.
per_round() {
    few=$(count "$program" "$1" 1)
    many=$(count "$program" "$1" 3)
    echo $(((many - few) / 2))
}

a=$(per_round run)
b=$(per_round replay)
awk "BEGIN { printf \"run %d, replay %d instructions, ratio %.3f\n\", $a, $b, $b / $a }"

a=$(per_round threads_run)
b=$(per_round threads_replay)
awk "BEGIN { printf \"on threads: run %d, replay %d instructions, ratio %.3f\n\", $a, $b, $b / $a }"

# What one call of a function costs over a log that is cut so often. Its frames are made before it, and what it gives is compared and
# dropped behind it.
call() {
    valgrind --tool=callgrind --callgrind-out-file=/dev/null --toggle-collect="replaying_bench::following::$1*" \
        "$program" "$2" "$3" 1 ${4:+"$4"} 2>&1 | awk '/Collected/ { print $4 }'
}

# What finding positions and plans costs in one of two more rounds of a follower of a log that is cut so often.
inside() {
    for rounds in 1 3; do
        valgrind --tool=callgrind --callgrind-out-file="$work/calls" "$program" follow "$1" "$rounds" ${2:+"$2"} > "$work/said" 2>&1
        callgrind_annotate --inclusive=yes --threshold=100 "$work/calls" |
            awk '/closed_cut::walk::position |hart_replay::planning::plan / { gsub(",", "", $1); sum += $1 } END { printf "%.0f\n", sum }'
    done | awk 'NR == 1 { few = $1 } NR == 2 { printf "%.0f\n", ($1 - few) / 2 }'
}

for cuts in 125 250 500 "250 often"; do
    set -- $cuts
    a=$(call replay_whole whole $cuts)
    b=$(call follow follow $cuts)
    c=$(inside $cuts)
    d=$(call keep_warm backup $cuts)
    e=$(call replay_frames anew $cuts)
    echo "cut $cuts: replay of the whole $a, from its frames $e, follower $b, of which planning $c instructions, ratio beside planning $(awk "BEGIN { printf \"%.3f\", ($b - $c) / $a }"), backup $d, ratio $(awk "BEGIN { printf \"%.3f, from the frames %.3f\", $d / $a, $d / $e }")"
    for part in whole anew backup; do
        "$program" $part "$1" 12 ${2:+"$2"}
    done
done

a=$(per_round parts)
b=$(per_round live)
awk "BEGIN { printf \"joined and replayed %d, gone live %d instructions, ratio %.3f\n\", $a, $b, $b / $a }"

for frames in 10000 100000 1000000; do
    made=$(count "$program" make "$frames")
    joined=$(count "$program" join "$frames")
    few=$(count "$program" plan "$frames" 1)
    many=$(count "$program" plan "$frames" 3)
    awk "BEGIN { printf \"%-8s frames: join %.0f, plan %.0f instructions per frame\n\", \"$frames\", ($joined - $made) / $frames, ($many - $few) / 2 / $frames }"
done
"$program" join 1000000
"$program" plan 1000000 3
