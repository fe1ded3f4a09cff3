#!/bin/sh
# Times each guest: its harts in turn, on threads, by QEMU with instructions counted (on one core), and by QEMU with a thread for each hart; the
# median of nine runs each, in microseconds. QEMU's times are those of whole processes: what starting takes shows in the row `nothing`. Needs rt,
# four free cores, and for QEMU's columns qemu-system-riscv32 and gcc-riscv64-unknown-elf. Works in a folder of its own, which it removes.
set -eu

here=$(cd "$(dirname "$0")" && pwd)
. "$here/../workspace.sh"

BUDGET=1000000
LONG_BUDGET=20000000

workspace threads_bench "ft_types guest_image page_book lease_rounds hart_threads anyhow" plain "$here/images/nothing.image" "$BUDGET" 1

# middle: the median of the numbers, one a line.
middle() {
    sort -n | awk '{ at[NR] = $1 } END { print at[int((NR + 1) / 2)] }'
}

# told KIND GUEST: nine lines of the bench.
told() {
    budget=$BUDGET
    if [ "$2" = long ]; then budget=$LONG_BUDGET; fi
    "$program" "$1" "$here/images/$2.image" "$budget" 9
}

# took COMMAND..: how many microseconds it takes; fails where it does not end within twenty seconds.
took() {
    from=$(date +%s%N)
    timeout 20 "$@" > /dev/null 2>&1 || return 1
    echo $((($(date +%s%N) - from) / 1000))
}

# by_qemu HARTS ELF WORDS..: the median of nine runs; `late` where one does not end, and - where it cannot run.
by_qemu() {
    harts=$1
    elf=$2
    shift 2
    if [ ! -x "$elf" ] || ! command -v qemu-system-riscv32 > /dev/null; then
        echo -
        return
    fi
    for _run in 1 2 3 4 5 6 7 8 9; do
        took qemu-system-riscv32 -machine virt -bios none -nographic -monitor none -serial none -smp "$harts" "$@" -kernel "$elf" || break
    done > "$work/times"
    if [ "$(wc -l < "$work/times")" = 9 ]; then middle < "$work/times"; else echo late; fi
}

if command -v riscv64-unknown-elf-gcc > /dev/null; then
    make -s -C "$here" > "$work/make.txt" 2>&1 || cat "$work/make.txt"
fi
printf '%-10s %10s %10s %10s %10s  %s\n' guest plain threads icount mttcg 'steps and halted harts: in turn; on threads, in each run'
for guest in nothing one apart long adding spinlock barrier bells ring pollers turns apart_32 adding_32 barrier_32; do
    harts=$(head -1 "$here/images/$guest.image" | awk '{ print $2 }')
    told plain "$guest" > "$work/plain"
    told threads "$guest" > "$work/threads"
    plain=$(awk '{ print $1 }' "$work/plain" | middle)
    threads=$(awk '{ print $1 }' "$work/threads" | middle)
    icount=$(by_qemu "$harts" "$here/out/virt/$guest.elf" -icount shift=0)
    mttcg=$(by_qemu "$harts" "$here/out/virt/$guest.elf" -accel tcg,thread=multi)
    printf '%-10s %10s %10s %10s %10s  %s; %s\n' "$guest" "$plain" "$threads" "$icount" "$mttcg" \
        "$(awk 'NR == 1 { print $3, $5 }' "$work/plain")" "$(awk '{ printf "%s %s, ", $3, $5 }' "$work/threads")"
    # Where harts say the same by any schedule, they say it on threads.
    awk '{ print $NF }' "$work/plain" "$work/threads" | sort -u | awk 'END { if (NR > 1) print "    outputs differ" }'
done
