#!/bin/sh
# beside_qemu.sh [PROGRAM [ROUNDS]]: how many nanoseconds of user time an instruction of each guest takes when we record it, and by QEMU with
# `-icount shift=0`: the time of many instructions less that of few, so that starting falls away, ours and QEMU's turn by turn. For each the
# median of so many such differences (15), with the least and the most; and the same of the rounds' ratios, ours for one of QEMU. PROGRAM is a
# built threads_bench, by itself one that is built here. Needs rt, python3, qemu-system-riscv32 and gcc-riscv64-unknown-elf. Works in a folder of
# its own, which it removes.
set -eu
here=$(cd "$(dirname "$0")" && pwd)
. "$here/../workspace.sh"

rounds=${2:-15}
if [ $# -gt 0 ]; then
    program=$1
else
    here=$here/../threads
    workspace threads_bench "ft_types guest_image page_book lease_rounds hart_threads anyhow" plain "$here/images/nothing.image" 1000 1
    here=$here/../guests
fi
make -s -C "$here" virt > "$work/make.txt" 2>&1 || {
    cat "$work/make.txt"
    exit 1
}

# user COMMAND..: the user time that it takes, in nanoseconds; what it tells goes to the file `told`. Fails where it does not end in thirty seconds.
user() {
    python3 -c 'import resource, subprocess, sys
subprocess.run(sys.argv[2:], stdout=open(sys.argv[1], "w"), timeout=30, check=True)
print(round(resource.getrusage(resource.RUSAGE_CHILDREN).ru_utime * 1e9))' "$work/told" "$@"
}

# ours GUEST STEPS: the instructions that were taken, and the time.
ours() {
    time=$(user "$program" threads "$here/images/$1.image" "$2" 1)
    echo "$(awk 'NR == 1 { print $3 }' "$work/told") $time"
}

# qemu GUEST STEPS: the same by QEMU. Its memory goes as far as the guest's device page, so that an output is a store to RAM.
qemu() {
    time=$(user qemu-system-riscv32 -machine virt -m 2G -bios none -display none -monitor none -serial stdio -icount shift=0 \
        -kernel "$here/out/$1.elf" -device loader,file="$here/out/virt/$1.elf",cpu-num=0 \
        -device loader,addr=0x80200000,data=$(($2 / 100)),data-len=4)
    echo "$((0x$(tr -d '\r' < "$work/told"))) $time"
}

# each KIND GUEST FEW MANY: the time of an instruction from few to many.
each() {
    few=$("$1" "$2" "$3")
    many=$("$1" "$2" "$4")
    echo "$few $many" | awk '{ printf "%.2f\n", ($4 - $2) / ($3 - $1) }'
}

# middle DIGITS: the median of the numbers, one a line, with the least and the most.
middle() {
    sort -n | awk -v d="$1" '{ at[NR] = $1 } END { if (NR) printf "%.*f (%.*f to %.*f)", d, at[int((NR + 1) / 2)], d, at[1], d, at[NR] }'
}

# row GUEST OURS FEW MANY: a row of the table, with so many instructions by QEMU, and 20,000,000 to 120,000,000 of the image OURS.
row() {
    : > "$work/ours"
    : > "$work/qemu"
    for _round in $(seq "$rounds"); do
        each ours "$2" 20000000 120000000 >> "$work/ours"
        each qemu "$1" "$3" "$4" >> "$work/qemu"
    done
    paste "$work/ours" "$work/qemu" | awk '{ print $1 / $2 }' > "$work/ratios"
    printf '%-16s %-22s %-26s %s\n' "$1" "$(middle 1 < "$work/ours")" "$(middle 1 < "$work/qemu")" "$(middle 2 < "$work/ratios")"
}

echo "$(sed -n 's/^model name.*: //p' /proc/cpuinfo | sort | uniq -c | sed 's/^ *//'); load $(cut -d ' ' -f 1-3 /proc/loadavg)"
printf '%-16s %-22s %-26s %s\n' guest recorded 'QEMU, -icount shift=0' 'recorded for one of QEMU'
row mixture mixture 20000000 320000000
row dhrystone_apart dhrystone_apart 20000000 220000000
row dhrystone_mixed dhrystone_mixed 5000000 45000000
row outputs outputs 20000000 220000000
row outputs_device outputs 1000000 11000000
echo "load $(cut -d ' ' -f 1-3 /proc/loadavg)"
