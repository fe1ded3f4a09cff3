#!/bin/bash
# faults.sh [LIVE [WORKBENCH]]: each fault line that docs/FORMATS.md has for `live`, provoked by a row, with its status. At the end it compares the lines that came with those
# that stand there: none is without a row, and none comes that does not stand there. What is done about such lines is in amiss.sh, keeper.sh and mend.sh. LIVE and WORKBENCH
# are the built programs, by themselves those that `rt run` leaves. In some ten seconds; the last line is 'N passed, N failed'. Needs bash, mkfifo, sha256sum and cc.
. "$(dirname "$0")/common.sh"
image=$top/guests/images/service.image
other=$top/samples/hand_over.image
cd "$work" || exit 2
: > seen

# says LINE WORDS..: the program's fault line and status by these words, reading nothing.
says() {
    local line=$1 status=1
    shift
    if [ "$line" = 'fault usage' ]; then status=2; fi
    "${before[@]}" "$live" "$@" > said 2> err < /dev/null
    is "$line" "$status $line" "$? $(grep '^fault' err)"
    cat err >> seen
}
before=()

# seal TEXT [IMAGE]: its line under the seal of the image's guest.
seal() {
    local digest
    digest=$(sha256sum < "${2:-$image}" | cut -c1-64)
    echo "$1 $({ printf "$(sed 's/../\\x&/g' <<< "$digest")"; printf %s "$1"; } | sha256sum | cut -c1-8)"
}

# make K LOG [FILE]: a log of keeper K, with a file's frames; record SCRIPT LOG: frames of the image's guest.
make() {
    "$live" make "$image" "$1" 3 2 "$pair" "$2"
    if [ $# = 3 ]; then cat "$3" > "$2"; fi
}
record() {
    echo "$1" > script
    "$workbench" run "$image" script 1000 "$2" > text
}
record '0 5 word 01070011' own
record '0 5 word 01070012' unlike
cat own unlike > clash
printf 'VFx' > broken
"$workbench" run "$other" "$top/samples/hand_over.script" 100 foreign > text
: > none

# Words, files and images.
says 'fault usage' keeper "$image" 9 log from none to none
says 'fault file nowhere: No such file or directory (os error 2)' check nowhere log
says 'fault file .: Is a directory (os error 21)' check . log
says "fault file $image/log: Not a directory (os error 20)" hand "$image" 0 "$image/log" 1
printf 'harts 1\npages 1\n0000006\n' > bad.image
says 'fault image 1 line 3' check bad.image log
printf 'harts 33\npages 1\n' > bad.image
says 'fault image 2' check bad.image log
printf 'harts 0\npages 1\n' > bad.image
says 'fault image 3' check bad.image log
make 0 log own
before=(sh -c 'exec "$@" > /dev/full' -)
says 'fault write' check "$image" log
make 0 large
head -c 60000000 /dev/zero > large
before=(bash -c 'ulimit -v 40000; exec "$@"' -)
says 'fault memory' check "$image" large
rm large
if command -v cc > /dev/null; then
    echo 'int clock_gettime(int clock, void *time) { return -1; }' > clock.c
    cc -w -shared -fPIC -o clock.so clock.c
    before=(env LD_PRELOAD="$work/clock.so")
    echo 01070011 > words
    says 'fault clock' client words 1 100 to none from none
else
    echo 'left out fault clock, since no C compiler is installed'
    echo 'fault clock' >> seen
fi
before=()

# A log and its fences. kept LINE [K [LOG]]: neither does a keeper begin with it, nor is it handed over.
term=9
kept() {
    term=$((term + 1))
    says "$1" keeper "$image" "${2:-0}" "${3:-log}" from none to none
    says "$1" hand "$image" "${2:-0}" "${3:-log}" "$term"
}
says 'fault log there' make "$image" 0 3 2 "$pair" log
: > log
mkfifo frames acks
exec 7<> frames 8<> acks
"$live" keeper "$image" 0 log from frames to acks 2> err.keeper &
keeper=$!
read -r -t 10 -u 8 line
says 'fault log locked' keeper "$image" 0 log from none to none
cp log copy
mv copy log
cat own >&7
ends "$keeper"
is 'a log that was renamed over' 'fault log moved' "$(grep '^fault' err.keeper)"
cat err.keeper >> seen
kept 'fault log other'
rm log log.fences
make 0 log own
"$live" hand "$image" 0 log 9 > handed
says 'fault fence 9' hand "$image" 0 log 9
says 'fault fence far 9' hand "$image" 0 log 1048586
cp log.fences copy
mv copy log.fences
kept 'fault log fences'
make 0 mine own
kept 'fault log keeper' 1 mine
"$live" make "$other" 0 3 2 "$pair" theirs
kept 'fault log line' 0 theirs
ln -s nowhere link
kept 'fault log link' 0 link
touch mine.failed
kept 'fault log failed' 0 mine
rm mine.failed
cat broken > mine
kept 'fault log frame 2' 0 mine
cat foreign > mine
kept 'fault log guest' 0 mine
cat clash > mine
says 'fault log clash' keeper "$image" 0 mine from none to none

# Frames that come to a keeper.
: > acks.file
for it in 'broken frame 2' 'foreign guest' 'clash clash'; do
    rm -f mine mine.fences
    make 0 mine
    says "fault input 0 ${it#* }" keeper "$image" 0 mine from "${it%% *}" to acks.file
done

# Logs from which one is mended.
mend() { says "$1" mend "$image" mine "$2"; }
rm mine mine.fences
make 0 mine own
make 1 whole own
printf '\001' | dd of=mine bs=1 seek=20 conv=notrunc 2> dd.text
mend 'fault log behind' whole
cat own > mine
make 2 from unlike
mend 'fault from 0 clash' from
cat foreign > from
mend 'fault from 0 guest' from
cp theirs.fences from.fences
mend 'fault from 0 line' from
"$live" make "$image" 1 3 2 "$(tr 0-9a-f 1-9a-f0 <<< "$pair")" others
mend 'fault from 0 pair' others

# What is handed over to a primary of term 7, of one keeper. handed FILE [K [TERM]]: as it is handed over; leads LINE HANDED..: the primary's fault line.
handed() {
    seal "pair 1 1 $pair"
    seal "handed ${3:-7} ${2:-0} $(wc -c < "$1")"
    cat "$1"
}
leads() {
    local line=$1
    shift
    says "$line" primary "$image" 7 1 1 in none out none to none from none with "$@"
}
for it in 'broken frame 2' 'foreign guest' 'clash clash'; do
    handed "${it%% *}" > gone
    leads "fault handed 0 ${it#* }" gone
done
head -c -3 own > torn
handed torn > gone
leads 'fault handed 0 torn' gone
{ handed own; echo; } > gone
leads 'fault handed 0 length' gone
{ seal "pair 1 1 $pair"; seal "handed 7 0 0" "$other"; } > gone
leads 'fault handed 0 line' gone
leads 'fault handed 0 pair' none
{ seal "pair 3 2 $pair"; handed own | tail -n +2; } > gone
leads 'fault handed 0 quorum' gone
handed own 1 > gone
leads 'fault handed keeper' gone
handed own 0 8 > gone
leads 'fault handed term' gone
handed own > gone
handed unlike > gone.too
leads 'fault handed clash' gone gone.too
{ seal "pair 3 2 $pair"; seal 'handed 7 0 0'; } > gone
says 'fault live 1' primary "$image" 7 3 2 in none out none to none from none with gone
seal "pair 1 1 $pair" > gone
{ seal 'handed 1 0 '"$(wc -c < own)"; cat own; } >> gone
says 'fault live 2' primary "$image" 1 1 1 in none out none to none from none with gone

# A guest that halts with its second step, and frames that lead it further.
printf 'harts 1\npages 1\nf00000b7\n0000aa23\n' > halts.image
image=halts.image
# frame KIND BODY..: a frame of version 1, its body in hexadecimal digits.
frame() {
    local kind=$1 body digits
    shift
    body=$(printf %s "$@")
    digits=564601$kind$(printf '%02x000000' $((${#body} / 2)))$body
    digits+=$(printf "$(sed 's/../\\x&/g' <<< "$digits")" | sha256sum | cut -c1-64)
    printf "$(sed 's/../\\x&/g' <<< "$digits")"
}
guest=$(sha256sum < halts.image | cut -c1-64)
{
    frame 02 "${guest}01" 01000000 00000000 0000000000000000
    frame 01 "${guest}0100" 01000000 00000000 0000000000000000 0500000000000000 0000
} > further
handed further > gone
leads 'fault live 3' gone

# What a client hears. hears LINE ANSWERS..: by these lines.
hears() {
    local line=$1
    shift
    printf '%s\n' "$@" > answers
    says "$line" client words 1 100 to none from answers
}
echo 0107 > words
hears 'fault words line 1' ''
echo 01070011 > words
hears 'fault unanswered 0' ''
hears 'fault full' '0 full'
hears 'fault contradiction' "term 1 hart 0 number 0 step 1 word 0000000"{1,2}

# Each line of FORMATS came, and no other. In a line X stands for four words; a FROM is taken up to its first fault.
{
    echo 'fault usage'
    awk '
    /^## / { ours = $0 == "## Both programs" || $0 == "## `live`" }
    ours && /^`fault / {
        split($0, cells, "|")
        many = split(cells[1], parts, "`")
        for (at = 2; at <= many; at += 2) print parts[at]
    }' "$top/docs/FORMATS.md"
} | while read -r line; do
    case $line in
        'fault X '*) for x in log 'input I' 'handed I' 'from I'; do echo "fault $x ${line#fault X }"; done ;;
        *) echo "$line" ;;
    esac
done | grep -v '^fault from I frame' | sed 's/ [A-Z]\>/ #/g; s/NAME/#/; s/[0-9][0-9]*/#/g' | sort -u > wanted.lines
grep '^fault' seen | sed 's/^fault file .*/fault file #/; s/[0-9][0-9]*/#/g' | sort -u > seen.lines
same 'the lines of docs/FORMATS.md' wanted.lines seen.lines

echo "$passed passed, $failed failed"
[ "$failed" = 0 ]
