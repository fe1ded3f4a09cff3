#!/bin/bash
# package.sh LIVE WORKBENCH: makes the Debian package of these programs, installs it by dpkg into a root that has nothing but a shell, the C library and what pair.sh calls, and
# runs pair.sh, manual pages and both programs there, without the kit. Its last line is 'the package works'. Needs dpkg-buildpackage, make, bash, unshare and the right to chroot.
set -eu
top=$(cd "$(dirname "$0")/.." && pwd)
live=$(realpath "$1")
workbench=$(realpath "$2")
work=$(mktemp -d)
trap 'rm -rf "$work"' EXIT
source=$work/source
root=$work/root

mkdir "$source"
tar -C "$top" --exclude=./.git --exclude=out -cf - . | tar -C "$source" -xf -
install -D "$live" "$source/crates/live/out/live"
install -D "$workbench" "$source/crates/workbench/out/workbench"
(cd "$source" && dpkg-buildpackage -b -us -uc > "$work/said" 2>&1) || { cat "$work/said"; exit 1; }

# put PROGRAM..: these, and the libraries that they need.
put() {
    for program in "$@"; do
        for file in "$(command -v "$program")" $(ldd "$(command -v "$program")" | grep -o '/[^ ]*'); do
            [ -e "$root$file" ] || install -D "$(realpath "$file")" "$root$file"
        done
    done
}
put bash dirname mktemp rm mkfifo od tr cat grep
mkdir -p "$root/tmp" "$root/dev" "$root/var/lib/dpkg/info" "$root/var/lib/dpkg/updates"
touch "$root/var/lib/dpkg/status" "$root/dev/urandom" "$root/dev/null"
dpkg --root="$root" --force-depends --force-script-chrootless -i "$work"/wazhilom_*.deb > "$work/said" 2>&1 || { cat "$work/said"; exit 1; }

# inside WORDS..: in that root, with the two devices that a shell and pair.sh open.
inside() { unshare -m bash -c 'for it in urandom null; do mount --bind "/dev/$it" "$0/dev/$it"; done; exec chroot "$0" "$@"' "$root" "$@"; }
inside /usr/bin/live --version
inside /usr/bin/workbench --version
inside "$(command -v bash)" /usr/share/wazhilom/samples/live/pair.sh /usr/bin/live > "$work/pair"
[ "$(grep -c '^number' "$work/pair")" = 12 ] || { cat "$work/pair"; exit 1; }
for page in live workbench; do gzip -cd "$root/usr/share/man/man1/$page.1.gz" | cmp - "$top/share/man/man1/$page.1"; done
echo 'the package works'
