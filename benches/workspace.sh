# What the benchmarks share. A measure.sh sets `here` to its folder and then sources this file, which makes a folder `work`
# and removes it at the end. Needs rt and valgrind on the PATH.
top=$(cd "$here/../.." && pwd)
work=$(mktemp -d)
trap 'rm -rf "$work"' EXIT

# below CRATE..: those of these that the repository has, and all that they stand on there, in the order of crates.txt.
below() {
    awk -v want="$*" '
        { name = $1; sub(/:$/, "", name); order[NR] = name; line[name] = $0; sub(/^[^:]*:/, "", line[name]) }
        END {
            many = split(want, next_ones, " ")
            for (at = 1; at <= many; at++) {
                one = next_ones[at]
                if (!(one in line) || one in found) continue
                found[one] = 1
                more = split(line[one], deps, " ")
                for (dep = 1; dep <= more; dep++) next_ones[++many] = deps[dep]
            }
            for (at = 1; at <= NR; at++) if (order[at] in found) print order[at]
        }' "$top/crates.txt"
}

# workspace NAME USES [WORDS..]: the program NAME, which uses USES, with all crates that it stands on, in a workspace of their own. Proves,
# builds and runs it with these words, and sets `program` to it. Where `kept` is set, as in `kept=yes sh measure.sh`, what checks of the
# repository kept in out/ is copied too, and not proved again.
workspace() {
    name=$1
    uses=$2
    shift 2
    mkdir "$work/crates"
    cp "$top/HANDLES" "$work/"
    for crate in $(below "$uses"); do
        mkdir "$work/crates/$crate"
        for part in src specs proofs ${kept:+out}; do
            if [ -d "$top/crates/$crate/$part" ]; then
                cp -R "$top/crates/$crate/$part" "$work/crates/$crate/"
            fi
        done
        grep "^$crate[ :]" "$top/crates.txt" >> "$work/crates.txt"
    done
    cp -R "$here/$name" "$work/crates/"
    # The gate reads each .rt and .antt file as a part of a crate, so those of benchmarks end in .rt.txt and .antt.txt.
    find "$work/crates/$name" -name '*.txt' | while read -r file; do
        mv "$file" "${file%.txt}"
    done
    echo "$name: $uses" >> "$work/crates.txt"
    (cd "$work/crates/$name" && rt run -- "$@" > "$work/build.txt" 2>&1) || {
        tail "$work/build.txt"
        exit 1
    }
    program="$work/crates/$name/out/$name"
}

# count PROGRAM [WORDS..]: how many instructions the program takes.
count() {
    valgrind --tool=callgrind --callgrind-out-file=/dev/null "$@" 2>&1 | awk '/Collected/ { print $4 }'
}
