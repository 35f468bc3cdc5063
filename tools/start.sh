# Finds a program of the repository, and builds it where that is necessary. The scripts `mfpic` and `mfview` read this file.
root=$(cd "$(dirname "${BASH_SOURCE[0]}")/.." && pwd)

# Prints a crate and all crates and libraries that it uses, by name or through others: crates.txt has each crate after those that it
# uses.
crates_of() {
    awk -F: -v name="$1" '
        !/^#/ { names[++count] = $1; libraries[$1] = $2 }
        END {
            used[name] = 1
            for (; count > 0; count--) {
                if (names[count] in used) {
                    print names[count]
                    split(libraries[names[count]], below, " ")
                    for (place in below) { used[below[place]] = 1 }
                }
            }
        }' "$root/crates.txt"
}

# Whether a program is newer than the sources and definitions of all its crates. A proof compiles to nothing, so the program is
# current even where a proof has changed.
is_current() {
    local name=$1 program=$2
    [ -x "$program" ] || return 1
    local folders=() crate part newer
    for crate in $(crates_of "$name"); do
        for part in src specs; do
            [ -d "$root/crates/$crate/$part" ] && folders+=("$root/crates/$crate/$part")
        done
    done
    newer=$(find "$root/crates.txt" "${folders[@]}" -newer "$program" -print -quit)
    [ -z "$newer" ]
}

# Sets `program` to the path of the program with this name. One that is older than its sources is proved and built first. Where there is
# none, as in a fresh clone, it is one that is not proved.
find_program() {
    program=$root/crates/$1/out/$1
    if [ ! -x "$program" ]; then
        find_unproved "$1"
    elif ! is_current "$1" "$program"; then
        "$root/tools/build.py" "$1"
    fi
}

# Sets `program` to the path of the unproved program with this name, which is built first if that is necessary, and says what it is.
find_unproved() {
    program=$root/crates/$1/out/unproved/$1
    if ! is_current "$1" "$program"; then
        echo "$1: building the program without a proof, in about a minute" >&2
        "$root/tools/unproved.py" "$1"
    fi
    echo "$1: not proved, only checked while it runs; tools/build.py $1 proves and builds it$(first_time "$1")" >&2
}

# Prints how long that took from nothing, by results/times.tsv, on the fastest machine and on the slowest one. What mfview shares with
# mfpic is timed with mfpic.
first_time() {
    awk -F '\t' -v of="^tools/build.py (mfpic|$1), " '
        $2 == "whole" && sub(of, "", $1) { minutes[$1] += $3 }
        END {
            for (machine in minutes) { print minutes[machine] }
        }' "$root/results/times.tsv" | sort -n | awk 'NR == 1 { least = $1 } END { if (NR) printf " (%.0f to %.0f minutes)", least, $1 }'
}
