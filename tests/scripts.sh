#!/bin/bash
# Runs the scripts of tests/scripts and examples through the program, and compares what it writes with the files beside
# each script:
#
#     NAME.mfp         the script
#     NAME.transcript  what it prints
#     NAME.viewer      what each viewer sees last, unless that is the blank picture at revision 0
#     NAME.gf          its font file, for some of the scripts that ship characters
#
# A script must print its transcript also without its last line feed, and with a carriage return before each line feed. Beside 2
# viewers, and beside 16, it must print their lines after the transcript, each time.
set -u
cd "$(dirname "$0")/.."

folder=$(mktemp -d)
trap 'rm -r "$folder"' EXIT

# Runs standard input through the program with these words, and compares what it prints with the file.
prints() {
    local expected=$1
    shift
    ./mfpic "$@" > "$folder/printed" && diff "$folder/printed" "$expected"
}

# Whether the program writes this font file, and prints what is in the other file.
ships() {
    local font=$1 expected=$2
    shift 2
    rm -f "$folder/font" && prints "$expected" --gf "$folder/font" "$@" && cmp "$folder/font" "$font"
}

# Prints the transcript, and after it the line of each of this number of viewers.
with_viewers() {
    local name=$1 count=$2 viewer seen='revision 0 totalweight 0'
    if [ -e "$name.viewer" ]; then
        seen=$(cat "$name.viewer")
    fi
    cat "$name.transcript"
    for ((viewer = 0; viewer < count; viewer++)); do
        echo "viewer $viewer $seen"
    done
}

# Makes all checks of the script with this name.
passes() {
    local name=$1 viewers
    prints "$name.transcript" < "$name.mfp" || return
    head -c -1 "$name.mfp" | prints "$name.transcript" || return
    sed 's/$/\r/' "$name.mfp" | prints "$name.transcript" || return
    for viewers in 2 16 16; do
        with_viewers "$name" "$viewers" > "$folder/viewed" || return
        prints "$folder/viewed" --viewers "$viewers" < "$name.mfp" || return
    done
    if [ -e "$name.gf" ]; then
        ships "$name.gf" "$name.transcript" < "$name.mfp" || return
        ships "$name.gf" "$folder/viewed" --viewers 16 < "$name.mfp" || return
    fi
}

count=0
for script in tests/scripts/*.mfp examples/*.mfp; do
    if ! passes "${script%.mfp}"; then
        echo "$script does not print or ship what the files beside it say" >&2
        exit 1
    fi
    count=$((count + 1))
done
echo "$count passed, 0 failed"
