#!/bin/bash
# Compares random scripts with models: 3,000 of a seed under which each command, refusal and part of a font occurs, and 500 of
# today's seed. Scripts that differ are printed.
set -u
cd "$(dirname "$0")/.."

# Builds the program if it is missing. After that it is run directly, and not by `mfpic`, which checks each time.
./mfpic < /dev/null || exit
program=crates/mfpic/out/mfpic

folder=$(mktemp -d)
trap 'rm -r "$folder"' EXIT
today=$(date -u +%Y%m%d)

tests/random_scripts.py $program 3000 2 > "$folder/fixed" &
fixed=$!
tests/random_scripts.py $program 500 "$today" > "$folder/today" &
daily=$!

# Waits for a run that was started before, and shows its count. Stops where the run failed.
ends() {
    local job=$1 name=$2 about=$3
    if ! wait "$job"; then
        cat "$folder/$name"
        echo "random scripts differ: $about" >&2
        exit 1
    fi
    echo "$about: $(grep differ "$folder/$name")"
}
ends "$fixed" fixed 'seed 2'
if grep 'never came' "$folder/fixed" >&2; then
    exit 1
fi
ends "$daily" today "seed $today"
echo '3500 passed, 0 failed'
