#!/bin/bash
# Tests the exit statuses and messages of the programs where they fail: words that it does not know, a word that is not UTF-8, a
# folder as its script, an output that is full or closed, a font file without a character, one that cannot be created or written,
# missing memory or threads, and an image that would be too large. After a fault of the words or of the script, or in a terminal that is too small, a file that was
# there before is there as it was. And `--pause` makes a script rest.
set -u
cd "$(dirname "$0")/.."

folder=$(mktemp -d)
trap 'rm -r "$folder"' EXIT

# Builds the programs first, so that their messages are the only ones.
./mfpic < /dev/null || exit
./mfview --version > /dev/null || exit

fails() {
    echo "$@" >&2
    exit 1
}

count=0
ends_with() {
    local status=$1 message=$2 told got
    shift 2
    told=$("$@" 2>&1 > /dev/null)
    got=$?
    if [ "$got" -ne "$status" ] || [ "$told" != "$message" ]; then
        fails "status $got and '$told' instead of $status and '$message': $*"
    fi
    count=$((count + 1))
}

# Runs a command that finds the path of an existing font file in FONT. It must end with this status and this message, print what
# the file `printed` says, and leave the font file as it was.
export FONT=$folder/font.gf
keeps_font() {
    local printed=$1 status=$2 message=$3 command=$4
    echo 'what was there' > "$folder/kept"
    cp "$folder/kept" "$FONT"
    ends_with "$status" "$message" bash -c "{ $command; } > '$folder/printed'"
    cmp "$FONT" "$folder/kept" || fails "another font file: $command"
    cmp "$folder/printed" "$printed" || fails "another transcript: $command"
}

# How long a proof takes, which a program says as long as it is not proved.
for program in mfpic mfview; do
    told=$(source tools/start.sh && first_time $program)
    [[ $told =~ ^\ \([1-9][0-9]*\ to\ [1-9][0-9]*\ minutes\)$ ]] || fails "the proof of $program takes '$told'"
    count=$((count + 1))
done

ends_with 2 'usage: mfpic [--viewers 0..16] [--gf FILE]' ./mfpic --help
ends_with 2 'usage: mfpic [--viewers 0..16] [--gf FILE]' ./mfpic $'\xff'
ends_with 3 'mfpic: ReadFault' bash -c './mfpic < /'
ends_with 3 'mfpic: WriteFault' bash -c './mfpic < examples/rectangle.mfp > /dev/full'
ends_with 3 'mfpic: NoCharacters' bash -c './mfpic --gf /dev/null < examples/rectangle.mfp'

# Doubles a row of 1,024 pixels with gaps between them, upwards and to the right, until there are 2,048 rows, all of them different.
doublings() {
    local size
    echo 'addto a contour (0,0)--(1,0)--(1,1)--(0,1)--cycle'
    for ((size = 2; size < 2048; size *= 2)); do
        printf '%s\n' 'b := nullpicture' 'addto b also a' "b := b shifted ($size,0)" 'addto a also b'
    done
    for ((size = 1; size < 2048; size *= 2)); do
        printf '%s\n' 'b := nullpicture' 'addto b also a' "b := b shifted ($size,$size)" 'addto a also b'
    done
    echo 'shipout a code 65 dx 0 width 0'
}

# These rows take about 40 MB, so with 20 MB an allocation fails. A thread with a stack of 2 GB does not fit into 1 GB.
doublings > "$folder/doublings.mfp"
export DOUBLINGS=$folder/doublings.mfp
ends_with 0 '' bash -c 'crates/mfpic/out/mfpic < "$DOUBLINGS"'
keeps_font /dev/null 4 'mfpic: OutOfMemory' 'ulimit -v 20000; crates/mfpic/out/mfpic --gf "$FONT" < "$DOUBLINGS"'
viewed='ulimit -s 2000000; ulimit -v 1000000; crates/mfpic/out/mfpic --viewers 2 --gf "$FONT" < examples/font.mfp'
keeps_font /dev/null 4 'mfpic: NoPlace' "$viewed"

ends_with 0 '' bash -c './mfpic --gf "$FONT" < examples/font.mfp'
cmp "$FONT" examples/font.gf || fails 'another font file'
keeps_font /dev/null 2 'usage: mfpic [--viewers 0..16] [--gf FILE]' './mfpic --gf "$FONT" more < examples/font.mfp'
keeps_font /dev/null 3 'mfpic: ReadFault' './mfpic --gf "$FONT" < /'
keeps_font /dev/null 3 'mfpic: ReadFault' './mfpic --gf "$FONT" <&-'
keeps_font /dev/null 3 'mfpic: WriteFault' './mfpic --gf "$FONT" < examples/font.mfp > /dev/full'
keeps_font /dev/null 3 'mfpic: WriteFault' './mfpic --gf "$FONT" < examples/font.mfp >&-'
keeps_font /dev/null 3 'mfpic: WriteFault' './mfpic --viewers 2 --gf "$FONT" < examples/font.mfp > /dev/full'
keeps_font examples/rectangle.transcript 3 'mfpic: NoCharacters' './mfpic --gf "$FONT" < examples/rectangle.mfp'
keeps_font examples/font.transcript 3 'mfpic: WriteFault' './mfpic --gf "$FONT/font.gf" < examples/font.mfp'
keeps_font examples/font.transcript 3 'mfpic: WriteFault' './mfpic --gf "${FONT%/*}/none/font.gf" < examples/font.mfp'
keeps_font examples/font.transcript 3 'mfpic: WriteFault' './mfpic --gf / < examples/font.mfp'

usage='usage: mfview [OPTION..] < SCRIPT (mfview --help lists the options)'
ends_with 0 '' ./mfview --help
ends_with 2 "$usage" ./mfview more
ends_with 2 "$usage" ./mfview --pgm
ends_with 2 "$usage" ./mfview $'\xff'
keeps_font /dev/null 3 'mfview: ReadFault' './mfview --gf "$FONT" < / > /dev/null'
keeps_font /dev/null 3 'mfview: ReadFault' './mfview --transcript /dev/null --gf "$FONT" < / > /dev/null'
ends_with 3 'mfview: WriteFault' bash -c './mfview --transcript /dev/null < examples/tee.mfp > /dev/full'
ends_with 3 'mfview: WriteFault' bash -c './mfview --transcript /none/told < examples/tee.mfp'
ends_with 3 'mfview: WriteFault' bash -c './mfview --help > /dev/full'
ends_with 3 'mfview: WriteFault' bash -c './mfview --version > /dev/full'
ends_with 3 'mfview: PlateFault 1' bash -c './mfview --transcript /dev/null --plates /none < examples/tee.mfp'
ends_with 3 'mfview: PlateFault 0' bash -c './mfview --plates /none < /dev/null > /dev/full'
# 4,097 columns are one more than an image may have: at a publish, which is the last line that is performed, and at the end.
wide='addto currentpicture contour (-2,0)--(4095,0)--(4095,1)--(-2,1)--cycle'
ends_with 3 $'published 1\nmfview: ImageTooLarge 1' ./mfview --plates "$folder" <<< "$wide"$'\npublish\npublish'
ends_with 3 'mfview: ImageTooLarge 1' ./mfview --plates "$folder" <<< "$wide"
keeps_font /dev/null 3 'mfview: NoCharacters' './mfview --transcript /dev/null --gf "$FONT" < examples/tee.mfp > /dev/null'
ends_with 3 'mfview: WriteFault' bash -c './mfview --transcript /dev/null --gf /none/font.gf < examples/font.mfp'
ends_with 3 'mfview: WriteFault' bash -c './mfview --transcript /dev/null --gf /dev/full < examples/font.mfp'
ends_with 5 'mfview: TooSmall' ./mfview --columns 49
ends_with 5 'mfview: TooSmall' ./mfview --rows 5
keeps_font /dev/null 5 'mfview: TooSmall' './mfview --columns 49 --gf "$FONT" < examples/font.mfp'
keeps_font /dev/null 5 'mfview: TooSmall' './mfview --rows 5 --transcript "$FONT" < examples/font.mfp'
# A file gets the transcript of what was performed before a fault, and all of it where only the font is missing.
told=$folder/told
told_is() {
    cmp "$told" - || fails "another transcript: $1"
}
ends_with 3 'mfview: WriteFault' ./mfview --transcript /dev/full < examples/tee.mfp
ends_with 3 'mfview: ImageTooLarge 1' ./mfview --transcript "$told" --plates "$folder" <<< "$wide"$'\npublish\npublish'
told_is 'a plate that is too large' <<< 'published 1'
ends_with 3 'mfview: NoCharacters' ./mfview --transcript "$told" --gf "$FONT" < examples/tee.mfp
told_is 'no characters' < examples/tee.transcript
# The script publishes, so it has not ended after a second, and `timeout` ends it. What it printed before it rested is in the file.
ends_with 124 '' timeout 1 crates/mfview/out/mfview --frames --transcript "$told" --pause 10000 < examples/tee.mfp
told_is 'a script that rests' <<< 'published 1'
ends_with 0 '' bash -c './mfview --frames --transcript /dev/null --gf "$FONT" < examples/font.mfp'
cmp "$FONT" examples/font.gf || fails 'another font file'
echo "$count passed, 0 failed"
