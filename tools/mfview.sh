# What is done round the program that draws. The script `mfview` reads this file, here and where it is installed: `root` is the folder
# that has `tools`, and `find_mfview` sets `program` to the path of the program. With --check as the first word nothing is drawn:
# mfcheck.py says which lines of a script are refused.
if [ "${1-}" = --check ]; then
    exec "$root/tools/mfcheck.py" "${@:2}"
fi
find_mfview

# The greatest number of columns and of rows that the program accepts.
most=1000

# Sets `size` to the words that tell the size of the terminal. There are none where standard output is not a terminal, where the
# size is not known, or for what these words tell themselves.
find_size() {
    local rows columns words=" $*"
    size=()
    [ -t 1 ] && read -r rows columns < <(stty size 2> /dev/null < /dev/tty) || return 0
    [ "$rows" -gt 0 ] && [ "$columns" -gt 0 ] || return 0
    [[ $words == *" --columns"* ]] || size+=(--columns $((columns < most ? columns : most)))
    [[ $words == *" --rows"* ]] || size+=(--rows $((rows < most ? rows : most)))
}
find_size "$@"

# What standard error gets would cross a drawing in the same terminal, so it is kept in this file until the drawing has ended.
told=
if [ -t 1 ] && [ -t 2 ]; then
    told=$(mktemp)
fi

# Resets the color that a frame leaves behind when an interrupt cuts it, and shows what was kept.
end() {
    [ -t 1 ] && printf '\033[0m'
    [ -n "$told" ] || return 0
    cat "$told" >&2
    rm -f "$told"
}
trap end EXIT
trap 'echo; exit 130' INT

if [ -n "$told" ]; then
    "$program" "${size[@]}" "$@" 2> "$told"
else
    "$program" "${size[@]}" "$@"
fi
