#!/bin/bash
# Tests `tools/install.sh`: everything that it installs is called from another folder, as by one who has no repository. The programs must
# have been built. The last line counts what passed.
set -u
root=$(cd "$(dirname "$0")/.." && pwd)
work=$(mktemp -d)
trap 'rm -rf "$work"' EXIT
cp "$root/examples/font.gf" "$root/examples/font.mfp" "$root/examples/tee.mfp" "$work"
cd "$work" || exit 1
passed=0 failed=0

# Whether a command prints this, on both outputs, and ends with this status.
prints() {
    local expected=$1 status=$2 found
    shift 2
    found=$("$@" 2>&1; echo "status $?")
    if [ "$found" = "$expected${expected:+$'\n'}status $status" ]; then
        passed=$((passed + 1))
    else
        failed=$((failed + 1))
        echo "$*: $found"
    fi
}

prints "usage: tools/install.sh [--remove] PREFIX" 2 bash -c "'$root/tools/install.sh' 2>&1 | sed 's/^install.sh: //'; exit \${PIPESTATUS[0]}"
prints "install.sh: nothing is installed in $work/none" 1 "$root/tools/install.sh" --remove none
prints "installed in $work/a b: put $work/a b/bin on your path" 0 "$root/tools/install.sh" "a b"
PATH="$work/a b/bin:$PATH"
mkdir plates
prints "" 0 bash -c 'mfpic --gf letters.gf < font.mfp > /dev/null && cmp letters.gf font.gf'
prints $'revision 3  totalweight 24\ncolumns 0..7  rows 0..5  scale 1' 0 bash -c 'mfview --frames --transcript told --plates plates < tee.mfp | tail -n 2'
prints $'0000001.svg\n0000002.svg\n0000003.svg\nindex.html' 0 ls plates
prints $'<stdin>:1: refused Syntax 8\n    show a b\n           ^' 1 bash -c 'echo show a b | mfview --check'
prints $'<stdin>:1: refused Syntax 8\n    show a b\n           ^' 1 bash -c 'echo show a b | mfcheck'
prints "" 0 bash -c 'gf2mfp letters.gf > again.mfp && mfpic --gf again.gf < again.mfp > /dev/null && gfdiff letters.gf again.gf > /dev/null'
prints "" 0 gfwords letters.gf --design-size 10 --resolution 300
prints "(FAMILY letters)" 0 bash -c 'gf2pl letters.gf | head -n 1'
prints "mf2mfp.py: none.log: No such file or directory" 1 mf2mfp none.log letters.gf
if command -v man > /dev/null; then
    # These are not counted, so that the count is the same everywhere.
    count=$passed
    for page in "a b"/share/man/man1/*.1; do
        prints "" 0 bash -c 'man --warnings -l "$1" 2>&1 > /dev/null' man "$page"
    done
    passed=$count
fi
prints "--frames" 0 bash -c 'source "a b/share/bash-completion/completions/mfview"; COMP_WORDS=(mfview --fr) COMP_CWORD=1; _mfview; echo "${COMPREPLY[@]}"'
prints "told" 0 bash -c 'source "a b/share/bash-completion/completions/mfview"; COMP_WORDS=(mfview --gf to) COMP_CWORD=2; _mfview; echo "${COMPREPLY[@]}"'
touch "a b/bin/other"
prints "" 0 "$root/tools/install.sh" --remove "a b"
prints $'a b\na b/bin\na b/bin/other' 0 find "a b"
echo "$passed passed, $failed failed"
[ "$failed" = 0 ]
