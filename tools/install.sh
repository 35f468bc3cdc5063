#!/bin/bash
# Installs the programs, the tools, their manual pages and completions for bash.
#
#     tools/install.sh PREFIX
#     tools/install.sh --remove PREFIX
#
# The programs must be proved and current: tools/build.py mfpic and tools/build.py mfview. PREFIX/lib/wonchhip/installed says which commit,
# toolchain and day they are of, and PREFIX/lib/wonchhip/files has all files. With --remove these are removed.
set -euo pipefail
. "$(dirname "$(readlink -f "$0")")/start.sh"

fail() {
    echo "install.sh: $1" >&2
    exit "${2:-1}"
}

# Removes the files that were installed, and folders that are empty then.
remove() {
    local name
    cd -- "$prefix"
    while read -r name; do
        rm -f -- "$name"
    done < "$made"
    # Python writes what it has compiled beside the tools.
    rm -rf -- lib/wonchhip/tools/__pycache__
    while read -r name; do
        rmdir --ignore-fail-on-non-empty -p -- "$(dirname "$name")" 2> /dev/null || true
    done < "$made"
}

# Copies a file, with these permissions, to a place below the prefix.
put() {
    install -D -m "$1" -- "$2" "$prefix/$3"
    echo "$3" >> "$made"
}

# Writes a script that is installed as a command. Its text comes from standard input.
put_command() {
    cat > "$work/command"
    put 755 "$work/command" "bin/$1"
}

if [ "${1-}" = --remove ]; then
    shift
    removes=1
fi
[ $# = 1 ] && [ -n "$1" ] && [[ $1 != -* ]] || fail "usage: tools/install.sh [--remove] PREFIX" 2
prefix=$(realpath -ms -- "$1")
work=$(mktemp -d)
trap 'rm -rf "$work"' EXIT
made=$work/files
if [ -n "${removes-}" ]; then
    cp -- "$prefix/lib/wonchhip/files" "$made" 2> /dev/null || fail "nothing is installed in $prefix"
    remove
    exit
fi

for name in mfpic mfview; do
    is_current "$name" "$root/crates/$name/out/$name" || fail "$name is not proved, or older than its sources: tools/build.py $name"
done
for name in mfpic mfview; do
    put 755 "$root/crates/$name/out/$name" "lib/wonchhip/$name"
done
for name in gf.py printing.py gf2mfp.py gf2pl.py gfdiff.py gfwords.py mf2mfp.py mf2mfp.mf mfcheck.py mfview.sh; do
    put "$([ -x "$root/tools/$name" ] && echo 755 || echo 644)" "$root/tools/$name" "lib/wonchhip/tools/$name"
done
for name in gf2mfp gf2pl gfdiff gfwords mf2mfp mfcheck; do
    printf '#!/bin/bash\nexec "$(dirname "$(readlink -f "$0")")/../lib/wonchhip/tools/%s.py" "$@"\n' "$name" | put_command "$name"
done
printf '#!/bin/bash\nexec "$(dirname "$(readlink -f "$0")")/../lib/wonchhip/mfpic" "$@"\n' | put_command mfpic
put_command mfview << 'END'
#!/bin/bash
# Runs the program that draws, with these words and this standard input, in the size of the terminal.
set -eu
root=$(cd "$(dirname "$(readlink -f "$0")")/../lib/wonchhip" && pwd)
find_mfview() { program=$root/mfview; }
. "$root/tools/mfview.sh"
END
"$root/tools/manuals.py" "$work"
for page in "$work"/man1/*.1; do
    put 644 "$page" "share/man/man1/${page##*/}"
done
for name in mfpic mfview; do
    put 644 "$work/completions/$name" "share/bash-completion/completions/$name"
done
{
    echo "commit $(git -C "$root" describe --always --dirty=", changed since" --abbrev=40 2> /dev/null || echo unknown)"
    echo "toolchain $(rt version 2> /dev/null || echo unknown)"
    echo "installed $(date +%F)"
} > "$work/installed"
put 644 "$work/installed" lib/wonchhip/installed
echo lib/wonchhip/files >> "$made"
install -m 644 -- "$made" "$prefix/lib/wonchhip/files"
echo "installed in $prefix: put $prefix/bin on your path"
