#!/usr/bin/env python3
"""Gives the same scripts to `mfpic` and `mfview`, and compares their transcripts, statuses and messages.

    tests/two_programs.py

Each script is read whole, in pieces of 7 bytes, and a line at a time. Then one read fails, or is interrupted, or the transcript takes
no more bytes, or from the end of a read on no allocation succeeds in the thread that reads, at each of the first places in turn.
A library, which `cc` compiles and LD_PRELOAD puts before the C library, does all this to both programs alike. `mfview` writes its
transcript to standard error, where its message follows. It draws after the end of the script, too: where an allocation fails, and
`mfpic` does without, `mfview` may end with `OutOfMemory` after the whole transcript. The last line counts the runs that agree. The
gate runs this script (see `check`).
"""

import pathlib
import subprocess
import sys
import tempfile

ROOT = pathlib.Path(__file__).resolve().parent.parent
LIBRARY = r"""
#define _GNU_SOURCE
#include <errno.h>
#include <stdlib.h>
#include <string.h>
#include <sys/syscall.h>
#include <unistd.h>

void *__libc_malloc(size_t), *__libc_realloc(void *, size_t);
static long reads, written, thread = -1;
static int wants;

static long number(const char *name) {
    const char *text = getenv(name);
    return text ? atol(text) : -1;
}

/* A read of standard input gives at most PIECE bytes, and with LINES ends at a line feed. */
ssize_t read(int file, void *bytes, size_t size) {
    if (file) return syscall(SYS_read, file, bytes, size);
    reads++, thread = syscall(SYS_gettid);
    if (reads == number("READ_FAILS")) return errno = EIO, -1;
    if (reads == number("READ_IS_INTERRUPTED")) return errno = EINTR, -1;
    size_t count = 0, most = number("PIECE");
    if (number("LINES") == 1)
        for (char *next = bytes; count < size && count < most && syscall(SYS_read, 0, next, 1) == 1; next++) {
            if (count++, *next == '\n') break;
        }
    else
        count = syscall(SYS_read, 0, bytes, size < most ? size : most);
    wants = reads == number("WANTS");
    return count;
}

/* The file TRANSCRIPT takes LIMIT bytes, fails once, and would then take more. */
ssize_t write(int file, const void *bytes, size_t size) {
    long limit = number("LIMIT");
    if (file != number("TRANSCRIPT") || limit < 0 || written > limit) return syscall(SYS_write, file, bytes, size);
    if (written == limit && size > 0) return written++, errno = ENOSPC, -1;
    ssize_t count = syscall(SYS_write, file, bytes, size < limit - written ? size : limit - written);
    if (count > 0) written += count;
    return count;
}

static int refused(void) { return wants && syscall(SYS_gettid) == thread; }
void *malloc(size_t size) { return refused() ? (errno = ENOMEM, NULL) : __libc_malloc(size); }
void *realloc(void *old, size_t size) { return refused() ? (errno = ENOMEM, NULL) : __libc_realloc(old, size); }
"""
MANY = 1 << 20
LINE = b"addto currentpicture contour (0,0)--(2,0)--(2,1)--(0,1)--cycle\n"
# Scripts with lines of all kinds, lines that are too long, returns and blank lines, and lines that no line feed ends.
SCRIPTS = {
    "kinds of lines": LINE + b"publish\nshow currentpicture\nsyntax\nshipout a code 65 dx 0 width 0\nproof currentpicture\n",
    "returns": b"show a\r\n\r\n\n\r\nshow totalweight a\r",
    "long lines": b"%" + 65_535 * b"x" + b"\nshow a\n%" + 65_536 * b"x" + b"\r\n" + 200_000 * b"y" + b"\nshow a\n" + 70_000 * b"z",
    "unended": b"show a\nshow totalweight a",
    "empty": b"",
}


def run(library: pathlib.Path, program: str, script: bytes, faults: dict[str, int]) -> tuple[int, bytes, bytes]:
    """The status, the transcript and the message of a program."""
    words = [str(ROOT / f"crates/{program}/out/{program}"), *["--frames"] * (program == "mfview")]
    numbers = {"PIECE": MANY, "TRANSCRIPT": 1 if program == "mfpic" else 2} | faults
    environment = {"LD_PRELOAD": str(library)} | {name: str(value) for name, value in numbers.items()}
    ended = subprocess.run(words, input=script, capture_output=True, check=False, timeout=60, env=environment)
    if program == "mfpic":
        return ended.returncode, ended.stdout, ended.stderr.removeprefix(b"mfpic")
    place = ended.stderr.rfind(b"mfview: ")
    told, message = (ended.stderr, b"") if place < 0 else (ended.stderr[:place], ended.stderr[place:].removeprefix(b"mfview"))
    return ended.returncode, told, message


def agree(faults: dict[str, int], first: tuple[int, bytes, bytes], second: tuple[int, bytes, bytes]) -> bool:
    """Whether what `mfview` does agrees with what `mfpic` does."""
    draws_no_more = "WANTS" in faults and first[0] == 0 and second == (4, first[1], b": OutOfMemory\n")
    return first == second or draws_no_more


def trials(script: bytes, transcript: bytes) -> list[dict[str, int]]:
    """What is done to the programs."""
    lines = {"LINES": 1}
    places = range(1, min(script.count(b"\n"), 12) + 4)
    made = [{}, {"PIECE": 7}, lines]
    for name in ("READ_FAILS", "READ_IS_INTERRUPTED", "WANTS"):
        made += [lines | {name: place} for place in places]
    size = len(transcript)
    made += [lines | {"LIMIT": limit} for limit in sorted({0, 1, size // 3, size // 2, size - 1, size}) if limit >= 0]
    return made + [{"PIECE": 7, "READ_FAILS": place} for place in (1, 2, 5)]


def main() -> int:
    scripts = SCRIPTS | {path.name: path.read_bytes() for path in sorted(ROOT.glob("examples/*.mfp"))}
    passed = failed = 0
    with tempfile.TemporaryDirectory() as folder:
        library, source = pathlib.Path(folder) / "faults.so", pathlib.Path(folder) / "faults.c"
        source.write_text(LIBRARY, encoding="ascii")
        subprocess.run(["cc", "-O1", "-Wall", "-shared", "-fPIC", "-o", library, source], check=True)
        for name, script in scripts.items():
            transcript = run(library, "mfpic", script, {})[1]
            for faults in trials(script, transcript):
                first, second = (run(library, program, script, faults) for program in ("mfpic", "mfview"))
                if agree(faults, first, second):
                    passed += 1
                else:
                    failed += 1
                    print(f"{name} {faults}: mfpic {first}\nmfview {second}", flush=True)
    print(f"{passed} passed, {failed} failed")
    return int(failed > 0)


if __name__ == "__main__":
    sys.exit(main())
