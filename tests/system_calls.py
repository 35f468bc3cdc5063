#!/usr/bin/env python3
"""Runs the programs while single system calls fail: an interrupted read or write is tried again, nothing goes to standard output after
a write that failed, what was printed before another fault goes out before its message, and a font file that cannot be stored is a
`WriteFault`.

    tests/system_calls.py [MFPIC MFVIEW]

A library, which `cc` compiles and LD_PRELOAD puts before the C library, lets some calls fail: those of one function, on one file or
on any, from the first to the last of them that it is told. The last line is `N passed, 0 failed`.
"""

import dataclasses
import errno
import os
import pathlib
import subprocess
import sys
import tempfile

ROOT = pathlib.Path(__file__).resolve().parent.parent
LIBRARY = r"""
#define _GNU_SOURCE
#include <errno.h>
#include <stdlib.h>
#include <string.h>
#include <sys/syscall.h>
#include <unistd.h>

void *__libc_malloc(size_t);
static long calls;

/* Whether this call fails: it is one of the function CALL on the file FILE, or on one from 3 on where FILE is 3. */
static int fails(const char *call, int file) {
    const char *which = getenv("CALL");
    if (!which || strcmp(which, call)) return 0;
    int wanted = atoi(getenv("FILE"));
    if (file != wanted && (file < 3 || wanted != 3)) return 0;
    long number = __atomic_add_fetch(&calls, 1, __ATOMIC_SEQ_CST);
    if (number < atol(getenv("FIRST")) || number > atol(getenv("LAST"))) return 0;
    errno = atoi(getenv("ERRNO"));
    return 1;
}

ssize_t read(int file, void *bytes, size_t size) { return fails("read", file) ? -1 : syscall(SYS_read, file, bytes, size); }
ssize_t write(int file, const void *bytes, size_t size) { return fails("write", file) ? -1 : syscall(SYS_write, file, bytes, size); }
int fdatasync(int file) { return fails("fdatasync", file) ? -1 : syscall(SYS_fdatasync, file); }
void *malloc(size_t size) { return fails("malloc", 0) ? NULL : __libc_malloc(size); }
"""
INPUT, OUTPUT, ERRORS, OPENED = 0, 1, 2, 3
ALWAYS = 1 << 40
LETTERS = (ROOT / "examples/font.mfp").read_bytes()
LETTERS_PRINT = (ROOT / "examples/font.transcript").read_bytes()
LETTERS_FONT = (ROOT / "examples/font.gf").read_bytes()
# The text of a line has 100 times 11 bytes or so, and 200 of them do not fit into one write.
LONG = b"addto a contour (0,0)--(100,0)--(100,100)--(0,100)--cycle\n" + 200 * b"show a\n"
LONG_PRINTS = 200 * b"".join(b"%d 0 99 1\n" % row for row in reversed(range(100)))


@dataclasses.dataclass(frozen=True)
class Failing:
    """The calls that fail: those of this function on this file with these numbers, counted from 1, and how."""

    call: str
    file: int
    error: int
    first: int = 1
    last: int = ALWAYS

    def environment(self) -> dict[str, str]:
        """What the library is told."""
        numbers = {"FILE": self.file, "ERRNO": self.error, "FIRST": self.first, "LAST": self.last}
        return {"CALL": self.call} | {name: str(number) for name, number in numbers.items()}


class Runner:
    """Runs programs with the library, with a font file in a folder, and counts what passed."""

    def __init__(self, folder: pathlib.Path) -> None:
        self.font, self.library, self.passed = folder / "font.gf", folder / "fail.so", 0
        source = folder / "fail.c"
        source.write_text(LIBRARY, encoding="ascii")
        subprocess.run(["cc", "-O1", "-Wall", "-shared", "-fPIC", "-o", self.library, source], check=True)

    def run(self, words: list[str], script: bytes, failing: Failing, merged: bool = False) -> tuple[int, bytes, bytes]:
        """The status of a run, and what it writes to standard output and to standard error, which may be one pipe."""
        errors = subprocess.STDOUT if merged else subprocess.PIPE
        environment = os.environ | {"LD_PRELOAD": str(self.library)} | failing.environment()
        ended = subprocess.run(words, input=script, stdout=subprocess.PIPE, stderr=errors, env=environment, timeout=60, check=False)
        return ended.returncode, ended.stdout, ended.stderr or b""

    def expect(self, about: str, found: object, expected: object) -> None:
        """Counts a comparison that holds, and ends where it does not."""
        if found != expected:
            sys.exit(f"{about}: {str(found)[:400]} instead of {str(expected)[:400]}")
        self.passed += 1


def interrupted_calls(runner: Runner, program: str) -> None:
    """Interrupted reads and writes are tried again."""
    for failing in (
        Failing("read", INPUT, errno.EINTR, last=1),
        Failing("read", INPUT, errno.EINTR, 2, 4),
        Failing("write", OUTPUT, errno.EINTR, last=3),
        Failing("write", OPENED, errno.EINTR, last=3),
    ):
        runner.font.unlink(missing_ok=True)
        ended = runner.run([program, "--gf", str(runner.font)], LETTERS, failing)
        runner.expect(str(failing), (*ended, runner.font.read_bytes()), (0, LETTERS_PRINT, b"", LETTERS_FONT))
    always = runner.run([program], LETTERS, Failing("read", INPUT, errno.EINTR))
    runner.expect("reads are always interrupted", always, (3, b"", b"mfpic: ReadFault\n"))


def failed_writes(runner: Runner, program: str) -> None:
    """After a write that failed once, nothing more goes out, although it would now succeed."""
    told = b"mfpic: WriteFault\n"
    once = runner.run([program], LETTERS, Failing("write", OUTPUT, errno.ENOSPC, last=1))
    runner.expect("the first write fails", once, (3, b"", told))
    for number in range(2, 4):
        status, out, message = runner.run([program], LONG, Failing("write", OUTPUT, errno.ENOSPC, number, number))
        runner.expect(f"write {number} fails", (status, message), (3, told))
        runner.expect(f"a front is written before write {number}", LONG_PRINTS.startswith(out) and 0 < len(out) < len(LONG_PRINTS), True)
    beside = runner.run([program, "--viewers", "2"], LETTERS, Failing("write", OUTPUT, errno.EIO, last=1))
    runner.expect("the first write fails beside viewers", beside, (3, b"", told))


def wanted_memory(runner: Runner, program: str) -> None:
    """Where memory is missing from some allocation on, what was printed before comes before the message."""
    script, told = b"show totalweight a\n" * 3, b"mfpic: OutOfMemory\n"
    seen = set()
    for first in range(1, 400):
        status, out, _ = runner.run([program], script, Failing("malloc", 0, errno.ENOMEM, first), merged=True)
        if status == 0:
            runner.expect("nothing is missing", out, 3 * b"totalweight 0\n")
            break
        texts = len(out.removesuffix(told)) // len(b"totalweight 0\n")
        runner.expect(f"allocation {first} fails", (status, out), (4, texts * b"totalweight 0\n" + told))
        seen.add(texts)
    runner.expect("memory is missing after each text", seen >= {0, 1, 2}, True)


def stored_files(runner: Runner, program: str) -> None:
    """A font file that cannot be stored is a fault, and one that is a device need not be stored."""
    words = [program, "--gf", str(runner.font)]
    full = runner.run(words, LETTERS, Failing("fdatasync", OPENED, errno.EDQUOT))
    runner.expect("a quota is used up", full, (3, LETTERS_PRINT, b"mfpic: WriteFault\n"))
    device = runner.run(words, LETTERS, Failing("fdatasync", OPENED, errno.EINVAL))
    runner.expect("a file is never stored", device, (0, LETTERS_PRINT, b""))


def drawing(runner: Runner, program: str) -> None:
    """The same of the program that draws."""
    words = [program, "--frames", "--gf", str(runner.font)]
    ample = runner.run(words, LETTERS, Failing("none", OPENED, 0))
    runner.expect("nothing fails", (ample[0], ample[2], runner.font.read_bytes()[:3]), (0, LETTERS_PRINT, LETTERS_FONT[:3]))
    for failing in (
        Failing("read", INPUT, errno.EINTR, last=2),
        Failing("write", OUTPUT, errno.EINTR, last=3),
        Failing("write", ERRORS, errno.EINTR, last=3),
        Failing("write", OPENED, errno.EINTR, last=3),
    ):
        runner.expect(str(failing), runner.run(words, LETTERS, failing), ample)
    full = runner.run(words, LETTERS, Failing("fdatasync", OPENED, errno.EDQUOT))
    runner.expect("a quota is used up", full, (3, ample[1], LETTERS_PRINT + b"mfview: WriteFault\n"))


def main() -> None:
    """Runs all cases with the programs of the repository, or with those that the words name."""
    given = sys.argv[1:] or [str(ROOT / "crates" / name / "out" / name) for name in ("mfpic", "mfview")]
    with tempfile.TemporaryDirectory() as folder:
        runner = Runner(pathlib.Path(folder))
        for cases in (interrupted_calls, failed_writes, wanted_memory, stored_files):
            cases(runner, given[0])
        if len(given) > 1:
            drawing(runner, given[1])
    print(f"{runner.passed} passed, 0 failed")


if __name__ == "__main__":
    main()
