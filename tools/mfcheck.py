#!/usr/bin/env python3
"""Performs scripts and says which of their lines are refused, and where.

    tools/mfcheck.py [SCRIPT..]
    tools/mfcheck.py < SCRIPT

For each line that is refused there is a line `NAME:LINE: refused ..`, as compilers have it, then the line's text and, where the
refusal has a column, a mark below it. NAME is the script as it was named, or `<stdin>`; LINE counts from 1. Nothing else that scripts
print is shown, nothing is drawn and no font file is made. Each script is performed from the start.

The program mfpic performs the scripts. Between the lines of a script it gets two lines of its own that are always refused, so that it
is known what each line has printed.

The exit status is 0 if no line is refused, 1 if some line is, and 2 if a script cannot be read or performed to its end, or the output
cannot be written.
"""

import argparse
import pathlib
import subprocess
import sys
from collections.abc import Iterator

from printing import named_file, print_made, tell, tell_fault

REFUSED, TROUBLE = 1, 2
MFPIC = pathlib.Path(__file__).resolve().parent.parent / "mfpic"
# Two lines that are refused at different columns. A line of a script prints at most one refusal, so these two in a row end what it prints.
MARKS = b" ?\n  ?\n"
MARKED = ["refused Syntax 2", "refused Syntax 3"]
# The most columns of a line's text that are shown, and how many of them before the mark.
WIDTH, BEFORE = 100, 60


class Failure(Exception):
    """A script was not performed to its end."""


def texts_of(lines: list[bytes]) -> list[list[str]]:
    """What each line of a script prints."""
    # A carriage return before the line feed does not count, so one that ends a line stays its own.
    script = b"".join(line + b"\r\n" + MARKS for line in lines)
    ran = subprocess.run([str(MFPIC)], input=script, stdout=subprocess.PIPE, check=False)
    if ran.returncode != 0:
        raise Failure(f"mfpic ended with status {ran.returncode}")
    texts: list[list[str]] = [[]]
    for line in ran.stdout.decode("ascii").splitlines():
        texts[-1].append(line)
        if texts[-1][-2:] == MARKED:
            texts[-1] = texts[-1][:-2]
            texts.append([])
    return texts[: len(lines)]


def shown(line: bytes, column: int | None) -> Iterator[str]:
    """The text of a line, or the part of it round a column, and a mark below that column."""
    text = "".join(chr(byte) if 32 <= byte < 127 else " " if byte == 9 else "?" for byte in line)
    start = max(0, min((column or 1) - 1 - BEFORE, len(text) - WIDTH))
    yield f"    {text[start : start + WIDTH]}"
    if column is not None:
        yield f"    {' ' * (column - 1 - start)}^"


def refusals(name: str, lines: list[bytes]) -> Iterator[str]:
    """What is said of each line of a script that is refused."""
    for number, (line, text) in enumerate(zip(lines, texts_of(lines), strict=True), 1):
        for refusal in (it for it in text if it.startswith("refused ")):
            words = refusal.split()
            yield f"{name}:{number}: {refusal}"
            yield from shown(line, int(words[2]) if words[1] == "Syntax" else None)


def lines_of(script: bytes) -> list[bytes]:
    """The lines of a script, as mfpic cuts them: a line feed ends each, a carriage return before it does not count, and what comes
    after the last one is a line, unless it is empty."""
    lines = script.split(b"\n")
    last = lines.pop()
    return [line.removesuffix(b"\r") for line in lines] + ([last] if last else [])


def main() -> int:
    parser = argparse.ArgumentParser(description=__doc__, formatter_class=argparse.RawDescriptionHelpFormatter)
    parser.add_argument("scripts", nargs="*", type=named_file, metavar="SCRIPT")
    status = 0
    if sys.stdout:
        # A name may have what standard output cannot encode.
        sys.stdout.reconfigure(errors="backslashreplace")
    for path in parser.parse_args().scripts or [None]:
        name = str(path) if path else "<stdin>"
        try:
            script = path.read_bytes() if path else open(0, "rb", closefd=False).read()
            found = "".join(f"{line}\n" for line in refusals(name, lines_of(script)))
        except (OSError, MemoryError, Failure) as fault:
            tell_fault("mfcheck", name, fault)
            return TROUBLE
        print_made("mfcheck", found, "what is refused", TROUBLE)
        status = max(status, REFUSED if found else 0)
    return status


if __name__ == "__main__":
    try:
        sys.exit(main())
    except KeyboardInterrupt:
        tell("mfcheck: interrupted")
        sys.exit(130)
