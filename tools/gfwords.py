#!/usr/bin/env python3
"""Sets the font words of a finished GF file: its design size, its check sum, and its pixels per point in both directions.

    tools/gfwords.py FILE.gf --design-size POINTS --checksum N --resolution DPI
    tools/gfwords.py FILE.gf --like OTHER.gf

The program mfpic writes 0 for each of these words, and TeX's programs complain about that. Words that are not named stay as they
are, and so does the rest of the file. `--like` takes all four words from another font, and the other options are applied after
it. The new file is written beside the old one and then replaces it, so that a fault leaves the old one. What is no regular file, such
as a pipe, is refused.
"""

import argparse
import fractions
import os
import pathlib
import re
import shutil
import stat
import struct
import sys
import tempfile

import gf
from printing import named_file, tell_fault

# How many units of a design size make a point, units of the pixels per point a pixel, and points an inch.
POINT, PIXEL, INCH = 1 << 20, 1 << 16, fractions.Fraction("72.27")
# A word has four bytes and a sign. A check sum may be given as an unsigned number.
GREATEST = (1 << 31) - 1
CHECK_SUMS = range(-GREATEST - 1, 1 << 32)
# How many bytes of the postamble come before the words.
WORDS = 5


def word_of(text: str, units: int | fractions.Fraction) -> int:
    """A decimal number in these units, rounded, as a word above 0."""
    if not re.fullmatch(r"[0-9]{1,20}(\.[0-9]{1,20})?", text):
        raise argparse.ArgumentTypeError(f"{text} is no decimal number")
    word = round(fractions.Fraction(text) * units)
    if not 0 < word <= GREATEST:
        raise argparse.ArgumentTypeError(f"{text} is not above 0, or too large for a word of four bytes")
    return word


def design_size(text: str) -> int:
    return word_of(text, POINT)


def resolution(text: str) -> int:
    return word_of(text, PIXEL / INCH)


def check_sum(text: str) -> int:
    if not re.fullmatch(r"-?[0-9]{1,20}", text):
        raise argparse.ArgumentTypeError(f"{text} is not a whole number")
    number = int(text)
    if number not in CHECK_SUMS:
        raise argparse.ArgumentTypeError(f"{text} is too large for a word of four bytes")
    return number - (number > GREATEST) * (1 << 32)


def arguments(words: list[str]) -> argparse.Namespace:
    parser = argparse.ArgumentParser(description="Sets the font words of a finished GF file. Words not named stay as they are.")
    parser.add_argument("file", type=named_file, metavar="FILE.gf")
    parser.add_argument("--like", type=named_file, metavar="OTHER.gf", help="first take all four words from this font")
    parser.add_argument("--design-size", type=design_size, metavar="POINTS", help="the design size, such as 10")
    parser.add_argument("--checksum", type=check_sum, metavar="N", help="the check sum in the font's TFM file")
    parser.add_argument("--resolution", type=resolution, metavar="DPI", help="pixels per inch, in both directions")
    named = parser.parse_args(words)
    if all(value is None for name, value in vars(named).items() if name != "file"):
        parser.error("no word is named: give --like, --design-size, --checksum or --resolution")
    return named


class Failure(Exception):
    """What is wrong with a file: the file, and the fault."""


def read(file: pathlib.Path) -> tuple[bytes, gf.Font]:
    """The bytes of a file, and its font."""
    try:
        font = gf.read_file(file)
        return font, gf.read_font(font)
    except (gf.NotGf, OSError, MemoryError) as fault:
        raise Failure(file, fault) from None


def refuse_others(file: pathlib.Path) -> None:
    """Refuses what is no regular file, such as a pipe, because a file would replace it."""
    try:
        is_regular = stat.S_ISREG(file.stat().st_mode)
    except OSError as fault:
        raise Failure(file, fault) from None
    if not is_regular:
        raise Failure(file, ValueError("it is not a regular file"))


def new_words(words: gf.Words, named: argparse.Namespace) -> gf.Words:
    """The words of a font, with the changes that the options name."""
    if named.like is not None:
        words = read(named.like)[1].words
    given = {
        "design_size": named.design_size,
        "check_sum": named.checksum,
        "hppp": named.resolution,
        "vppp": named.resolution,
    }
    return words._replace(**{name: word for name, word in given.items() if word is not None})


def replace(file: pathlib.Path, font: bytes) -> None:
    """Writes bytes to a new file beside this one, and then replaces this one."""
    handle, beside = tempfile.mkstemp(prefix=f"{file.name}.", dir=file.parent)
    try:
        with os.fdopen(handle, "wb") as output:
            output.write(font)
        shutil.copymode(file, beside)
        os.replace(beside, file)
    except BaseException:
        os.unlink(beside)
        raise


def main(words: list[str]) -> int:
    named = arguments(words)
    file = named.file
    try:
        refuse_others(file)
        font, read_as = read(file)
        place = read_as.postamble + WORDS
        packed = struct.pack(">4i", *new_words(read_as.words, named))
        # A link keeps leading to the file.
        replace(file.resolve(), font[:place] + packed + font[place + len(packed) :])
    except Failure as failure:
        tell_fault("gfwords.py", *failure.args)
        return 1
    except (OSError, MemoryError) as fault:
        tell_fault("gfwords.py", file, fault)
        return 1
    return 0


if __name__ == "__main__":
    sys.exit(main(sys.argv[1:]))
