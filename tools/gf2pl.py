#!/usr/bin/env python3
"""Makes the property list of a GF file, from which `pltotf` makes the metrics that TeX reads.

    tools/gf2pl.py F.gf [--family NAME] [--design-size POINTS] [--resolution DPI] > F.pl

The list has an entry for each code, with the width that the file has for it (CHARWD), and its height and depth (CHARHT, CHARDP): how
far the box of its last character goes above the baseline and below it. All are in design sizes. A character without a black pixel has
neither height nor depth. The check sum is that of the file.

The family is the name of the file, as far as a list can have it, unless `--family` gives another one: up to 19 printed characters of
ASCII without parentheses. The design size and the pixels per point are those of the file, unless `--design-size`, in points, and
`--resolution`, in dots per inch, give others. Where the file has 0 for them, they must be given.

If no list can be made, the exit status is 1, and all reasons are named.
"""

import argparse
import fractions
import re
import sys
from collections.abc import Iterator

import gf
from gfwords import PIXEL, POINT, design_size, resolution
from printing import named_file, print_made, tell_fault

# How many characters a family may have, and which.
FAMILY, NOT_OF_FAMILY = 19, re.compile(r"[^!-'*-~]")
# The widths of GF files, and the numbers of metrics, are in these units. Seven decimals tell two of them apart, and `pltotf` reads no
# more.
UNIT, DECIMALS = 1 << 20, 7
# A metric file has no width, height or depth of as many design sizes, and no smaller design size.
TOO_LARGE, LEAST_DESIGN_SIZE = 16, POINT


class Failure(Exception):
    """Why no list is made. The text has a line for each fault."""


def family(text: str) -> str:
    if not 0 < len(text) <= FAMILY or NOT_OF_FAMILY.search(text):
        wanted = f"1 to {FAMILY} printed characters of ASCII without parentheses"
        raise argparse.ArgumentTypeError(f"{text!r} is no family: it needs {wanted}")
    return text


def arguments(words: list[str]) -> argparse.Namespace:
    parser = argparse.ArgumentParser(description="Makes the property list of a GF file, for pltotf.")
    parser.add_argument("file", type=named_file, metavar="F.gf")
    parser.add_argument("--family", type=family, metavar="NAME", help="the family, instead of the name of the file")
    parser.add_argument("--design-size", type=design_size, metavar="POINTS", help="the design size, instead of the file's")
    parser.add_argument("--resolution", type=resolution, metavar="DPI", help="pixels per inch, instead of the file's")
    return parser.parse_args(words)


def words_of(words: gf.Words, named: argparse.Namespace) -> gf.Words:
    """The font words, with those that are given. They must have a design size and pixels per point."""
    design = words.design_size if named.design_size is None else named.design_size
    pixels = words.vppp if named.resolution is None else named.resolution
    faults = []
    if design < LEAST_DESIGN_SIZE:
        faults.append(f"its design size is {decimal(design, POINT)} points, and metrics need 1.0 or more: give --design-size")
    if pixels <= 0:
        faults.append(f"it has {decimal(pixels, PIXEL)} pixels per point: give --resolution")
    if faults:
        raise Failure("\n".join(faults))
    return words._replace(design_size=design, vppp=pixels)


def decimal(number: int | fractions.Fraction, units: int = 1) -> str:
    """A number of these units as a decimal number, with at least one decimal."""
    digits = f"{round(abs(fractions.Fraction(number, units)) * 10**DECIMALS):0{DECIMALS + 1}d}"
    whole, rest = digits[:-DECIMALS], digits[-DECIMALS:].rstrip("0") or "0"
    return f"{'-' if number < 0 else ''}{whole}.{rest}"


def code_of(code: int) -> str:
    """A code as the lists of `tftopl` have it: letters and digits as they are, and others as octal numbers."""
    return f"C {chr(code)}" if re.fullmatch(r"[0-9A-Za-z]", chr(code)) else f"O {code:o}"


def sizes_of(font: gf.Font, locator: gf.Locator, words: gf.Words) -> Iterator[tuple[str, fractions.Fraction]]:
    """The width, the height and the depth of a code in design sizes, those that are not 0."""
    yield "CHARWD", fractions.Fraction(locator.width, UNIT)
    if locator.last == gf.NOWHERE or not font.characters[locator.last].runs:
        return
    box = font.characters[locator.last].box
    pixel = 1 / (fractions.Fraction(words.vppp, PIXEL) * fractions.Fraction(words.design_size, POINT))
    # The row of the number n is between the heights n and n + 1.
    for name, pixels in (("CHARHT", box.max_n + 1), ("CHARDP", -box.min_n)):
        if pixels > 0:
            yield name, pixels * pixel


def list_of(font: gf.Font, words: gf.Words, family_name: str) -> list[str]:
    """The lines of the property list."""
    lines = [f"(FAMILY {family_name})"] if family_name else []
    lines += [f"(DESIGNSIZE R {decimal(words.design_size, POINT)})", f"(CHECKSUM O {words.check_sum % (1 << 32):o})"]
    faults = []
    for code, locator in sorted(font.locators.items()):
        sizes = list(sizes_of(font, locator, words))
        for name, size in sizes:
            # A number that is rounded to the bound is too large, too.
            if abs(round(size * UNIT)) >= TOO_LARGE * UNIT:
                faults.append(f"character {code}: its {name} is {decimal(size)} design sizes, and metrics have less than {TOO_LARGE}")
        entry = " ".join(f"({name} R {decimal(size)})" for name, size in sizes)
        lines.append(f"(CHARACTER {code_of(code)} {entry})")
    if faults:
        raise Failure("\n".join(faults))
    return lines


def main(words: list[str]) -> int:
    named = arguments(words)
    file = named.file
    try:
        font = gf.read_font(gf.read_packed_or_not(file))
        family_name = named.family or NOT_OF_FAMILY.sub("", file.stem)[:FAMILY]
        made = "\n".join([*list_of(font, words_of(font.words, named), family_name), ""])
    except (Failure, gf.NotGf, OSError, MemoryError) as fault:
        tell_fault("gf2pl.py", file, fault)
        return 1
    print_made("gf2pl.py", made, "the property list")
    return 0


if __name__ == "__main__":
    sys.exit(main(sys.argv[1:]))
