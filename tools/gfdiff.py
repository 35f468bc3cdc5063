#!/usr/bin/env python3
"""Compares two GF files by their characters.

    tools/gfdiff.py A.gf B.gf
    tools/gfdiff.py A.gf B.gf --script > DIFFERENCES.mfp

There is a line for each code that differs: what differs of its escapement and width (dx, dy, width), how many pixels are black only
in A, the first file, and only in B, the second, and the least box of these pixels; or that only one file has the code. The last line
counts the codes. Where a code has several characters, the last one counts, as for TeX. Codes are compared as the ends of the files
have them, from 0 to 255. Font words, comments, and the boxes and commands of characters are not compared.

`--script` prints a script instead. It makes a picture of each code whose pixels differ, in which pixels that are black only in A have
weight 1, and those only in B -1, shows it and publishes it, so that mfview draws one after another.

The exit status is that of `diff`: 0 if the fonts are the same, 1 if they differ, 2 if a file cannot be read, a script cannot be made,
or the output cannot be written.
"""

import argparse
import pathlib
import sys
import typing
from collections.abc import Iterator, Sequence

import gf
from gf2mfp import changes_by_row, contours_of, differing, faults_of_pixels
from printing import named_file, print_made, tell_fault

SAME, DIFFERENT, TROUBLE = range(3)
NAMES = "A", "B"


class Failure(Exception):
    """Why no script is made. The text has a line for each fault."""


class Entry(typing.NamedTuple):
    """What a font has for a code: its locator, and its last character, if it has one."""

    locator: gf.Locator
    character: gf.Character | None

    @property
    def runs(self) -> tuple[gf.Run, ...]:
        return self.character.runs if self.character else ()


class Pixels(typing.NamedTuple):
    """The pixels that are black in one font alone: how many only in A, how many only in B, and their least box, if there are any."""

    only_a: int
    only_b: int
    box: gf.Box | None


class Difference(typing.NamedTuple):
    """A code that differs, what both fonts have for it, and what is said of it."""

    code: int
    entries: tuple[Entry | None, Entry | None]
    pixels: Pixels
    told: str


def entries_of(font: gf.Font) -> dict[int, Entry]:
    """What a font has for each of its codes."""
    return {
        code: Entry(locator, None if locator.last == gf.NOWHERE else font.characters[locator.last])
        for code, locator in font.locators.items()
    }


def compare_pixels(one: Sequence[gf.Run], other: Sequence[gf.Run]) -> Pixels:
    """Where two characters differ. Runs are compared and not pixels, because a few bytes can make millions of pixels black."""
    counts = {True: 0, False: 0}
    box: gf.Box | None = None
    rows, other_rows = changes_by_row(one), changes_by_row(other)
    for row in rows.keys() | other_rows.keys():
        for left, right, is_one in differing(rows.get(row, set()), other_rows.get(row, set())):
            counts[is_one] += right - left
            around = box or gf.Box(left, right, row, row)
            box = gf.Box(min(around.min_m, left), max(around.max_m, right), min(around.min_n, row), max(around.max_n, row))
    return Pixels(counts[True], counts[False], box)


def parts_told(one: Entry, other: Entry, pixels: Pixels) -> Iterator[str]:
    """What differs of a code that both fonts have."""
    for name in ("dx", "dy", "width"):
        numbers = getattr(one.locator, name), getattr(other.locator, name)
        if numbers[0] != numbers[1]:
            yield f"{name} {numbers[0]} in A and {numbers[1]} in B"
    for name, entry, another in zip(NAMES, (one, other), (other, one)):
        if not entry.character and another.character:
            yield f"no picture in {name}"
    if pixels.box:
        box = pixels.box
        counts = f"{pixels.only_a} pixels only in A, {pixels.only_b} only in B"
        yield f"{counts}, columns {box.min_m}..{box.max_m - 1} rows {box.min_n}..{box.max_n}"


def differences_of(a: gf.Font, b: gf.Font) -> Iterator[Difference]:
    """The codes that differ, in rising order."""
    entries = entries_of(a), entries_of(b)
    for code in sorted(entries[0].keys() | entries[1].keys()):
        one, other = entries[0].get(code), entries[1].get(code)
        pixels = compare_pixels(one.runs if one else (), other.runs if other else ())
        if one and other:
            told = "; ".join(parts_told(one, other, pixels))
        else:
            told = f"only in {NAMES[0 if one else 1]}"
        if told:
            yield Difference(code, (one, other), pixels, told)


def report_of(differences: Sequence[Difference], codes: int) -> list[str]:
    """The lines that say what differs, and the line that counts these of all codes."""
    alone = [sum(entries[place] is None for _, entries, _, _ in differences) for place in (1, 0)]
    both = len(differences) - sum(alone)
    return [
        *(f"{difference.code}: {difference.told}" for difference in differences),
        f"{codes} codes: {codes - len(differences)} the same, {both} differ, {alone[0]} only in A, {alone[1]} only in B",
    ]


def lines_of(difference: Difference) -> list[str]:
    """The lines that make the picture of a difference."""
    lines = ["", f"% Code {difference.code}: {difference.told}"]
    lines += [f"{picture} := nullpicture" for picture in ("currentpicture", "a", "b")]
    for picture, entry in zip("ab", difference.entries):
        lines += [contour.line(picture) for contour in contours_of(list(entry.runs))] if entry else []
    return [*lines, "addto currentpicture also a", "addto currentpicture also -b", "show currentpicture", "publish"]


def script_of(differences: Sequence[Difference]) -> list[str]:
    """The lines of the script of all differences of pixels."""
    drawn = [difference for difference in differences if difference.pixels.box]
    faults = [
        f"code {difference.code} in {name}: {fault}"
        for difference in drawn
        for name, entry in zip(NAMES, difference.entries)
        if entry and entry.character
        for fault in faults_of_pixels(entry.character)
    ]
    if faults:
        raise Failure("\n".join(faults))
    begun = "% Where two fonts differ: pixels that are black only in A have weight 1, and those only in B -1."
    return [begun, *(line for difference in drawn for line in lines_of(difference))]


def main(words: list[str]) -> int:
    parser = argparse.ArgumentParser(description="Compares two GF files by their characters. The status is that of diff.")
    parser.add_argument("a", type=named_file, metavar="A.gf")
    parser.add_argument("b", type=named_file, metavar="B.gf")
    parser.add_argument("--script", action="store_true", help="print a script that draws each difference of pixels")
    named = parser.parse_args(words)
    file: pathlib.Path | str = named.a
    try:
        a = gf.read_font(gf.read_packed_or_not(named.a))
        file = named.b
        b = gf.read_font(gf.read_packed_or_not(named.b))
        file = f"{named.a}, {named.b}"
        differences = list(differences_of(a, b))
        lines = script_of(differences) if named.script else report_of(differences, len(a.locators.keys() | b.locators.keys()))
        made = "\n".join([*lines, ""])
    except (Failure, gf.NotGf, OSError, MemoryError) as fault:
        tell_fault("gfdiff.py", file, fault)
        return TROUBLE
    print_made("gfdiff.py", made, "the script" if named.script else "the comparison", TROUBLE)
    return DIFFERENT if differences else SAME


if __name__ == "__main__":
    sys.exit(main(sys.argv[1:]))
