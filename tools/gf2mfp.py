#!/usr/bin/env python3
"""Makes a script from a GF file. The script draws each character by its outline, and ships it.

    tools/gf2mfp.py FILE.gf > FILE.mfp

Each contour goes around a boundary between black and white, counterclockwise from its lowest corner. An outer boundary has weight
1. A hole has `withweight -1`, so that you see which contours are holes, and contours count the same whether the turning check is
on or off. Characters come in the order of the file, with what the font says about their codes. If no line can describe a
character, it is named, and no script is written.
"""

import argparse
import bisect
import collections
import sys
import typing
from collections.abc import Iterable, Iterator

import gf
from printing import named_file, print_made, tell_fault

Point = tuple[int, int]
# What the program accepts (docs/user/LANGUAGE.md): the columns and rows of pixels, the points of a contour, numbers, codes, and
# the operations of `currentpicture`.
FIELD = range(-4095, 4095)
MAX_POINTS = 4096
MAX_NUMBER = 999_999_999
CODES = range(256)
MAX_OPERATIONS = 1_000_000


class Failure(Exception):
    """Why no script is made. The text has a line for each fault."""


class Edge(typing.NamedTuple):
    """A horizontal edge between black and white, with the black pixels on its left in the direction in which it goes."""

    start: Point
    end: Point

    @property
    def goes_right(self) -> bool:
        return self.start[0] < self.end[0]


def changes_by_row(runs: Iterable[gf.Run]) -> dict[int, set[int]]:
    """The columns of each row at which the color changes."""
    changes: dict[int, set[int]] = collections.defaultdict(set)
    for run in runs:
        changes[run.row] |= {run.left, run.right}
    return changes


def differing(one: set[int], other: set[int]) -> Iterator[tuple[int, int, bool]]:
    """Where two rows differ, which are given by the columns at which their colors change: the first column, the column after the
    last, and whether the one row is black there."""
    is_one = is_other = False
    before = 0
    for x in sorted(one | other):
        if is_one != is_other:
            yield before, x, is_one
        is_one, is_other, before = is_one != (x in one), is_other != (x in other), x


class Borders:
    """The horizontal edges of black pixels, and how each leads to the next one around its boundary.

    Where two pixels touch only at a corner, the boundary turns left and so stays with the same pixel: they are not joined
    there."""

    def __init__(self, runs: Iterable[gf.Run]) -> None:
        self.changes = changes_by_row(runs)
        self.edges = [edge for row in self.heights() for edge in self.edges_at(row)]
        self.rightward = {edge.start: edge for edge in self.edges if edge.goes_right}
        self.leftward = {edge.start: edge for edge in self.edges if not edge.goes_right}
        self.corners: dict[int, list[int]] = collections.defaultdict(list)
        for x, y in sorted({corner for edge in self.edges for corner in edge}):
            self.corners[x].append(y)

    def heights(self) -> list[int]:
        """The heights at which there may be edges, in rising order."""
        return sorted({height for row in self.changes for height in (row, row + 1)})

    def changes_of(self, row: int) -> set[int]:
        return self.changes.get(row, set())

    def edges_at(self, y: int) -> Iterator[Edge]:
        """The edges at a height, between the row above it and the row below."""
        for left, right, is_above in differing(self.changes_of(y), self.changes_of(y - 1)):
            yield Edge((left, y), (right, y)) if is_above else Edge((right, y), (left, y))

    def following(self, edge: Edge) -> Edge:
        """The next horizontal edge, after the vertical edge that follows this one."""
        x, y = edge.end
        goes_up = x in self.changes_of(y) if edge.goes_right else x not in self.changes_of(y - 1)
        corners = self.corners[x]
        corner = x, corners[bisect.bisect(corners, y) if goes_up else bisect.bisect_left(corners, y) - 1]
        left, right = (self.leftward, self.rightward) if goes_up else (self.rightward, self.leftward)
        return left.get(corner) or right[corner]

    def boundaries(self) -> Iterator[list[Point]]:
        """The corners of each boundary, in the direction with the black pixels on the left."""
        walked: set[Edge] = set()
        for edge in self.edges:
            corners: list[Point] = []
            while edge not in walked:
                walked.add(edge)
                corners += edge
                edge = self.following(edge)
            if corners:
                yield corners


class Contour(typing.NamedTuple):
    """A contour: its points, counterclockwise, and its weight."""

    points: list[Point]
    weight: int

    def line(self, picture: str = "currentpicture") -> str:
        """The line that adds the contour to a picture."""
        path = "--".join(f"({x},{y})" for x, y in self.points)
        weight = "" if self.weight == 1 else f" withweight {self.weight}"
        return f"addto {picture} contour {path}--cycle{weight}"


def doubled_area(points: list[Point]) -> int:
    """Twice the area that a path goes around. It is negative if the path goes clockwise."""
    return sum(x * below - after * y for (x, y), (after, below) in zip(points, points[1:] + points[:1]))


def contour_of(boundary: list[Point]) -> Contour:
    """The contour of a boundary that has the black pixels on its left. The boundary of a hole goes clockwise, so it is
    reversed."""
    is_hole = doubled_area(boundary) < 0
    points = boundary[::-1] if is_hole else boundary
    first = min(range(len(points)), key=lambda number: points[number][::-1])
    return Contour(points[first:] + points[:first], -1 if is_hole else 1)


def contours_of(runs: list[gf.Run]) -> list[Contour]:
    """The contours of black pixels. If one would have too many points, the upper and the lower rows are drawn separately. A
    single row has only rectangles."""
    boundaries = list(Borders(runs).boundaries())
    if all(len(boundary) <= MAX_POINTS for boundary in boundaries):
        return sorted(map(contour_of, boundaries), key=lambda contour: contour.points[0][::-1])
    middle = (runs[0].row + runs[-1].row + 1) // 2
    upper, lower = [run for run in runs if run.row >= middle], [run for run in runs if run.row < middle]
    return contours_of(lower) + contours_of(upper)


def faults_of_pixels(character: gf.Character) -> Iterator[str]:
    """Why no contours can draw the pixels of a character."""
    for run in character.runs:
        if any(place not in FIELD for place in (run.left, run.right - 1, run.row)):
            yield f"row {run.row} leaves the field of pixels from {FIELD[0]} to {FIELD[-1]}"
            return


def faults_of(character: gf.Character, locator: gf.Locator) -> Iterator[str]:
    """Why no line can describe a character."""
    if character.code not in CODES:
        yield f"its code is not from 0 to {CODES[-1]}"
    if locator.dy != 0:
        yield f"its dy is {locator.dy}, and a script has none"
    for name, number in (("dx", locator.dx), ("width", locator.width)):
        if abs(number) > MAX_NUMBER:
            yield f"its {name} is {number}, and a number of a script has 9 digits at most"
    yield from faults_of_pixels(character)


def faults_of_font(font: gf.Font) -> Iterator[str]:
    """Why no script can describe a font."""
    if not font.characters:
        yield "it has no character"
    for code, locator in font.locators.items():
        if locator.last == gf.NOWHERE:
            yield f"character {code}: the font has its width and no picture"
    for character in font.characters:
        for fault in faults_of(character, font.locator(character)):
            yield f"character {character.code} at byte {character.place}: {fault}"


def lines_of(character: gf.Character, locator: gf.Locator) -> list[str]:
    """The lines that draw and ship a character."""
    return [
        "",
        f"% Character {character.code}",
        *(contour.line() for contour in contours_of(list(character.runs))),
        f"shipout currentpicture code {character.code} dx {locator.dx} width {locator.width}",
        "publish",
        "currentpicture := nullpicture",
    ]


def least_contours(runs: Iterable[gf.Run]) -> int:
    """A number of contours that black pixels have at least. Each has a contour for each of its parts and for each hole, and the parts
    less the holes are the runs less the pairs of runs that touch, one below the other."""
    rows: dict[int, list[gf.Run]] = collections.defaultdict(list)
    for run in runs:
        rows[run.row].append(run)
    count = 0
    for row, above in rows.items():
        below, place = rows.get(row - 1, []), 0
        for run in above:
            while place < len(below) and below[place].right <= run.left:
                place += 1
            end = place
            while end < len(below) and below[end].left < run.right:
                end += 1
            count += 1 - (end - place)
    return abs(count)


def check_operations(count: int, how: str = "") -> None:
    """Whether a script may have so many operations."""
    if count > MAX_OPERATIONS:
        raise Failure(f"it takes {how}{count} operations, and currentpicture accepts {MAX_OPERATIONS}")


def script_of(font: gf.Font) -> list[str]:
    """The lines of the script of a font."""
    if faults := list(faults_of_font(font)):
        raise Failure("\n".join(faults))
    # To find millions of contours would take minutes.
    check_operations(sum(1 + least_contours(character.runs) for character in font.characters), "at least ")
    words = ", ".join(f"{name.replace('_', ' ')} {word}" for name, word in font.words._asdict().items())
    lines = [
        "% Each character is drawn by its outline: outer boundaries have weight 1, and holes -1.",
        f"% The words of the font that was read: {words}.",
    ]
    for character in font.characters:
        lines += lines_of(character, font.locator(character))
    check_operations(sum(line.startswith(("addto", "currentpicture")) for line in lines))
    return lines


def main(words: list[str]) -> int:
    parser = argparse.ArgumentParser(description="Makes a script from a GF file. The script draws and ships its characters.")
    parser.add_argument("file", type=named_file, metavar="FILE.gf")
    file = parser.parse_args(words).file
    try:
        script = "\n".join([*script_of(gf.read_font(gf.read_packed_or_not(file))), ""])
    except (Failure, gf.NotGf, OSError, MemoryError) as fault:
        tell_fault("gf2mfp.py", file, fault)
        return 1
    print_made("gf2mfp.py", script)
    return 0


if __name__ == "__main__":
    sys.exit(main(sys.argv[1:]))
