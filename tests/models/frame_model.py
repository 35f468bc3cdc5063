"""A model of what `mfview` draws and writes, small and slow: frames of characters, and images, from the weights of pixels.

A picture is a dictionary of pixels with their weights, as in `pixel_model.py`. The model shares nothing with the program but the
rules of docs/user/VIEW.md: frames are drawn cell by cell, and images are read, by an XML parser where they are SVG.
"""

import re
import xml.etree.ElementTree

Picture = dict[tuple[int, int], int]

MARGIN = 3
BLANK, NEGATIVE = 0, 1
COLORS = (255, 208, 238, 25, 16)
AXIS_COLOR = 250
ESCAPE = "\x1b"
SVG = "{http://www.w3.org/2000/svg}"
RECTANGLE = re.compile(r"M(-?\d+) (-?\d+)h(\d+)v1h-(\d+)z")


def shade(weight: int) -> int:
    """How dark a pixel is: 0 for a blank one, 1 for a negative weight, and then 2, 3 and 4 for 1, 2 and more."""
    return NEGATIVE if weight < 0 else min(weight, 3) + (weight > 0)


def box_of(picture: Picture) -> tuple[int, int, int, int]:
    """The first and the last column, and the first and the last row."""
    columns, rows = zip(*picture)
    return min(columns), max(columns), min(rows), max(rows)


def fits(picture: Picture, scale: int, columns: int, lines: int) -> bool:
    """Whether the picture fits into so many columns and lines at this scale. A line has two rows of cells."""
    left, right, low, high = box_of(picture)
    return right // scale - left // scale < columns and high // (2 * scale) - low // (2 * scale) < lines


def scale_of(picture: Picture, columns: int, lines: int) -> int:
    scale = 1
    while not fits(picture, scale, columns, lines):
        scale += 1
    return scale


def cells_of(picture: Picture, scale: int) -> dict[tuple[int, int], int]:
    """The shade of each cell that is not blank: the darkest of its pixels."""
    cells: dict[tuple[int, int], int] = {}
    for (x, y), weight in picture.items():
        place = x // scale, y // scale
        cells[place] = max(cells.get(place, BLANK), shade(weight))
    return cells


def axis(column: int, line: int) -> str:
    """What marks the axes in a tile without ink: they are the left border of column 0 and the lower border of line 0."""
    return "▏" if column == 0 else "▁" if line == 0 else " "


def plain_tile(upper: int, lower: int, column: int, line: int) -> str:
    dark = upper > NEGATIVE, lower > NEGATIVE
    if any(dark):
        return {(True, False): "▀", (False, True): "▄", (True, True): "█"}[dark]
    return "░" if NEGATIVE in (upper, lower) else axis(column, line)


def colored_tile(upper: int, lower: int, column: int, line: int) -> str:
    if upper == lower == BLANK and axis(column, line) != " ":
        return f"{ESCAPE}[38;5;{AXIS_COLOR};48;5;{COLORS[BLANK]}m{axis(column, line)}"
    return f"{ESCAPE}[38;5;{COLORS[upper]};48;5;{COLORS[lower]}m▀"


def lines_of(picture: Picture, scale: int, is_plain: bool) -> list[str]:
    """The lines of text of a picture that is not blank, from the top."""
    left, right, low, high = box_of(picture)
    cells, tile = cells_of(picture, scale), plain_tile if is_plain else colored_tile
    return [
        "".join(
            tile(cells.get((column, 2 * line + 1), BLANK), cells.get((column, 2 * line), BLANK), column, line)
            for column in range(left // scale, right // scale + 1)
        )
        for line in range(high // (2 * scale), low // (2 * scale) - 1, -1)
    ]


def frame(picture: Picture, revision: int, columns: int, rows: int, is_plain: bool) -> str:
    """The frame of a picture in a terminal of this size."""
    scale = scale_of(picture, columns, rows - MARGIN) if picture else 1
    drawn = lines_of(picture, scale, is_plain) if picture else []
    seen = "blank" if not picture else "columns {}..{}  rows {}..{}".format(*box_of(picture))
    below = [f"revision {revision}  totalweight {sum(picture.values())}", f"{seen}  scale {scale}"]
    if is_plain:
        return "".join(f"{line}\n" for line in drawn + below)
    above = [""] * (rows - MARGIN - len(drawn))
    # A line is erased before it is drawn: after a character in the last column, a terminal may erase that one.
    return "".join(f"{ESCAPE}[K{line}\n" for line in [*above, *(f"{line}{ESCAPE}[0m" for line in drawn), *below])


def over(rows: int) -> str:
    """What moves the cursor up to the first line of the frame before."""
    return f"{ESCAPE}[{rows - 1}A"


# The side that a picture may have in an image, in pixels.
MAX_IMAGE_SIDE = 4096
LEVELS = {1: 120, 2: 80, 3: 40}


def is_too_large(picture: Picture) -> bool:
    """Whether a picture is refused as an image."""
    if not picture:
        return False
    left, right, low, high = box_of(picture)
    return right - left >= MAX_IMAGE_SIDE or high - low >= MAX_IMAGE_SIDE


def read_svg(text: str) -> Picture:
    """The pixels that the paths of an image paint, which is an XML document. A pixel that is painted twice is a fault."""
    picture: Picture = {}
    for path in xml.etree.ElementTree.fromstring(text).iter(f"{SVG}path"):
        if not path.get("id", "").startswith("weight"):
            continue
        weight = int(path.get("id", "").removeprefix("weight"))
        for x, y, length, back in RECTANGLE.findall(path.get("d", "")):
            row, columns = -int(y) - 1, range(int(x), int(x) + int(length))
            if back != length or weight == 0 or any((column, row) in picture for column in columns):
                raise ValueError(f"row {row}, column {x} of weight {weight} is painted twice, or is no rectangle")
            picture |= {(column, row): weight for column in columns}
    return picture


def level(weight: int) -> int:
    """The byte of a weight in a PGM image."""
    if weight > 0:
        return LEVELS.get(weight, max(0, 43 - weight))
    return 255 if weight == 0 else min(254, 199 - weight)


def pgm(picture: Picture) -> bytes:
    left, right, low, high = box_of(picture) if picture else (0, 0, 0, 0)
    head = f"P5\n# left {left} top {high}\n{right - left + 1} {high - low + 1}\n255\n"
    rows = (level(picture.get((x, y), 0)) for y in range(high, low - 1, -1) for x in range(left, right + 1))
    return head.encode() + bytes(rows)
