#!/usr/bin/env python3
"""Compares random scripts with METAFONT (`mf-nowin`, Debian package texlive-binaries).

    tests/metafont_scripts.py PROGRAM COUNT SEED

Each script has only commands that METAFONT has, too: contours, with the turning check on and off, sums and differences, culls,
shifts, scales, turns, clears, totals, and shippings. The program and METAFONT both perform it. This script compares the totals,
the weights of all pixels of each picture at the end, and the two font files: their characters in order, and dx, width and the
last character of each code. Characters with the same box are compared command by command. The boxes of the others are larger than
necessary in METAFONT's file, so only the black pixels of these are compared.

The lines are made by `random_lines.py`. Left out are lines that the program refuses, according to `pixel_model.py`, lines with
numbers that METAFONT does not have, and lines that make a picture too large for METAFONT or for the model: METAFONT keeps the
room of pixels that are blank again. The first script that differs is printed, without the lines that can be left out while it
still differs. If METAFONT is not installed, nothing is compared.
"""

import collections
import os
import pathlib
import re
import shutil
import subprocess
import sys
import tempfile
import typing

from metafont_contours import HEAD, POINTS, pixels_of_edges, pixels_of_runs
from models.pixel_model import MAX_COORDINATE, Model, TooSlow
from models.pixel_model import edges as sides
from models.random_lines import NAMES, Chance, Line

sys.path.append(str(pathlib.Path(__file__).parent.parent / "tools"))
import gf

METAFONT = "mf-nowin"
# METAFONT reads the script from the folder where it runs. Its memory is given in words of eight bytes.
ENVIRONMENT = {**os.environ, "MFINPUTS": ".", "main_memory": "8000000"}
COMMANDS = ["contour", "also", "also -", "keeping", "dropping", ":=", "shifted", "scaled", "xscaled", "yscaled"]
UNCHANGING = ["show totalweight", "shipout", "turningcheck on", "turningcheck off"]
COMMANDS += ["rotated", *UNCHANGING]
# Characters that are compared command by command, characters that are compared by their black pixels, and what else fonts have.
SAME_BOX, SMALLER_BOX = "a character with METAFONT's box", "a character with a smaller box"
SHIPPED = [SAME_BOX, SMALLER_BOX, "a blank character", "a code shipped again", "a dx that is not a whole number of pixels"]
KNOWN = [*COMMANDS, *SHIPPED]
# With this many scripts each of these must occur.
ENOUGH = 300
# The most pixels of a picture, for the model, and the most edges, for METAFONT, which sorts the edges of a row one by one.
MAX_PIXELS, MAX_EDGES = 2_000, 4_000
# Seconds that a run may take.
LIMIT = 60
# METAFONT's width in 1/65536 point is 8 times ours, because its design size is 128 points if none is set. Its dx is below 4096
# pixels, and its width below 2048 points.
WIDTH, MAX_DX, MAX_WIDTH = 8, 4096 * gf.PIXEL, 2048 * gf.PIXEL // 8


class Scripts(Chance):
    """Random scripts."""

    def kinds(self):
        """The functions that make a line."""
        kinds = [self.contour] * 5 + [self.also] * 2 + [self.cull] * 2 + [self.shift, self.scale, self.turn] * 2
        return [*kinds, self.clear, self.total, self.ship, self.ship]

    def lawful_script(self):
        """Lines that the program accepts, with commands that METAFONT has, too."""
        turns, lines = self.choice([0, 0, 0.03, 0.2]), []
        if self.happens(0.6):
            lines.append(self.turningcheck())
        for _ in range(self.place(3, 25)):
            for line in self.lines():
                lines += [self.turningcheck(), line] if self.happens(turns) else [line]
        return lawful(lines)


class Room:
    """What METAFONT keeps of each picture: the box of all pixels that it has had since it was cleared or culled, and a bound on
    the number of its edges."""

    def __init__(self):
        self.kept = {}

    def kept_of(self, line, model):
        """The name, the corners and the number of edges of the picture that a line changes, after the model has performed it."""
        name = line.tokens[0 if ":=" in line.tokens else 1]
        corners, edges = self.kept.get(name, ([], 0))
        if line.command == "contour":
            return name, [*corners, *line.points], edges + sum(abs(b[1] - a[1]) for a, b in sides(line.points))
        if line.command in ("also", "also -"):
            others, more = self.kept.get(line.tokens[-1], ([], 0))
            return name, [*corners, *others], edges + more
        if line.command == ":=":
            return name, [], 0
        if line.command in ("keeping", "dropping"):
            pixels = model.picture(name)
            return name, [corner for x, y in pixels for corner in ((x, y), (x + 1, y + 1))], 2 * len(pixels)
        operand = numbers(line.tokens)
        if line.command == "rotated":
            edges = 2 * sum(map(abs, model.picture(name).values()))
        rows = abs(operand[0]) if line.command in ("scaled", "yscaled") else 1
        return name, [place_after(line.command, operand, corner) for corner in corners], edges * rows

    def holds(self, line, model):
        """Whether METAFONT has room for the picture that a line changes. If so, the picture is remembered."""
        if line.command in UNCHANGING:
            return True
        name, corners, edges = self.kept_of(line, model)
        if edges > MAX_EDGES or any(abs(place) > MAX_COORDINATE for corner in corners for place in corner):
            return False
        self.kept[name] = ends_of(corners), edges
        return True


def ends_of(corners):
    """The least and the greatest corner of the box of these corners, if there are any."""
    if not corners:
        return []
    columns, rows = zip(*corners)
    return [(min(columns), min(rows)), (max(columns), max(rows))]


def place_after(command, operand, corner):
    """Where a shift, a scale or a turn moves a point."""
    x, y = corner
    if command == "shifted":
        return x + operand[0], y + operand[1]
    if command == "rotated":
        return {90: (-y, x), 180: (-x, -y), 270: (y, -x)}[operand[0]]
    return x * (1 if command == "yscaled" else operand[0]), y * (1 if command == "xscaled" else operand[0])


def numbers(tokens):
    """The numbers of a line."""
    return [int(word) for word in re.findall(r"-?\d+", "".join(token for token in tokens if token != "--"))]


def is_expressed(line, model):
    """Whether METAFONT has the numbers of a line, which the model has not performed yet."""
    if line.command == "contour":
        return len(line.points) <= POINTS
    operands = numbers(line.tokens)
    if line.command == "shipout":
        return abs(operands[1]) < MAX_DX and abs(operands[2]) < MAX_WIDTH
    if line.command in ("keeping", "dropping"):
        # Greater bounds are replaced by this one, which makes no difference if no weight is greater.
        large = max(map(abs, model.picture(line.tokens[1]).values()), default=0)
        return large <= MAX_COORDINATE or max(map(abs, operands)) <= MAX_COORDINATE
    return line.command.startswith("turningcheck") or all(abs(number) <= MAX_COORDINATE for number in operands)


def lawful(lines):
    """The lines that the program accepts and METAFONT has, without the others."""
    model, room, kept = Model(), Room(), []
    for line in lines:
        if line.command not in COMMANDS or not is_expressed(line, model):
            continue
        after = model.copy()
        try:
            printed = line.perform(after)
        except TooSlow:
            continue
        few = all(len(picture) <= MAX_PIXELS for picture in after.pictures.values())
        if few and not printed.startswith("refused") and room.holds(line, after):
            model = after
            kept.append(line)
    return kept


class End(typing.NamedTuple):
    """The result of a script: its totals, the weights of its pictures, and its font, if characters were shipped."""

    totals: list
    pictures: list
    font: gf.Font | None


def font_at(path):
    """Reads the font file at a path, if there is one, and removes it."""
    if not path.exists():
        return None
    font = gf.read_font(path.read_bytes())
    path.unlink()
    return font


def by_program(program, lines, folder):
    """The result of a script when the program performs it."""
    texts = [" ".join(line.tokens) for line in lines]
    for name in NAMES:
        texts += ["publish", f"show {name}"]
    path = folder / "shipped.gf"
    words = [program, "--gf", path] if any(line.command == "shipout" for line in lines) else [program]
    script = "\n".join(texts) + "\n"
    how = {"stdout": subprocess.PIPE, "check": True, "encoding": "ascii", "timeout": LIMIT}
    printed = subprocess.run(words, input=script, **how).stdout
    told, *shown = re.split(r"^published \d+\n", printed, flags=re.MULTILINE)
    if "refused" in printed:
        raise ValueError("the program refuses a line")
    totals = [int(number) for number in re.findall(r"^totalweight (-?\d+)$", told, re.MULTILINE)]
    return End(totals, [pixels_of_runs(text) for text in shown], font_at(path))


def in_points(number):
    """A number in 1/65536, as METAFONT writes it."""
    return f"{number / gf.PIXEL:.12f}"


def for_metafont(line):
    """A line as METAFONT reads it."""
    if line.command == "shipout":
        code, dx, width = numbers(line.tokens)
        return f"charcode:={code}; chardx:={in_points(dx)}; charwd:={in_points(width * WIDTH)}; shipout {line.tokens[1]};"
    if line.command == "contour":
        # METAFONT reads only short lines.
        return " ".join("--\n" if token == "--" else token for token in line.tokens) + ";"
    # A number that is too large for METAFONT becomes the largest one.
    tokens = [str(min(int(token), MAX_COORDINATE)) if token.isdigit() else token for token in line.tokens]
    return " ".join(tokens) + ";"


def by_metafont(lines, folder):
    """The result of a script when METAFONT performs it."""
    texts = [HEAD, "turningcheck:=1;", f"picture {','.join(NAMES)};", *(f"{name}:=nullpicture;" for name in NAMES)]
    texts += map(for_metafont, lines)
    for name in NAMES:
        texts += ['message "next";', f"show {name};"]
    (folder / "work.mf").write_text("\n".join([*texts, "end", ""]), encoding="ascii")
    words = [METAFONT, "-ini", "-interaction=batchmode", "work.mf"]
    how = {"stdin": subprocess.DEVNULL, "stdout": subprocess.PIPE, "check": False, "timeout": LIMIT}
    subprocess.run(words, cwd=folder, env=ENVIRONMENT, **how)
    log = (folder / "work.log").read_text(encoding="latin-1")
    if fault := re.search(r"^! .*", log, re.MULTILINE):
        raise ValueError(f"METAFONT finds an error: {fault[0]}")
    told, *shown = log.split("\nnext")
    totals = [round(float(number) * gf.PIXEL) for number in re.findall(r"^>> (-?[\d.]+)", told, re.MULTILINE)]
    return End(totals, [pixels_of_edges(text) for text in shown], font_at(folder / "work.gf"))


def is_within(inner, outer):
    return inner[0] >= outer[0] and inner[1] <= outer[1] and inner[2] >= outer[2] and inner[3] <= outer[3]


def told_of_character(character):
    """Everything about a character but its place, which also depends on the characters before it."""
    head = f"first byte {character.opcode}, code {character.code}, previous {character.previous}, box {tuple(character.box)}"
    return f"{head}, commands {character.commands.hex()}"


def difference_of_characters(number, ours, theirs):
    """How two characters differ, if they do. Characters with the same box are also compared byte by byte."""
    if ours.box == theirs.box or not is_within(ours.box, theirs.box):
        own, other = told_of_character(ours), told_of_character(theirs)
        return "" if own == other else f"character {number}: {own} and {other}"
    if (ours.code, ours.previous) != (theirs.code, theirs.previous):
        return f"character {number}: code and previous {ours[1:3]} and {theirs[1:3]}"
    return "" if ours.black == theirs.black else f"character {number}: {sorted(ours.black)} and {sorted(theirs.black)}"


def difference_of_fonts(ours, theirs):
    """How two fonts differ, if they do."""
    if ours is None or theirs is None:
        return "" if ours is theirs else f"the fonts are {ours} and {theirs}"
    if ours.locators != theirs.locators:
        return f"the locators are {ours.locators} and {theirs.locators}"
    if len(ours.characters) != len(theirs.characters):
        return f"{len(ours.characters)} and {len(theirs.characters)} characters"
    pairs = enumerate(zip(ours.characters, theirs.characters))
    return next(filter(None, (difference_of_characters(number, *pair) for number, pair in pairs)), "")


def difference(ours, theirs):
    """How two results differ, if they do."""
    if ours.totals != theirs.totals:
        return f"the totals are {ours.totals} and {theirs.totals}"
    for name, own, other in zip(NAMES, ours.pictures, theirs.pictures, strict=True):
        if own != other:
            apart = sorted({pixel for pixel, _ in own.items() ^ other.items()})[:8]
            return f"{name}: {[(pixel, own.get(pixel, 0), other.get(pixel, 0)) for pixel in apart]}"
    return difference_of_fonts(ours.font, theirs.font)


def count_font(counts, ours, theirs):
    for own, other in zip(ours.characters, theirs.characters):
        counts[SAME_BOX if own.box == other.box else SMALLER_BOX] += 1
        counts["a blank character"] += not own.black
        counts["a code shipped again"] += own.previous != gf.NOWHERE
    counts["a dx that is not a whole number of pixels"] += any(dx % gf.PIXEL for dx, *_ in ours.locators.values())


def told_of(program, lines, folder, counts):
    """How the program and METAFONT differ in a script, if they do."""
    try:
        ours, theirs = by_program(program, lines, folder), by_metafont(lines, folder)
    except (ValueError, gf.NotGf, subprocess.SubprocessError) as fault:
        return f"{type(fault).__name__}: {fault}"
    finally:
        (folder / "shipped.gf").unlink(missing_ok=True)
        (folder / "work.gf").unlink(missing_ok=True)
    told = difference(ours, theirs)
    if not told:
        counts.update(line.command for line in lines)
        if ours.font:
            count_font(counts, ours.font, theirs.font)
    return told


def short_script(program, lines, folder):
    """A script that differs, without the lines that can be left out while it still differs."""
    for place in reversed(range(len(lines))):
        fewer = lawful(lines[:place] + lines[place + 1 :])
        if told_of(program, fewer, folder, collections.Counter()):
            lines = fewer
    return lines


def main():
    if len(sys.argv) != 4:
        sys.exit(__doc__)
    program, count, chance = sys.argv[1], int(sys.argv[2]), Scripts(int(sys.argv[3]))
    if not shutil.which(METAFONT):
        print(f"0 scripts compared: {METAFONT} is not installed")
        return 0
    counts = collections.Counter()
    with tempfile.TemporaryDirectory() as name:
        folder = pathlib.Path(name)
        for number in range(count):
            lines = chance.lawful_script()
            if told_of(program, lines, folder, counts):
                lines = short_script(program, lines, folder)
                print(f"script {number}:", *(" ".join(line.tokens) for line in lines), sep="\n")
                print("mfpic and METAFONT:", told_of(program, lines, folder, counts))
                return 1
    print("\n".join(f"{counts[known]:9} {known}" for known in KNOWN))
    missing = [known for known in KNOWN if counts[known] == 0]
    if missing and count >= ENOUGH:
        print(f"never came: {', '.join(missing)}")
        return 1
    print(f"{count} passed, 0 failed")
    return 0


if __name__ == "__main__":
    sys.exit(main())
