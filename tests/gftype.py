#!/usr/bin/env python3
"""Asks gftype and gftopk (Debian package texlive-binaries) about GF files.

    tests/gftype.py [PROGRAM]

The tests of mf_gf compare each character that the library writes with the bytes in a table. This script reads that table, puts
each character into a GF file with its own postamble, and has gftype print it with its image. gftype must not complain, it must
find the character and its locator, and its image must be the black pixels in the table.

Then PROGRAM, by default `mfpic` beside this folder, ships the letters of examples/font.mfp, alone and with more lines that ship
codes again. The images must be the grids that `proof` prints before each character. Each code must have one locator, with the dx
and width of the script and the place of its last character. The p of each character must be the place of the one before it with
its code. gftopk must pack the file, and its bytes must be those that `font_model.py` writes. This script is run by hand.
"""

import ast
import dataclasses
import pathlib
import re
import struct
import subprocess
import sys
import tempfile

from models import font_model
from models.font_model import NOWHERE

ROOT = pathlib.Path(__file__).parent.parent
TABLE = ROOT / "crates/mf_gf_tests/src/tests/characters.rt"
FONT = ROOT / "examples/font.mfp"

# Lines that can be added after those of the font. In total the code of H is shipped four times, once with no black pixel, and
# that of T first far from all others and then among them.
AGAIN = """
proof h
shipout h code 72 dx 0 width 1
proof nullpicture
shipout nullpicture code 72 dx 655361 width 0
t := t shifted (-300,4000)
proof t
shipout t code 84 dx 655360 width 655360
proof f
shipout f code 72 dx -65536 width -655360
proof h
shipout h code 84 dx 16777216 width 0
proof f
shipout f code 70 dx 16711680 width 655360
"""

# Seconds that a run may take. The program may take more, since `mfpic` builds it where it is missing.
LIMIT = 60
LIMIT_WITH_BUILD = 3600

CASES = re.compile(r"^const CASES: &\[Case\] = &\[\n(.*?)^\];$", re.DOTALL | re.MULTILINE)

CASE = re.compile(
    r'Case \{\s*about: "(?P<about>[^"]*)",\s*code: (?P<code>\d+),\s*'
    r'black: &\[(?P<black>[^\]]*)\],\s*bytes: (?P<bytes>b"[^"]*"),\s*\},',
    re.DOTALL,
)

# The lines that gftype prints about a correct font, besides those below. They must match completely, because a complaint may also
# come at the end of such a line.
LAWFUL = re.compile(
    r"|This is GFtype, .*|Options selected: [^!]*|''|\(initially n=-?\d+\)( paint [\d()]+)?"
    r"|\d+: (newrow|skip[0-3]) \d+ \(n=-?\d+\) paint [\d()]+|\d+: eoc|\(The character is entirely blank\.\)"
    r"|Postamble starts at byte \d+\.|design size = \d+ \([\d.]+pt\)|check sum = \d+|[hv]ppp = \d+ \([\d.]+\)"
    r"|min [mn] = -?\d+, max [mn] = -?\d+"
)

BEGINNING = re.compile(r"(\d+): beginning of char (\d+): -?\d+<=m<=-?\d+ -?\d+<=n<=-?\d+")

PREVIOUS = re.compile(r"\(previous character with the same code started at byte (\d+)\)")

LOCATOR = re.compile(r"Character (\d+): dx (-?\d+) \([-.\d]+\), width (-?\d+) \([-.\d]+\), loc (\d+)")

TOTAL = re.compile(r"The file had (\d+) characters?( altogether)?\.")

UPPER_END = re.compile(r"\.<--This pixel's lower left corner is at \((-?\d+),(-?\d+)\) in METAFONT coordinates")

LOWER_END = re.compile(r"\.<--This pixel's upper left corner is at \(-?\d+,-?\d+\) in METAFONT coordinates")

IMAGE_ROW = re.compile(r"[* ]*")

SHIPPING = re.compile(r"^shipout \w+ code (\d+) dx (-?\d+) width (-?\d+)$", re.MULTILINE)


@dataclasses.dataclass
class Character:
    """A character as gftype prints it: its code, its place in the file, the place of the previous character with its code, and
    its black pixels."""

    code: int
    place: int
    previous: int
    black: set


def run(words, limit=LIMIT, **more):
    """Runs a program, and keeps everything that it prints."""
    try:
        return subprocess.run(words, capture_output=True, text=True, check=False, timeout=limit, **more)
    except subprocess.TimeoutExpired:
        sys.exit(f"{words[0]} is still running after {limit} seconds")


def pixels_of(stretches):
    """The pixels of stretches, each of which is a row, a first column and a length."""
    return {(x + i, y) for y, x, length in stretches for i in range(length)}


def gf_file(code, character, black):
    """A GF file with only this character."""
    columns = [x for x, _ in black] or [0]
    rows = [y for _, y in black] or [0]
    right = max(columns) + 1 if black else 0
    front = bytes([247, 131, 0]) + character
    place = len(front)
    post = bytes([248]) + struct.pack(
        ">9i", place, 10 << 20, 0, 1 << 16, 1 << 16, min(columns), right, min(rows), max(rows)
    )
    locator = bytes([246, code, 0]) + struct.pack(">2i", 0, 3)
    end = bytes([249]) + struct.pack(">i", place) + bytes([131])
    before = front + post + locator + end
    return before + bytes([223]) * (4 + -len(before) % 4)


def told_by_gftype(path):
    """What gftype prints about a font: the characters in order, dx, width and place by code, and the complaints."""
    ran = run(["gftype", "-mnemonics", "-images", str(path)])
    wrong = [f"gftype exits with status {ran.returncode}"] if ran.returncode != 0 else []
    characters, locators, total, left, row = [], {}, None, None, None
    for line in ran.stdout.splitlines():
        if begins := BEGINNING.fullmatch(line):
            characters.append(Character(int(begins[2]), int(begins[1]), NOWHERE, set()))
        elif previous := PREVIOUS.fullmatch(line):
            characters[-1].previous = int(previous[1])
        elif end := UPPER_END.fullmatch(line):
            left, row = int(end[1]), int(end[2])
        elif LOWER_END.fullmatch(line):
            left = None
        elif left is not None and IMAGE_ROW.fullmatch(line):
            row -= 1
            characters[-1].black |= {(left + i, row) for i, mark in enumerate(line) if mark == "*"}
        elif locator := LOCATOR.fullmatch(line):
            locators[int(locator[1])] = tuple(map(int, locator.groups()[1:]))
        elif counted := TOTAL.fullmatch(line):
            total = int(counted[1])
        elif not LAWFUL.fullmatch(line):
            wrong.append(line)
    if total != len(characters):
        wrong.append(f"gftype counts {total} characters and prints {len(characters)}")
    return characters, locators, wrong


def complaints(case, folder):
    """What is wrong with a case of the table."""
    code = int(case["code"])
    black = pixels_of(ast.literal_eval("[" + case["black"] + "]"))
    path = folder / "character.gf"
    path.write_bytes(gf_file(code, ast.literal_eval(case["bytes"]), black))
    characters, locators, wrong = told_by_gftype(path)
    if [(found.code, found.place) for found in characters] != [(code, 3)]:
        wrong.append("gftype does not find this character alone")
    elif characters[0].black != black:
        wrong.append("the image differs")
    if locators != {code: (0, 0, 3)}:
        wrong.append(f"the locators are {locators}")
    return wrong


def at_corner(pixels):
    """Pixels, moved so that their least column and their least row are 0."""
    left, low = min((x for x, _ in pixels), default=0), min((y for _, y in pixels), default=0)
    return {(x - left, y - low) for x, y in pixels}


def grids_of(transcript):
    """The shipped codes in a transcript, in order, each with the pixels of the grid before it."""
    grids, grid = [], []
    for line in transcript.splitlines():
        if shipped := re.fullmatch(r"\[(\d+)\]", line):
            rows = enumerate(reversed(grid))
            black = {(x, y) for y, row in rows for x, mark in enumerate(row) if mark == "1"}
            grids.append((int(shipped[1]), at_corner(black)))
            grid = []
        elif re.fullmatch(r"[.1]+", line):
            grid.append(line)
    return grids


def previous_places(characters):
    """The place of the last character before each character with the same code."""
    last, previous = {}, []
    for found in characters:
        previous.append(last.get(found.code, NOWHERE))
        last[found.code] = found.place
    return previous


def complaints_about_font(program, script, folder):
    """What is wrong with the font that the program makes from a script."""
    path = folder / "font.gf"
    ran = run([program, "--gf", str(path)], LIMIT_WITH_BUILD, input=script)
    if ran.returncode != 0:
        return [f"the program exits with status {ran.returncode}: {ran.stderr}"]
    characters, locators, wrong = told_by_gftype(path)
    grids, shipped = grids_of(ran.stdout), [tuple(map(int, line)) for line in SHIPPING.findall(script)]
    if [code for code, _, _ in shipped] != [found.code for found in characters]:
        return [*wrong, "the characters are not those that the script ships"]
    if [(found.code, at_corner(found.black)) for found in characters] != grids:
        wrong.append("the images differ from the grids")
    if [found.previous for found in characters] != previous_places(characters):
        wrong.append("the p of a character is not the place of the one before it with its code")
    expected = {code: (dx, width, found.place) for (code, dx, width), found in zip(shipped, characters)}
    if locators != expected:
        wrong.append(f"the locators are {locators} instead of {expected}")
    modelled = [font_model.Character(*line, frozenset(found.black)) for line, found in zip(shipped, characters)]
    if path.read_bytes() != b"".join(font_model.font_commands(modelled)):
        wrong.append("the bytes are not those of the model")
    packed = run(["gftopk", str(path), str(folder / "font.pk")])
    if packed.returncode != 0:
        wrong.append(f"gftopk exits with status {packed.returncode}: {packed.stdout}")
    return wrong


def cases_of_table():
    """The cases of the table. Each must have the layout of the pattern."""
    table = CASES.search(TABLE.read_text(encoding="ascii"))
    if not table:
        sys.exit(f"{TABLE} has no table")
    if other := CASE.sub("", table[1]).strip():
        sys.exit(f"the table has something other than cases, or a case with another layout: {other}")
    return [match.groupdict() for match in CASE.finditer(table[1])]


def main():
    program = sys.argv[1] if len(sys.argv) > 1 else str(ROOT / "mfpic")
    cases = cases_of_table()
    if not cases:
        sys.exit("the table has no case")
    failed = 0
    with tempfile.TemporaryDirectory() as folder:
        for case in cases:
            wrong = complaints(case, pathlib.Path(folder))
            failed += bool(wrong)
            for line in wrong:
                print(f"{case['about']}: {line}")
        font = FONT.read_text(encoding="ascii")
        for about, script in ((FONT.name, font), (f"{FONT.name} with codes shipped again", font + AGAIN)):
            wrong = complaints_about_font(program, script, pathlib.Path(folder))
            failed += bool(wrong)
            for line in wrong:
                print(f"{about}: {line}")
    print(f"{len(cases)} characters and 2 fonts, {failed} with complaints")
    sys.exit(failed > 0)


if __name__ == "__main__":
    main()
