#!/usr/bin/env python3
"""Tests the tools that read GF files: fonts are drawn again by their outlines, font words are set, and other files are refused.

    tests/outlines.py [PROGRAM]

The fonts are those of examples/ and tests/scripts/, and made-up ones, whose pixels are known. `tools/gf2mfp.py` makes a script
from each, which the program performs. If the program or `font_model.py` has written the font, the result must have the same
bytes; otherwise it must have the same pixels, codes, dx and widths. Contours must have only corners, not too many of them, and
go around counterclockwise. If gftype is installed (Debian package texlive-binaries), it must see the same pixels and font words.
And what the tables of docs/user/METAFONT.md say about lines must be what the program says. The last line counts what passed.
"""

import contextlib
import dataclasses
import io
import pathlib
import random
import re
import shutil
import struct
import subprocess
import sys
import tempfile
import types
import typing
from collections.abc import Callable, Iterator

from models import font_model
from gftype import told_by_gftype

ROOT = pathlib.Path(__file__).parent.parent
sys.path.append(str(ROOT / "tools"))
import gf
import gf2mfp
import gfwords

# Seconds that a run may take. The program may take more, since `mfpic` builds it where it is missing.
LIMIT, LIMIT_WITH_BUILD = 60, 3600
MAX_POINTS = 4096
METAFONT = ROOT / "docs" / "user" / "METAFONT.md"
CODE = re.compile(r"`([^`]*)`")
CONTOUR = re.compile(r"addto currentpicture contour (.*)--cycle( withweight -1)?")
# gftype shows a character completely if its coordinates are below this in absolute value.
SHOWN = 200
SEED = 20
Pixels = frozenset[tuple[int, int]]


@dataclasses.dataclass(frozen=True)
class Case:
    """A font: its name, its bytes, the black pixels of its characters if they are known without reading it, and whether the
    program writes the same bytes for these characters."""

    name: str
    font: bytes
    black: list[Pixels] | None
    same_bytes: bool


class Wrong(Exception):
    """What is wrong, according to a check."""


def run(words: list[str | pathlib.Path], limit: int = LIMIT, text: str = "") -> subprocess.CompletedProcess[str]:
    return subprocess.run(list(map(str, words)), input=text, capture_output=True, text=True, check=False, timeout=limit)


class Ended(typing.NamedTuple):
    """How a tool ends: its exit status, and what it writes to standard output and to standard error."""

    status: int
    printed: str
    told: str


def call(tool: types.ModuleType, words: list[str | pathlib.Path]) -> Ended:
    """Runs a tool within this process, which takes less time than a process of its own."""
    printed, told = io.StringIO(), io.StringIO()
    with contextlib.redirect_stdout(printed), contextlib.redirect_stderr(told):
        try:
            status = tool.main(list(map(str, words)))
        except SystemExit as end:
            status = end.code
    if isinstance(status, str):
        # This is how Python exits with a message.
        return Ended(1, printed.getvalue(), f"{told.getvalue()}{status}\n")
    return Ended(status, printed.getvalue(), told.getvalue())


def by_itself(tool: types.ModuleType, words: list[str | pathlib.Path]) -> Ended:
    """Runs a tool in a process of its own."""
    ended_so = run([sys.executable, tool.__file__, *words])
    return Ended(ended_so.returncode, ended_so.stdout, ended_so.stderr)


def expect(is_so: bool, wrong: str) -> None:
    if not is_so:
        raise Wrong(wrong)


# Made-up characters.


def rectangle(left: int, right: int, low: int, high: int) -> Pixels:
    """The pixels of the columns `left` to `right - 1` in the rows `low` to `high - 1`."""
    return frozenset((x, y) for x in range(left, right) for y in range(low, high))


def checkerboard(size: int) -> Pixels:
    return frozenset((x, y) for x, y in rectangle(0, size, 0, size) if (x + y) % 2 == 0)


def comb(teeth: int) -> Pixels:
    """A comb with this many teeth. Its outline has four corners for each tooth."""
    return rectangle(-teeth, teeth, 0, 2) | {(x, y) for x in range(-teeth, teeth, 2) for y in range(2, 5)}


def turn(pixels: Pixels) -> Pixels:
    return frozenset((-y, x) for x, y in pixels)


def blot(chance: random.Random) -> Pixels:
    """Rectangles, some of them white, with single pixels scattered over them."""
    black: set[tuple[int, int]] = set()
    for _ in range(chance.randrange(1, 9)):
        left, low = chance.randrange(-20, 20), chance.randrange(-20, 20)
        spot = rectangle(left, left + chance.randrange(1, 20), low, low + chance.randrange(1, 20))
        black = black - spot if chance.random() < 0.4 else black | spot
    strewn = {(chance.randrange(-20, 40), chance.randrange(-20, 40)) for _ in range(chance.choice([0, 3, 300]))}
    return frozenset(black ^ strewn)


def shapes() -> dict[str, list[Pixels]]:
    """Black pixels of characters, by what they show."""
    ring = rectangle(0, 9, 0, 7) - rectangle(2, 6, 3, 5)
    frame = rectangle(-1, 93, -1, 93)
    teeth = comb(1100)
    filled = rectangle(-1102, 1102, -2, 7)
    chance = random.Random(SEED)
    return {
        "rings": [ring, ring - {(0, 0), (8, 6)}, rectangle(-1, 10, -1, 8) - ring, ring - {(1, 2), (6, 5)}],
        "corners": [frozenset({(0, 0), (1, 1)}), frozenset({(0, 1), (1, 0)}), rectangle(0, 4, 0, 4) - {(1, 1), (2, 2)}],
        "a hole that touches the outside at a corner": [rectangle(0, 3, 0, 3) - {(1, 1), (2, 2)}],
        "checkerboards": [checkerboard(7), checkerboard(40)],
        "combs": [teeth, turn(teeth), turn(turn(teeth))],
        "holes with a long boundary": [filled - teeth, turn(filled - teeth), frame - checkerboard(92)],
        "blank": [frozenset(), frozenset({(3, 3)}), frozenset()],
        "edges of the field": [frozenset({(x, y)}) for x in (-4095, 4094) for y in (-4095, 4094)],
        "the whole field's frame": [frozenset({(-4095, -4095), (4094, 4094), (-4095, 4094), (4094, -4095), (0, 0)})],
        "blots": [blot(chance) for _ in range(250)],
    }


def case_of(name: str, blacks: list[Pixels]) -> Case:
    """A font of these characters, with codes from 255 downwards, dx and widths of all kinds, and one code shipped again."""
    dxs, widths = (0, 655360, -65536, 98304, 999_999_999, -999_999_999), (0, 1, -655360, 999_999_999, -999_999_999)
    characters = [
        font_model.Character(255 - number, dxs[number % len(dxs)], widths[number % len(widths)], black)
        for number, black in enumerate([*blacks, blacks[0]])
    ]
    characters[-1] = dataclasses.replace(characters[0], black=blacks[-1])
    blacks = [character.black for character in characters]
    return Case(name, b"".join(font_model.font_commands(characters)), blacks, same_bytes=True)


def file_of(front: bytes, locators: bytes, characters_end: int | None = None) -> bytes:
    """A GF file with these bytes before the postamble, and these locators."""
    end_of_characters = len(front) if characters_end is None else characters_end
    post = front + struct.pack(">B9i", 248, end_of_characters, 10 << 20, -5, 544093, 272046, -9, 9, -9, 9) + locators
    end = post + struct.pack(">BiB", 249, len(front), 131)
    return end + bytes([223]) * (4 + -len(end) % 4)


PREAMBLE = bytes([247, 131, 4]) + b"text"
# A character with special commands, in a box that is larger than necessary: commands that do nothing, numbers with more bytes
# than they need, paint commands for no pixel, and a black run in two parts.
SPECIAL = bytes([239, 3, *b"xyz", 243, 0, 1, 0, 0])
LOOSE = struct.pack(">B6i", 67, 65, -1, -2, 9, -3, 3)
LOOSE_ROWS = [
    bytes([244, 70, 1, 1, 0, 64, 2, 239, 1, 7, 66, 0, 0, 1, 1]),  # row 2
    bytes([244, 73, 0, 0, 1, 0, 1, 1, 0]),  # row 0
    bytes([75, 2, 69]),  # row -1
]
LOOSE_BLACK = frozenset({(-1, 2), (0, 2), (1, 2), (3, 2), (-2, 0), (-1, -1), (0, -1)})
WHOLE = struct.pack(">2B4i", 245, 65, 5 * 65536, 0, 70, len(PREAMBLE))


def loose() -> Case:
    """A font with special commands, like METAFONT's proofs. Its locator leads to the special commands before the character."""
    front = PREAMBLE + SPECIAL + LOOSE + b"".join(LOOSE_ROWS)
    return Case("a font with special commands", file_of(front + SPECIAL, WHOLE, len(front)), [LOOSE_BLACK], same_bytes=False)


def cases() -> Iterator[Case]:
    for folder in ("examples", "tests/scripts"):
        for file in sorted((ROOT / folder).glob("*.gf")):
            yield Case(file.name, file.read_bytes(), None, same_bytes=True)
    for name, blacks in shapes().items():
        yield case_of(name, blacks)
    yield loose()


# Fonts that are drawn again.


def check_contours(script: str) -> None:
    """Contours must not have too many points, must have only corners, and must go around counterclockwise. The only weight that a
    line may name is -1."""
    for number, line in enumerate(script.splitlines(), 1):
        if not line.startswith("addto"):
            continue
        contour = CONTOUR.fullmatch(line)
        expect(contour is not None, f"line {number} is no contour: {line}")
        points = [tuple(map(int, pair[1:-1].split(","))) for pair in contour[1].split("--")]
        expect(4 <= len(points) <= MAX_POINTS, f"line {number} has {len(points)} points")
        around = list(zip(points[-1:] + points, points, points[1:] + points[:1]))
        corners = all((a[0] == b[0]) != (b[0] == c[0]) and (a[1] == b[1]) != (b[1] == c[1]) for a, b, c in around)
        expect(corners, f"line {number} has a point that is no corner")
        area = sum(a[0] * b[1] - b[0] * a[1] for a, b, _ in around)
        expect(area > 0, f"line {number} goes around clockwise")


def script_of(font: pathlib.Path) -> str:
    made = call(gf2mfp, [font])
    expect(made.status == 0 and not made.told, f"gf2mfp exits with status {made.status}: {made.told}")
    return made.printed


def perform(program: str, script: str, font: pathlib.Path) -> None:
    """Has the program make a font from a script. It must ship each character of the script, and publish after each."""
    performed = run([program, "--gf", font], LIMIT_WITH_BUILD, script)
    expect(performed.returncode == 0, f"the program exits with status {performed.returncode}: {performed.stderr}")
    codes = re.findall(r"^% Character (\d+)$", script, re.MULTILINE)
    told = re.sub(r"^published \d+$", "published", performed.stdout, flags=re.MULTILINE)
    expect(told == "".join(f"[{code}]\npublished\n" for code in codes), f"the program prints {told[:200]}")


def characters_of(font: gf.Font) -> list[tuple[int, int, Pixels]]:
    return [(character.code, character.previous, character.black) for character in font.characters]


def compare(case: Case, read: gf.Font, again: bytes) -> None:
    """Compares a font with the one that was drawn from it."""
    if case.black is not None:
        expect([character.black for character in read.characters] == case.black, "the reader sees other pixels")
    if case.same_bytes:
        expect(again == case.font, "the bytes differ")
    drawn = gf.read_font(again)
    expect(drawn.locators == read.locators, f"the locators are {drawn.locators} instead of {read.locators}")
    expect(len(drawn.characters) == len(read.characters), f"there are {len(drawn.characters)} characters")
    for number, (one, other) in enumerate(zip(characters_of(drawn), characters_of(read))):
        expect(one == other, f"character {number}, with code {other[0]}, differs")


def check_again(program: str, case: Case, folder: pathlib.Path) -> None:
    """Draws a font again, and compares both."""
    font, again = folder / "read.gf", folder / "again.gf"
    font.write_bytes(case.font)
    again.unlink(missing_ok=True)
    read = gf.read_font(case.font)
    script = script_of(font)
    check_contours(script)
    # The contours count the same when the turning check is off.
    perform(program, script, again)
    checked = again.read_bytes()
    perform(program, "turningcheck := 0\n" + script, again)
    expect(again.read_bytes() == checked, "the turning check makes a difference")
    compare(case, read, checked)
    size = max((abs(place) for character in read.characters for place in character.box), default=0)
    if shutil.which("gftype") and size < SHOWN:
        check_by_gftype(again, read)


def check_by_gftype(path: pathlib.Path, read: gf.Font) -> None:
    characters, locators, wrong = told_by_gftype(path)
    expect(not wrong, f"gftype complains: {wrong}")
    told = [(found.code, frozenset(found.black)) for found in characters]
    expect(told == [(found.code, found.black) for found in read.characters], "gftype sees other pixels")
    numbers = {code: (locator.dx, locator.width) for code, locator in read.locators.items()}
    expect({code: locator[:2] for code, locator in locators.items()} == numbers, f"gftype sees the locators {locators}")


def check_cut(folder: pathlib.Path) -> None:
    """A comb with 4096 corners is one contour, and one with 4098 is cut."""
    for shape, is_cut in ((comb(1023) - {(-1023, 0)}, False), (comb(1024), True)):
        font = folder / "comb.gf"
        font.write_bytes(case_of("comb", [shape]).font)
        count = script_of(font).count("contour")
        # The comb is shipped twice.
        expect((count > 2) == is_cut and count % 2 == 0, f"two combs have {count} contours")


def check_apart(folder: pathlib.Path) -> None:
    """Pixels that touch only at a corner are drawn as two contours, and holes that touch only at a corner as one."""
    for black, expected in (({(0, 0), (1, 1)}, [1, 1]), (rectangle(0, 4, 0, 4) - {(1, 1), (2, 2)}, [1, -1])):
        font = folder / "corner.gf"
        font.write_bytes(b"".join(font_model.font_commands([font_model.Character(0, 0, 0, frozenset(black))])))
        weights = [-1 if " withweight -1" in line else 1 for line in script_of(font).splitlines() if "contour" in line]
        expect(weights == expected, f"the weights of the contours are {weights} instead of {expected}")


# What is refused.

PIXEL = bytes([68, 65, 1, 1, 0, 0, 0, 1, 69])
SHORT = struct.pack(">3B2i", 246, 65, 1, 0, len(PREAMBLE))
WITHOUT_PICTURE = struct.pack(">3B2i", 246, 66, 1, 0, -1)
FINE = file_of(PREAMBLE + PIXEL, SHORT)


def pixel_with(dx: int = 0, dy: int = 0, width: int = 0) -> bytes:
    """A font with one pixel, and with these numbers in its locator."""
    return file_of(PREAMBLE + PIXEL, struct.pack(">2B4i", 245, 65, dx, dy, width, len(PREAMBLE)))


def pixel_at(code: int, left: int, row: int) -> bytes:
    """A font with one pixel in this column and row, in a character with this code."""
    front = PREAMBLE + struct.pack(">B6i", 67, code, -1, left, left + 1, row, row) + bytes([0, 1, 69])
    return file_of(front, struct.pack(">3B2i", 246, code % 256, 1, 0, len(PREAMBLE)))


NO_GF = {
    "byte 0: the file ends too early": b"",
    "byte 0: the first byte of a GF file is 247, and here is 97": b"addto",
    "byte 1: the number of the format is 131, and here is 130": b"\xf7\x82\0",
    "byte 7: the command 69 does not begin a character": file_of(PREAMBLE + bytes([69]), b""),
    "byte 14: the command 247 is not allowed in a character": file_of(PREAMBLE + PIXEL[:7] + bytes([247]), SHORT),
    "byte 14: a black pixel is outside the character's box": file_of(PREAMBLE + PIXEL[:7] + bytes([2, 69]), SHORT),
    "byte 7: no character before this one begins at byte 3 and has its code 65": file_of(
        PREAMBLE + struct.pack(">B6i", 67, 65, 3, 0, 0, 0, 0) + bytes([69]), SHORT
    ),
    "byte 16: the postamble says that the characters end at byte 15, and they end at 16": file_of(PREAMBLE + PIXEL, SHORT, 15),
    "byte 7: no locator of the code 65 leads to this character, its last one": file_of(PREAMBLE + PIXEL, b""),
    "byte 64: the command 74 is not allowed in the postamble": file_of(PREAMBLE + PIXEL, SHORT + bytes([74])),
    "byte 64: the code 65 has two locators": file_of(PREAMBLE + PIXEL, SHORT + SHORT),
    "byte 64: the locator of the code 66 leads to byte 8, where no character begins": file_of(
        PREAMBLE + PIXEL, SHORT + WITHOUT_PICTURE[:7] + struct.pack(">i", 8)
    ),
    "byte 7: the locator of the code 66 leads to a character of another code": file_of(
        PREAMBLE + PIXEL, SHORT + WITHOUT_PICTURE[:7] + SHORT[7:]
    ),
    "byte 65: the end says that the postamble is at byte 17, and it is at 16": FINE[:65] + struct.pack(">i", 17) + FINE[69:],
    "byte 70: the file ends in 3 bytes 223 and not in 4 or more": FINE[:73],
    "byte 76: only bytes 223 may follow the end": FINE + bytes([0]),
}

AT, DIGITS = "character 65 at byte 7: ", "and a number of a script has 9 digits at most"
FIELD, CODES = "leaves the field of pixels from -4095 to 4094", "its code is not from 0 to 255"
NO_SCRIPT = {
    "it has no character": file_of(PREAMBLE, b""),
    "character 66: the font has its width and no picture": file_of(PREAMBLE + PIXEL, SHORT + WITHOUT_PICTURE),
    AT + "its dy is 3, and a script has none": pixel_with(dy=3),
    AT + f"its dx is 1000000000, {DIGITS}": pixel_with(dx=10**9),
    AT + f"its width is -1000000000, {DIGITS}": pixel_with(width=-(10**9)),
    AT + f"row 4095 {FIELD}": pixel_at(65, 0, 4095),
    AT + f"row -4096 {FIELD}": pixel_at(65, 0, -4096),
    AT + f"row 0 {FIELD}": pixel_at(65, 4095, 0),
    AT + f"row 1 {FIELD}": pixel_at(65, -4096, 1),
    f"character 321 at byte 7: {CODES}": pixel_at(321, 0, 0),
    f"character -191 at byte 7: {CODES}": pixel_at(-191, 0, 0),
}


def check_refused(tool: types.ModuleType, wrong: str, font: bytes, folder: pathlib.Path) -> None:
    """A tool must say what is wrong with a file, leave it as it is, and write nothing."""
    file = folder / "refused.gf"
    file.write_bytes(font)
    ended_so = call(tool, [file, *(["--design-size", "10"] if tool == gfwords else [])])
    expected = Ended(1, "", f"{tool.__name__}.py: {file}: {wrong}\n")
    expect(ended_so == expected, f"it ends with {ended_so} instead of {expected}")
    expect(file.read_bytes() == font, "the file has changed")


def check_processes(folder: pathlib.Path) -> None:
    """Each tool must have these exit statuses in a process of its own, and must say there what it says within this process."""
    none, fine, broken = folder / "none.gf", folder / "fine.gf", folder / "broken.gf"
    fine.write_bytes(FINE)
    broken.write_bytes(FINE[:50])
    sum_of, missing = "--checksum=7", f"gf2mfp.py: {none}: No such file or directory\n"
    expect(by_itself(gf2mfp, [none]) == Ended(1, "", missing), f"it does not say: {missing}")
    for status, tool, words in (
        (0, gf2mfp, [fine]),
        (1, gf2mfp, [broken]),
        (0, gfwords, [fine, sum_of]),
        (1, gfwords, [broken, sum_of]),
        (1, gfwords, [none, sum_of]),
        (1, gfwords, [fine, "--like", none]),
        (2, gfwords, [fine]),
    ):
        within, alone = call(tool, words), by_itself(tool, words)
        expect(alone.status == status, f"{tool.__name__}.py ends with {alone}")
        is_same = (within.status, within.printed, within.told[-40:]) == (status, alone.printed, alone.told[-40:])
        expect(is_same, f"{tool.__name__}.py ends with {within} in this process, and with {alone} in its own")


def check_prefixes(folder: pathlib.Path) -> None:
    """A font with bytes missing at its end must be refused."""
    for size in range(len(FINE.rstrip(bytes([223]))) + 4):
        expect(not is_read(FINE[:size]), f"the first {size} bytes are read as a font")
    expect(is_read(FINE), "the whole font is not read")


def check_changed_bytes(folder: pathlib.Path) -> None:
    """A font with one changed byte must be read, or refused with `NotGf`."""
    font = loose().font
    read = [is_read(font[:place] + bytes([byte]) + font[place + 1 :]) for place in range(len(font)) for byte in range(0, 256, 5)]
    expect(len(set(read)) == 2, "all changed fonts are read, or all are refused")


def is_read(font: bytes) -> bool:
    try:
        gf.read_font(font)
    except gf.NotGf:
        return False
    return True


# The tables of docs/user/METAFONT.md.


def rows_of_tables() -> list[list[str]]:
    """The cells of the rows of the section "What you type"."""
    section = METAFONT.read_text(encoding="utf-8").split("\n## What you type\n")[1].split("\n## ")[0]
    rows = re.findall(r"^\| (`.*) \|$", section, re.MULTILINE)
    return [row.split(" | ") for row in rows]


def check_tables(program: str) -> None:
    """What you type gets the refusal of its row, and what to type here gets none."""
    rows = rows_of_tables()
    expect(len(rows) > 40 and all(len(row) == 3 for row in rows), f"the tables have other rows than expected: {len(rows)}")
    for typed, refusal, here in rows:
        command = CODE.findall(typed)[0]
        expected = "" if refusal == "none" else f"refused {refusal[1:-1]}\n"
        told = run([program], LIMIT_WITH_BUILD, command).stdout
        expect(told == expected, f"{command} gets {told}")
        script = "\n".join(line for line in CODE.findall(here) if " " in line)
        told = run([program], LIMIT_WITH_BUILD, script).stdout
        expect("refused" not in told, f"{script} gets {told}")


# Words.

# The words of the font with special commands.
OLD = (10 << 20, -5, 544093, 272046)


def words_by_options() -> dict[str, tuple[int, ...]]:
    """The font words that these options turn OLD into."""
    return {
        "--design-size 10 --checksum 1274110073 --resolution 600": (10485760, 1274110073, 544093, 544093),
        "--design-size 9.5": (9961472, *OLD[1:]),
        "--checksum -124489922": (OLD[0], -124489922, *OLD[2:]),
        "--checksum 4294967295": (OLD[0], -1, *OLD[2:]),
        "--resolution 300": (*OLD[:2], 272046, 272046),
        "--like {other}": (0, 0, 0, 0),
        "--like {other} --checksum=7": (0, 7, 0, 0),
    }


def check_words(options: str, words: tuple[int, ...], folder: pathlib.Path) -> None:
    """Options must set these words, and change nothing else."""
    font, place = loose().font, loose().font.index(struct.pack(">4i", *OLD))
    alone = folder / "words"
    alone.mkdir(exist_ok=True)
    file = alone / "words.gf"
    file.write_bytes(font)
    file.chmod(0o640)
    other = ROOT / "examples" / "font.gf"
    ended_so = call(gfwords, [file, *options.format(other=other).split()])
    expect(ended_so == Ended(0, "", ""), f"it ends with {ended_so}")
    expect(file.read_bytes() == font[:place] + struct.pack(">4i", *words) + font[place + 16 :], "the bytes differ")
    expect([path.name for path in alone.iterdir()] == [file.name], "another file is left")
    expect(file.stat().st_mode & 0o777 == 0o640, "the file's mode has changed")
    if shutil.which("gftype"):
        told = run(["gftype", file]).stdout
        found = re.findall(r"^(?:design size|check sum|[hv]ppp) = (-?\d+)", told, re.MULTILINE)
        expect(list(map(int, found)) == list(words), f"gftype reads {found}")


USAGE = {
    "": "no word is named: give --like, --design-size, --checksum or --resolution",
    "--design-size 0": "argument --design-size: 0 is not above 0, or too large for a word of four bytes",
    "--design-size 2048": "argument --design-size: 2048 is not above 0, or too large for a word of four bytes",
    "--design-size ten": "argument --design-size: ten is no decimal number",
    "--checksum 4294967296": "argument --checksum: 4294967296 is too large for a word of four bytes",
    "--checksum 1.5": "argument --checksum: 1.5 is not a whole number",
    "--resolution 1/0": "argument --resolution: 1/0 is no decimal number",
}


def check_usage(options: str, wrong: str, folder: pathlib.Path) -> None:
    """Wrong options must be named, and the file must stay as it is."""
    file = folder / "usage.gf"
    file.write_bytes(FINE)
    ended_so = call(gfwords, [file, *options.split()])
    expect(ended_so.status == 2 and ended_so.told.endswith(f"error: {wrong}\n"), f"it ends with {ended_so}")
    expect(file.read_bytes() == FINE, "the file has changed")


def checks(program: str) -> Iterator[tuple[str, Callable[[pathlib.Path], None]]]:
    """All checks, each with its name."""
    for case in cases():
        yield case.name, lambda folder, case=case: check_again(program, case, folder)
    yield "where a contour is cut", check_cut
    yield "pixels that touch at a corner", check_apart
    for wrong, font in {**NO_GF, **NO_SCRIPT}.items():
        yield f"gf2mfp.py: {wrong}", lambda folder, told=(gf2mfp, wrong, font): check_refused(*told, folder)
    for wrong, font in list(NO_GF.items())[:3]:
        yield f"gfwords.py: {wrong}", lambda folder, told=(gfwords, wrong, font): check_refused(*told, folder)
    yield METAFONT.name, lambda folder: check_tables(program)
    yield "processes of the tools", check_processes
    yield "the beginnings of a font", check_prefixes
    yield "fonts with a changed byte", check_changed_bytes
    for options, words in words_by_options().items():
        yield f"gfwords.py {options}", lambda folder, told=(options, words): check_words(*told, folder)
    for options, wrong in USAGE.items():
        yield f"gfwords.py {options}", lambda folder, told=(options, wrong): check_usage(*told, folder)


def main() -> int:
    program = sys.argv[1] if len(sys.argv) > 1 else str(ROOT / "mfpic")
    passed = failed = 0
    with tempfile.TemporaryDirectory() as folder:
        for name, check in checks(program):
            try:
                check(pathlib.Path(folder))
                passed += 1
            except Exception as fault:
                print(f"{name}: {type(fault).__name__}: {fault}")
                failed += 1
    print(f"{passed} passed, {failed} failed")
    return int(failed > 0)


if __name__ == "__main__":
    sys.exit(main())
