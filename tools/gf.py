"""Reads GF files, METAFONT's generic fonts (The METAFONTbook, Appendix G; docs/library/GF.md).

    font = read_font(read_file(path))
    font = read_font(read_packed_or_not(path))

The second also reads packed fonts (PK files), of which `pktogf` makes GF files, where it is installed. A place is a number of bytes
from the beginning of the file. Special commands (xxx, yyy) and no_op are skipped. `NotGf` is raised for bytes that are not a GF file.
"""

import dataclasses
import enum
import functools
import pathlib
import re
import subprocess
import tempfile
import typing

# The number of the GF format, the byte that fills the end of a file, and the least number of these bytes.
FORMAT, PADDING, LEAST_PADDING = 131, 223, 4
# The number of the PK format, and the seconds that `pktogf` may take.
PACKED, MOST_SECONDS = 89, 20
# One pixel, in the units of dx.
PIXEL = 65536
# The number and the place of a character that does not exist.
NOWHERE = -1
# Locators know a code only modulo this number.
CODES = 256
# Places have four bytes and a sign, so a file has no more bytes than this. How many are read at a time.
MOST_BYTES, PIECE = (1 << 31) - 1, 1 << 20


class Opcode(enum.IntEnum):
    """The first bytes of commands. Of each range of first bytes, both ends."""

    PAINT_0 = 0
    PAINT_63 = 63
    PAINT1 = 64
    PAINT3 = 66
    BOC = 67
    BOC1 = 68
    EOC = 69
    SKIP0 = 70
    SKIP3 = 73
    NEW_ROW_0 = 74
    NEW_ROW_164 = 238
    XXX1 = 239
    XXX4 = 242
    YYY = 243
    NO_OP = 244
    CHAR_LOC = 245
    CHAR_LOC0 = 246
    PRE = 247
    POST = 248
    POST_POST = 249


# The first bytes of the commands that are skipped.
SPECIALS = frozenset(range(Opcode.XXX1, Opcode.CHAR_LOC))
# Commands that do nothing, as many as there are.
NO_OPS = re.compile(b"%c*" % Opcode.NO_OP)


class NotGf(Exception):
    """The bytes are not a GF file. The text says what is wrong, and at which place."""

    def __init__(self, place: int, wrong: str) -> None:
        super().__init__(f"byte {place}: {wrong}")
        self.place = place


class Run(typing.NamedTuple):
    """Black pixels side by side: their row, their first column, and the column after the last."""

    row: int
    left: int
    right: int


class Box(typing.NamedTuple):
    """The bounds of a character: its columns and rows. The last column is the one after its pixels."""

    min_m: int
    max_m: int
    min_n: int
    max_n: int


@dataclasses.dataclass(frozen=True)
class Character:
    """A character: the place of its first command, that command, its code, the number of the previous character with this code or
    NOWHERE, its box, the bytes of its commands after the first one, and the maximal runs of its black pixels, rows from the
    top."""

    place: int
    opcode: int
    code: int
    previous: int
    box: Box
    commands: bytes
    runs: tuple[Run, ...]

    @functools.cached_property
    def black(self) -> frozenset[tuple[int, int]]:
        """The columns and rows of the black pixels."""
        return frozenset((column, run.row) for run in self.runs for column in range(run.left, run.right))


class Locator(typing.NamedTuple):
    """What a font says about a code: its escapement in 1/65536 pixel, its width in 1/1048576 of the design size, and the number
    of its last character, or NOWHERE."""

    dx: int
    dy: int
    width: int
    last: int


class Words(typing.NamedTuple):
    """The font words: the design size in 1/1048576 point, the check sum, and the horizontal and the vertical pixels per point, in
    1/65536."""

    design_size: int
    check_sum: int
    hppp: int
    vppp: int


@dataclasses.dataclass(frozen=True)
class Font:
    """A font: its comment, its characters in order, the place of its postamble, its font words, the box that it says contains all
    characters, and its locators by code."""

    comment: bytes
    characters: tuple[Character, ...]
    postamble: int
    words: Words
    box: Box
    locators: dict[int, Locator]

    def locator(self, character: Character) -> Locator:
        """The locator of the code of a character."""
        return self.locators[character.code % CODES]


class Reader:
    """Takes numbers from bytes, the highest byte of each number first."""

    def __init__(self, font: bytes) -> None:
        self.font = font
        self.place = 0

    def take(self, size: int) -> bytes:
        taken = self.font[self.place : self.place + size]
        if len(taken) < size:
            raise NotGf(len(self.font), "the file ends too early")
        self.place += size
        return taken

    def unsigned(self, size: int = 1) -> int:
        return int.from_bytes(self.take(size), "big")

    def signed(self) -> int:
        return int.from_bytes(self.take(4), "big", signed=True)

    def expect(self, expected: int, name: str) -> None:
        """Takes a byte that must have this value."""
        if (found := self.unsigned()) != expected:
            raise NotGf(self.place - 1, f"{name} is {expected}, and here is {found}")

    def command(self) -> int:
        """Takes the first byte of the next command. Special commands are skipped."""
        while (opcode := self.unsigned()) in SPECIALS:
            if opcode == Opcode.NO_OP:
                # A file may have millions of them, which would take minutes one by one.
                self.place = NO_OPS.match(self.font, self.place).end()
            else:
                self.take(4 if opcode == Opcode.YYY else self.unsigned(opcode - Opcode.XXX1 + 1))
        return opcode


class Painter:
    """The machine that paints a character. It has a row, a column and a color."""

    def __init__(self, box: Box) -> None:
        self.left, self.column, self.row, self.is_black = box.min_m, box.min_m, box.max_n, False
        self.runs: list[Run] = []

    def paint(self, length: int) -> None:
        if self.is_black and length > 0:
            run = Run(self.row, self.column, self.column + length)
            if self.runs and (self.runs[-1].row, self.runs[-1].right) == (run.row, run.left):
                run = run._replace(left=self.runs.pop().left)
            self.runs.append(run)
        self.column, self.is_black = self.column + length, not self.is_black

    def go_down(self, rows: int, offset: int, is_black: bool) -> None:
        self.row, self.column, self.is_black = self.row - rows, self.left + offset, is_black


def read_up_to(opened: typing.BinaryIO, most: int, begun: bytes = b"") -> bytes:
    """What has been read of a file and the rest of it, of which not much more is read than `most` bytes. Python would take the memory
    for all of these at once, so it reads them in pieces."""
    pieces = [begun]
    while most >= 0 and (piece := opened.read(PIECE)):
        pieces.append(piece)
        most -= len(piece)
    return b"".join(pieces)


def read_file(file: pathlib.Path) -> bytes:
    """The bytes of a file, for `read_font`. Of one that does not begin as a GF file only the beginning, which shows this, because
    the rest may have no end."""
    with file.open("rb") as opened:
        begun = opened.read(2)
        font = read_up_to(opened, MOST_BYTES, begun) if begun == bytes([Opcode.PRE, FORMAT]) else begun
    if len(font) > MOST_BYTES:
        raise NotGf(MOST_BYTES, "a GF file ends before this byte")
    return font


def read_packed_or_not(file: pathlib.Path) -> bytes:
    """The bytes of a GF file, or of the one that `pktogf` makes of a packed font."""
    font = read_file(file)
    if font != bytes([Opcode.PRE, PACKED]):
        return font
    with tempfile.TemporaryDirectory() as folder:
        made = pathlib.Path(folder) / "made.gf"
        try:
            words = ["pktogf", str(file.resolve()), str(made)]
            ran = subprocess.run(words, stdin=subprocess.DEVNULL, capture_output=True, cwd=folder, check=False, timeout=MOST_SECONDS)
        except FileNotFoundError:
            raise NotGf(0, "a packed font (PK) needs the program pktogf (Debian package texlive-binaries)") from None
        except subprocess.TimeoutExpired:
            # It reads a file that is cut off without an end.
            raise NotGf(0, f"pktogf makes no GF file of this packed font in {MOST_SECONDS} seconds") from None
        if ran.returncode != 0 or not made.is_file():
            told = (ran.stderr + ran.stdout).decode("utf-8", "replace").strip().splitlines()
            raise NotGf(0, f"pktogf makes no GF file of this packed font: {told[-1] if told else 'it says nothing'}")
        return read_file(made)


def read_font(font: bytes) -> Font:
    """The font with these bytes."""
    reader = Reader(font)
    reader.expect(Opcode.PRE, "the first byte of a GF file")
    reader.expect(FORMAT, "the number of the format")
    comment = reader.take(reader.unsigned())
    characters, numbers, end = read_characters(reader)
    postamble = reader.place - 1
    if (place := reader.signed()) != end:
        raise NotGf(postamble, f"the postamble says that the characters end at byte {place}, and they end at {end}")
    words = Words(*(reader.signed() for _ in Words._fields))
    box = read_box(reader)
    locators = read_locators(reader, numbers)
    read_end(reader, postamble)
    check_locators(characters, locators)
    return Font(comment, tuple(characters), postamble, words, box, locators)


def read_characters(reader: Reader) -> tuple[list[Character], dict[int, int], int]:
    """The characters, their numbers by the places that lead to them, and the place after them. The first byte of the postamble is
    read, too."""
    characters: list[Character] = []
    numbers: dict[int, int] = {}
    end = reader.place
    while (opcode := reader.command()) != Opcode.POST:
        place = reader.place - 1
        characters.append(read_character(reader, opcode, characters, numbers))
        # In METAFONT's files the place that leads to a character is that of the special commands before it, if there are any.
        numbers[end] = numbers[place] = len(characters) - 1
        end = reader.place
    return characters, numbers, end


def read_character(reader: Reader, opcode: int, characters: list[Character], numbers: dict[int, int]) -> Character:
    """The character whose first byte has been read. `numbers` has the numbers of the characters before it, by the places that
    lead to them."""
    place, previous = reader.place - 1, NOWHERE
    if opcode == Opcode.BOC:
        code, pointer = reader.signed(), reader.signed()
        previous = NOWHERE if pointer == NOWHERE else numbers.get(pointer, len(characters))
        box = read_box(reader)
        if previous != NOWHERE and (previous == len(characters) or (characters[previous].code - code) % CODES):
            raise NotGf(place, f"no character before this one begins at byte {pointer} and has its code {code}")
    elif opcode == Opcode.BOC1:
        code, columns, max_m, rows, max_n = reader.take(5)
        box = Box(max_m - columns, max_m, max_n - rows, max_n)
    else:
        raise NotGf(place, f"the command {opcode} does not begin a character")
    start = reader.place
    runs = read_painting(reader, box)
    return Character(place, opcode, code, previous, box, reader.font[start : reader.place], tuple(runs))


def read_box(reader: Reader) -> Box:
    """A box, from four numbers."""
    return Box(*(reader.signed() for _ in Box._fields))


def read_painting(reader: Reader, box: Box) -> list[Run]:
    """The runs that the commands up to eoc paint."""
    painter = Painter(box)
    while (opcode := reader.command()) != Opcode.EOC:
        place = reader.place - 1
        if opcode <= Opcode.PAINT_63:
            painter.paint(opcode)
        elif opcode <= Opcode.PAINT3:
            painter.paint(reader.unsigned(opcode - Opcode.PAINT_63))
        elif Opcode.SKIP0 <= opcode <= Opcode.SKIP3:
            painter.go_down(1 + reader.unsigned(opcode - Opcode.SKIP0), 0, is_black=False)
        elif Opcode.NEW_ROW_0 <= opcode <= Opcode.NEW_ROW_164:
            painter.go_down(1, opcode - Opcode.NEW_ROW_0, is_black=True)
        else:
            raise NotGf(place, f"the command {opcode} is not allowed in a character")
        if painter.runs and (painter.runs[-1].right > box.max_m or painter.runs[-1].row < box.min_n):
            raise NotGf(place, "a black pixel is outside the character's box")
    return painter.runs


def read_locators(reader: Reader, numbers: dict[int, int]) -> dict[int, Locator]:
    """The locators by code. `numbers` has the numbers of characters, by the places that lead to them. The first byte after the
    locators is read, too."""
    locators: dict[int, Locator] = {}
    while (opcode := reader.command()) in (Opcode.CHAR_LOC, Opcode.CHAR_LOC0):
        place, code = reader.place - 1, reader.unsigned()
        if opcode == Opcode.CHAR_LOC:
            dx, dy = reader.signed(), reader.signed()
        else:
            dx, dy = reader.unsigned() * PIXEL, 0
        width, pointer = reader.signed(), reader.signed()
        if code in locators:
            raise NotGf(place, f"the code {code} has two locators")
        if pointer != NOWHERE and pointer not in numbers:
            raise NotGf(place, f"the locator of the code {code} leads to byte {pointer}, where no character begins")
        locators[code] = Locator(dx, dy, width, numbers.get(pointer, NOWHERE))
    if opcode != Opcode.POST_POST:
        raise NotGf(reader.place - 1, f"the command {opcode} is not allowed in the postamble")
    return locators


def read_end(reader: Reader, postamble: int) -> None:
    """Reads what comes after the first byte of post_post."""
    place = reader.place
    if (pointer := reader.signed()) != postamble:
        raise NotGf(place, f"the end says that the postamble is at byte {pointer}, and it is at {postamble}")
    reader.expect(FORMAT, "the number of the format")
    place = reader.place
    padding = reader.font[place:]
    filled = len(padding) - len(padding.lstrip(bytes([PADDING])))
    if filled != len(padding):
        raise NotGf(place + filled, f"only bytes {PADDING} may follow the end")
    if filled < LEAST_PADDING:
        raise NotGf(place, f"the file ends in {filled} bytes {PADDING} and not in {LEAST_PADDING} or more")


def check_locators(characters: list[Character], locators: dict[int, Locator]) -> None:
    """Each code of a character must have a locator, which leads to the last character with this code."""
    last = {character.code % CODES: number for number, character in enumerate(characters)}
    for code, number in last.items():
        if code not in locators or locators[code].last != number:
            raise NotGf(characters[number].place, f"no locator of the code {code} leads to this character, its last one")
    for code, locator in locators.items():
        if code not in last and locator.last != NOWHERE:
            place = characters[locator.last].place
            raise NotGf(place, f"the locator of the code {code} leads to a character of another code")
