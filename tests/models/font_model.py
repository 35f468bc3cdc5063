"""A model: a small, slow writer of font files, command by command.

It shares nothing with the program but the rules of docs/library/GF.md. Its files have no comment, and their font words are 0.
"""

import dataclasses
import enum
import functools
import itertools
import struct

BYTE = range(256)
GF = 131
PADDING = 223
# One pixel, in the units of dx.
PIXEL = 65536
# The place of a character that does not exist.
NOWHERE = -1


class Opcode(enum.IntEnum):
    """The first bytes of commands. Of the two ranges of first bytes, both ends."""

    PAINT_0 = 0
    PAINT_63 = 63
    PAINT1 = 64
    PAINT2 = 65
    BOC = 67
    BOC1 = 68
    EOC = 69
    SKIP0 = 70
    SKIP1 = 71
    SKIP2 = 72
    NEW_ROW_0 = 74
    NEW_ROW_164 = 238
    CHAR_LOC = 245
    CHAR_LOC0 = 246
    PRE = 247
    POST = 248
    POST_POST = 249


@dataclasses.dataclass(frozen=True)
class Character:
    """A character as it is shipped. Its black pixels are pairs of a column and a row."""

    code: int
    dx: int
    width: int
    black: frozenset

    @functools.cached_property
    def box(self):
        """The least and the greatest m, and the least and the greatest n."""
        if not self.black:
            return 0, 0, 0, 0
        columns, rows = zip(*self.black)
        return min(columns), max(columns) + 1, min(rows), max(rows)


def paint(length):
    if length <= Opcode.PAINT_63:
        return bytes([length])
    return bytes([Opcode.PAINT1, length]) if length in BYTE else struct.pack(">BH", Opcode.PAINT2, length)


def skip(rows):
    if rows == 0:
        return bytes([Opcode.SKIP0])
    return bytes([Opcode.SKIP1, rows]) if rows in BYTE else struct.pack(">BH", Opcode.SKIP2, rows)


def beginning(character, previous):
    """boc1 or boc. The previous character with this code is at the place `previous`."""
    least_m, greatest_m, least_n, greatest_n = character.box
    numbers = [character.code, greatest_m - least_m, greatest_m, greatest_n - least_n, greatest_n]
    if previous == NOWHERE and all(number in BYTE for number in numbers):
        return bytes([Opcode.BOC1, *numbers])
    return struct.pack(">B6i", Opcode.BOC, character.code, previous, *character.box)


def row_beginning(offset, passed):
    """The commands before the first black pixel of a row, which has this offset from the left end. `passed` is the number of
    blank rows between this row and the one above, or None for the first row."""
    if passed == 0 and Opcode.NEW_ROW_0 + offset <= Opcode.NEW_ROW_164:
        return [bytes([Opcode.NEW_ROW_0 + offset])]
    return [paint(offset)] if passed is None else [skip(passed), paint(offset)]


def stretches(columns):
    """The lengths of the black and the white stretches of a row, from its first black pixel to its last."""
    borders = sorted(columns ^ {column + 1 for column in columns})
    return [right - left for left, right in itertools.pairwise(borders)]


def painting(character):
    """The commands that make the pixels of a character black."""
    rows, above = {}, None
    for column, row in character.black:
        rows.setdefault(row, set()).add(column)
    for row, columns in sorted(rows.items(), reverse=True):
        yield from row_beginning(min(columns) - character.box[0], None if above is None else above - row - 1)
        yield from map(paint, stretches(columns))
        above = row


def locator(character, place):
    """char_loc0 or char_loc, for a character at this place."""
    pixels, rest = divmod(character.dx, PIXEL)
    if rest == 0 and pixels in BYTE:
        return struct.pack(">3B2i", Opcode.CHAR_LOC0, character.code, pixels, character.width, place)
    return struct.pack(">2B4i", Opcode.CHAR_LOC, character.code, character.dx, 0, character.width, place)


class Font:
    """A font file that is being made: its characters, the commands of its preamble and its characters, and the place after them,
    which is their length. The last character with each code is kept with its place."""

    def __init__(self):
        self.characters, self.last = [], {}
        self.commands, self.place = [], 0
        self.write([bytes([Opcode.PRE, GF, 0])])

    def write(self, commands):
        self.commands += commands
        self.place += sum(map(len, commands))

    def ship(self, character):
        _, previous = self.last.get(character.code, (None, NOWHERE))
        self.characters.append(character)
        self.last[character.code] = character, self.place
        self.write([beginning(character, previous), *painting(character), bytes([Opcode.EOC])])

    def box(self):
        """The least box around the boxes of all characters. There must be at least one."""
        boxes = zip(*(character.box for character in self.characters))
        return [end(numbers) for end, numbers in zip((min, max, min, max), boxes)]

    def ending(self):
        """The commands after the characters, and four bytes or more, so that the length is a multiple of 4."""
        post = struct.pack(">B9i", Opcode.POST, self.place, 0, 0, 0, 0, *self.box())
        locators = [locator(*self.last[code]) for code in sorted(self.last)]
        commands = [post, *locators, struct.pack(">BiB", Opcode.POST_POST, self.place, GF)]
        length = self.place + sum(map(len, commands))
        return [*commands, bytes([PADDING]) * (4 + -length % 4)]


def font_commands(characters):
    """The commands of the font file with these characters. There must be at least one."""
    font = Font()
    for character in characters:
        font.ship(character)
    return font.commands + font.ending()
