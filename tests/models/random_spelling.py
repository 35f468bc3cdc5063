"""Random input: ways to spell the tokens of a line of docs/user/LANGUAGE.md."""

import functools
import random

from models.pixel_model import MAX_LINE

# What may be between tokens.
GAPS = ["", "", "", "", " ", " ", "\t", "  ", " \t "]
# Numbers whose last bits are those of 1 or 90, the limits of weights, and the largest numbers of the language.
LARGE = [257, 346, 65537, 65626, -65535, 32767, 32768, -32768, 99999999, 999999999, -999999999]


@functools.lru_cache(maxsize=65536)
def may_touch(left, right):
    """Whether two tokens stay apart with nothing between them."""
    letters = left[-1].isalpha() and right[0].isalpha()
    digits = left[-1].isdigit() and right[0].isdigit()
    return not (letters or digits or left + right[0] in ("--", ":="))


class Spelling:
    """Random numbers, and random ways to write numbers, lines and line ends."""

    def __init__(self, seed):
        self.random = random.Random(seed)
        self.choice = self.random.choice
        self.place = self.random.randint

    def happens(self, part):
        return self.random.random() < part

    def number(self, usual):
        """A number from a list or, rarely, a large one."""
        return self.choice(LARGE if self.happens(0.03) else usual)

    def integer(self, value):
        digits = str(abs(value))
        if self.happens(0.15):
            digits = digits.zfill(self.place(len(digits), 9))
        return ["-", digits] if value < 0 or value == 0 and self.happens(0.2) else [digits]

    def pair(self, x, y):
        return ["(", *self.integer(x), ",", *self.integer(y), ")"]

    def withweight(self, weight):
        return [] if weight == 1 and self.happens(0.7) else ["withweight", *self.integer(weight)]

    def path(self, points):
        return [token for x, y in points for token in [*self.pair(x, y), "--"]] + ["cycle"]

    def spell(self, tokens):
        """The tokens as the bytes of a line, and the columns of all tokens and of the place after the last one."""
        # A path of 4096 points leaves no room for spaces, because a line has at most 65,536 bytes.
        gaps = self.random.choices(GAPS if len(tokens) <= 1000 else [""], k=len(tokens) + 1)
        parts, columns, column, last = [], [], 1, ""
        for gap, token in zip(gaps, tokens):
            gap = gap or (" " if last and not may_touch(last, token) else "")
            columns.append(column + len(gap))
            column += len(gap) + len(token)
            parts += gap, token
            last = token
        columns.append(column)
        text = "".join(parts) + gaps[-1]
        if self.happens(0.15):
            text += "%" + "".join(chr(self.choice([9, *range(32, 127)])) for _ in range(self.place(0, 20)))
        if self.happens(0.01):
            text, columns = self.lengthen(text, columns)
        line = text.encode()
        return self.spoil(line) if self.happens(0.015) else line, columns

    def lengthen(self, text, columns):
        """A line that is as long as a line may be, or one byte shorter or longer."""
        added = max(self.place(MAX_LINE - 1, MAX_LINE + 1) - len(text), 0)
        if self.happens(0.5):
            return text + "\t" * added, columns
        return " " * added + text, [column + added for column in columns]

    def spoil(self, line):
        """A line with a byte that no line may have, and a space after it, so that no carriage return is at the end."""
        place = self.place(0, len(line))
        return line[:place] + bytes([self.choice([0, 8, 11, 12, 13, 27, 31, 127, 128, 233, 255])]) + b" " + line[place:]

    def line_end(self, is_last):
        """The bytes that end a line, and those of them that belong to the line."""
        ends = [(b"\n", b"")] * 140 + [(b"\r\n", b"")] * 60 + [(b"\r\r\n", b"\r")]
        return self.choice([(b"", b""), (b"", b""), (b"\r", b"\r"), *ends[::20]] if is_last else ends)
