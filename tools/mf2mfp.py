#!/usr/bin/env python3
"""Makes a script for mfpic from METAFONT's log of a font, and from the GF file that METAFONT wrote.

    tools/mf2mfp.py LOG FONT [--proof CODE]

    mf-nowin -jobname=logo10 -interaction=batchmode '\\mode=ljfour; mag=1; input tools/mf2mfp; input logo10'
    tools/mf2mfp.py logo10.log logo10.600gf > logo10.mfp
    ./mfpic --gf logo10.gf < logo10.mfp

METAFONT must have read mf2mfp.mf before the font. The log has contours as METAFONT has digitized them, and between them marks for
culls, sums, shifts, clears and shipouts of pictures. The escapement and the width of each character are those of the GF file.
METAFONT's `currentpicture` is that of the script, `pic_` becomes the register p, and other pictures become other registers. With
--proof the script prints a proof of the picture before it ships the character with this code.

Anything that cannot be translated is reported with its line of the log. Then no script is written, and the exit status is 1. This
concerns other uses of pictures, a picture that is assigned from one that is neither `currentpicture` nor `pic_`, a turn or a
stretch that mfpic does not have, more pictures than registers, and an error that METAFONT found, as for a picture that is moved
in parentheses and then added.
"""

import argparse
import dataclasses
import fractions
import math
import pathlib
import re
import sys
import typing

from gf import CODES, PIXEL, Font, NotGf, read_file, read_font, read_up_to
from printing import named_file, print_made, tell_fault

Point = tuple[int, int]

# The names of plain METAFONT's pictures in the log, as mf2mfp.mf sets them, and their names in the script.
CURRENT, KEPT = "currentpicture_", "pic__"
PLAIN = {CURRENT: "currentpicture", KEPT: "p"}
# The registers for other pictures, and the register in which a picture is moved before it is added.
OTHERS, MOVED = "abcdefghijklmnoqrstuvwxy", "z"
# How many points a contour may have, and the greatest absolute value of their coordinates.
MAX_POINTS, MAX_COORDINATE = 4096, 4095

# METAFONT breaks the lines of its log after this many characters.
WIDTH = 79
# A number as METAFONT prints it, which is below 2^15, and the coordinates of a corner. Longer texts are not METAFONT's, and Python
# would need long for them.
NUMBER, CORNER = re.compile(r"-?[0-9]{1,9}(\.[0-9]{1,9})?"), r"\((-?[0-9]{1,9}),(-?[0-9]{1,9})\)"
# How much of a text is shown in a message, and the bytes that a log may have. (That of cmr10 at 600 dots per inch has 3 MB.)
SHOWN, MOST_BYTES = 60, 1 << 30
MARK = re.compile(r"mf2mfp ([a-z]+) ?(.*)")
EDGES = re.compile(r"Tracing edges at line (\d+): \(weight (-?\d+)\)")
NOTHING = "(No new edges added.)"
ASSIGNMENT = re.compile(r"\{(?:(.+):=picture|\(unknown picture (.+)\)=\(picture\))\}")
OPERATION = re.compile(r"\{\(picture\)([a-z]+)\((.*)\)\}")
RESTORED = re.compile(r"\{restoring ([^}]*)\}")
# The trace of a question about a picture, and of commands that show one.
QUESTION = re.compile(r"\{(totalweight|known|unknown|picture)\(picture\)\}")
SHOWING = {"{display}", "{show}"}
# The trace of a command, an assignment or an equation, and the trace of the marks themselves.
ENDING = re.compile(r"\{([a-z]+\}$|.*:=|.*\)=\()")
OF_MARKS = {"{exitif}", "{message}", "{false}"}
GROUPS = {"{begingroup}": 1, "{endgroup}": -1}
# Commands that METAFONT traces directly after their marks, and the number of words of each mark.
COMMANDS = ("addto", "cull", "shipout")
MARKS = {"uses": 1, "addto": 1, "also": 1, "cull": 1, "keeping": 2, "dropping": 2, "weight": 1, "shipout": 5}


class Untranslated(Exception):
    """Something cannot be translated."""


class Step(typing.NamedTuple):
    """Something that is done to a picture: a word and its operand."""

    word: str
    operand: str


NEGATED = Step("-", "")


@dataclasses.dataclass
class Source:
    """A picture that is added, shipped or assigned: the number of groups around it, its name, the pictures that are used before
    and after `:=`, whether `nullpicture` is used, and what is done to it."""

    depth: int
    name: str = ""
    uses: list[str] = dataclasses.field(default_factory=list)
    is_null: bool = False
    steps: list[Step] = dataclasses.field(default_factory=list)

    def is_begun(self) -> bool:
        return bool(self.name or self.uses or self.is_null)


@dataclasses.dataclass
class Statement:
    """A command that has started in the log: its word, the picture that it changes, what it adds or ships, and its marks."""

    word: str
    name: str
    source: Source
    marks: dict[str, list[str]] = dataclasses.field(default_factory=dict)


def number_of(text: str) -> fractions.Fraction:
    """The number that METAFONT has for this text, a multiple of 1/65536."""
    if not NUMBER.fullmatch(text):
        raise Untranslated(f"{text[:SHOWN]} is no number")
    return fractions.Fraction(round(fractions.Fraction(text) * 65536), 65536)


def nearest(number: fractions.Fraction) -> int:
    """The integer to which METAFONT rounds a number."""
    return math.floor(number + fractions.Fraction(1, 2))


def without_repeated(corners: list[Point]) -> list[Point]:
    """The corners of a closed path, without those that are the same as the next one."""
    return [corner for corner, after in zip(corners, corners[1:] + corners[:1]) if corner != after]


def path_of(text: str) -> list[Point]:
    """The corners of a contour in the log, without repetitions."""
    if not re.fullmatch(f"({CORNER})+[.]", text):
        raise Untranslated(f"no contour: {text[:SHOWN]}")
    corners = [(int(x), int(y)) for x, y in re.findall(CORNER, text)]
    points = without_repeated(corners)
    for (x, y), (after_x, after_y) in zip(points, points[1:] + points[:1]):
        if (x == after_x) == (y == after_y):
            raise Untranslated(f"the contour has a slanted edge from ({x},{y}) to ({after_x},{after_y})")
    if any(abs(place) > MAX_COORDINATE for point in points for place in point):
        raise Untranslated(f"a point of the contour has a coordinate above {MAX_COORDINATE}")
    return points


def cut(points: list[Point]) -> typing.Iterator[list[Point]]:
    """Contours that do not have too many points and together have the winding numbers of this one. Where it is cut, one part goes
    along the cut, by way of a corner, and the other part goes back along it."""
    while len(points) > MAX_POINTS:
        first, last = points[0], points[MAX_POINTS - 2]
        corner = last[0], first[1]
        yield without_repeated([*points[: MAX_POINTS - 1], corner])
        points = without_repeated([first, corner, *points[MAX_POINTS - 2 :]])
    if points:
        yield points


def transform(step: Step) -> list[str]:
    """What the script does to a picture for this step, if anything."""
    word, operand = step
    numbers = [number_of(text) for text in re.findall(r"[-.\d]+", operand)]
    if word == "-":
        return []
    if word == "shifted" and len(numbers) == 2:
        return shift(*numbers)
    if word in ("scaled", "xscaled", "yscaled") and len(numbers) == 1 and is_factor(numbers[0]):
        return [f"{word} {numbers[0]}"]
    if word == "rotated" and len(numbers) == 1 and numbers[0] % 90 == 0:
        return [f"rotated {numbers[0] % 360}"] if numbers[0] % 360 else []
    if word == "transformed" and len(numbers) == 6:
        across, up, xx, xy, yx, yy = numbers
        if xy == yx == 0 and is_factor(xx) and is_factor(yy):
            return [*stretch(xx, yy), *shift(across, up)]
        if xx == yy == 0 and is_factor(xy) and is_factor(yx):
            return ["rotated 90", *stretch(-xy, yx), *shift(across, up)]
    raise Untranslated(f"a picture is {word} {operand}")


def is_factor(number: fractions.Fraction) -> bool:
    return number.denominator == 1 and number != 0


def shift(across: fractions.Fraction, up: fractions.Fraction) -> list[str]:
    x, y = nearest(across), nearest(up)
    return [f"shifted ({x},{y})"] if x or y else []


def stretch(across: fractions.Fraction, up: fractions.Fraction) -> list[str]:
    factors = {"xscaled": across, "yscaled": up}
    return [f"{word} {factor}" for word, factor in factors.items() if factor != 1]


def check_proofs(font: Font, codes: list[int]) -> None:
    """Refuses codes of proofs that no character of the font has."""
    lacking = sorted(set(codes) - {character.code for character in font.characters})
    if lacking:
        raise Untranslated(f"the font has no character {', '.join(map(str, lacking))}, whose proof is asked for")


class Script:
    """The script that is being made. Pictures have METAFONT's names here; each but `currentpicture` has a register."""

    def __init__(self, font: Font, proofs: set[int]) -> None:
        self.font, self.proofs = font, proofs
        self.lines = ["% Made by tools/mf2mfp.py from what METAFONT drew.", "turningcheck := 0"]
        self.registers = dict(PLAIN)
        self.known = set(PLAIN)
        self.shipped = 0

    def register(self, name: str) -> str:
        """The name in the script of a picture that is assigned to."""
        if name not in self.registers:
            left = sorted(set(OTHERS) - set(self.registers.values()))
            if not left:
                raise Untranslated(f"there is no register left for the picture {name}")
            self.registers[name] = left[0]
        return self.registers[name]

    def known_name(self, name: str) -> str:
        """The name in the script of a picture that must be known."""
        if name not in self.known:
            raise Untranslated(f"it is not known what the picture {name or 'without a name'} is")
        return self.registers[name]

    def known_by(self, token: str) -> set[str]:
        """The known pictures whose names begin with this token."""
        return {name for name in self.known if re.match(r"[A-Za-z_]*", name)[0] == token}

    def contour(self, name: str, weight: str, points: list[Point]) -> None:
        target = self.known_name(name)
        tail = "" if weight == "1" else f" withweight {weight}"
        for part in cut(points):
            path = "--".join(f"({x},{y})" for x, y in part)
            self.lines.append(f"addto {target} contour {path}--cycle{tail}")

    def name_after(self, name: str, steps: list[Step]) -> str:
        """The name in the script of a picture after these steps."""
        if not steps:
            return self.known_name(name)
        sign = "-" if steps.count(NEGATED) % 2 else ""
        self.lines += [f"{MOVED} := nullpicture", f"addto {MOVED} also {sign}{self.known_name(name)}"]
        self.transform(MOVED, steps)
        return MOVED

    def transform(self, target: str, steps: list[Step]) -> None:
        for step in steps:
            self.lines += [f"{target} := {target} {done}" for done in transform(step)]

    def also(self, name: str, added: str, steps: list[Step]) -> None:
        target = self.known_name(name)
        if steps == [NEGATED]:
            self.lines.append(f"addto {target} also -{self.known_name(added)}")
        elif added:
            self.lines.append(f"addto {target} also {self.name_after(added, steps)}")

    def assign(self, name: str, assigned: str, steps: list[Step]) -> None:
        target = self.register(name)
        if name == assigned and NEGATED not in steps:
            self.transform(self.known_name(name), steps)
            return
        moved, cleared = self.name_after(assigned, steps) if assigned else "", f"{target} := nullpicture"
        self.lines += [cleared] if self.lines[-1] != cleared else []
        self.lines += [f"addto {target} also {moved}"] if moved else []
        self.known.add(name)

    def cull(self, name: str, word: str, least: str, greatest: str, weight: str) -> None:
        ends = f"({math.ceil(number_of(least))},{math.floor(number_of(greatest))})"
        number = nearest(number_of(weight))
        tail = "" if number == 1 else f" withweight {number}"
        self.lines.append(f"cull {self.known_name(name)} {word} {ends}{tail}")

    def ship(self, name: str, steps: list[Step], code: str, dx: str, across: str, up: str) -> None:
        """Ships a picture, moved by METAFONT's offsets, as the next character of the font."""
        if self.shipped == len(self.font.characters):
            raise Untranslated(f"METAFONT ships {code} after the last character of the font")
        character = self.font.characters[self.shipped]
        locator = self.font.locator(character)
        if character.code >= CODES:
            raise Untranslated(f"the character {character.code} has a code above {CODES - 1}, which a script cannot ship")
        if character.code != nearest(number_of(code)) % CODES:
            raise Untranslated(f"METAFONT ships {code}, and the font has the character {character.code} in this place")
        if locator.last == self.shipped and locator.dx != number_of(dx) * PIXEL:
            raise Untranslated(f"the escapement of the character {character.code} is {dx} here, and another one in the font")
        if locator.dy:
            raise Untranslated(f"the character {character.code} has an escapement upwards")
        if shift(number_of(across), number_of(up)):
            steps = [*steps, Step("shifted", f"({across},{up})")]
        picture = self.name_after(name, steps) if name else "nullpicture"
        self.lines += [f"proof {picture}"] if character.code in self.proofs else []
        self.lines += [f"shipout {picture} code {character.code} dx {locator.dx} width {locator.width}", "publish"]
        self.shipped += 1

    def finish(self) -> str:
        """The complete script."""
        if not self.shipped:
            raise Untranslated("no character is shipped: METAFONT must have read tools/mf2mfp.mf before the font")
        if self.shipped != len(self.font.characters):
            raise Untranslated(f"METAFONT ships {self.shipped} characters, and the font has {len(self.font.characters)}")
        return "\n".join(self.lines) + "\n"


class Log:
    """Reads a log and writes the script."""

    def __init__(self, script: Script) -> None:
        self.script = script
        # The last cull, sum or shipout that has started, and what is used after it.
        self.statement: Statement | None = None
        self.source = Source(0)
        # The number of METAFONT's groups that are open.
        self.depth = 0
        # The command whose trace must come next, and whether METAFONT shows a picture, so that uses of pictures mean nothing.
        self.awaited, self.is_shown = "", False
        # The picture that the last addto changes, and whether the log has not yet said what is added.
        self.target, self.is_open = "", False
        # The weight of a contour, and the lines of its corners as far as they have been read.
        self.weight = ""
        self.corners: list[str] = []

    def read(self, line: str) -> None:
        """Reads a line of the log."""
        if self.weight:
            self.read_corners(line)
        elif mark := MARK.fullmatch(line):
            if len(line) == WIDTH:
                raise Untranslated("a name is too long")
            self.read_mark(mark[1], mark[2].split(" "))
        elif edges := EDGES.fullmatch(line):
            self.weight = edges[2]
        elif line.startswith("! "):
            raise Untranslated(f"METAFONT found an error: {line[2:]}")
        elif line.startswith("{"):
            self.read_trace(line)

    def read_corners(self, line: str) -> None:
        """Reads a line of the corners of a contour, which end with a period."""
        self.corners.append(line)
        if not line.endswith((".", NOTHING)):
            return
        corners = "".join(self.corners)
        if not self.target:
            raise Untranslated("a contour is added to no picture")
        if corners != NOTHING:
            self.script.contour(self.target, self.weight, path_of(corners))
        self.weight, self.corners, self.is_open = "", [], False

    def read_mark(self, word: str, rest: list[str]) -> None:
        """Reads a mark."""
        if MARKS.get(word) != len(rest):
            raise Untranslated(f"a mark that is none: {word} {' '.join(rest)}")
        # They are used later, and then another line would be named.
        for text in rest if word in ("keeping", "dropping", "weight") else rest[1:]:
            number_of(text)
        if self.awaited:
            raise Untranslated(f"METAFONT does not trace {self.awaited}")
        if word == "uses":
            # A mark in an expression is in a group of its own.
            self.in_use(self.depth - 1).uses.append(rest[0])
            return
        if word in COMMANDS:
            self.end_statement()
            self.awaited = word
        if word == "addto":
            self.target, self.is_open = rest[0], True
        elif word == "also":
            self.statement, self.is_open = Statement(word, self.target, Source(self.depth, rest[0])), False
        elif word in ("cull", "shipout"):
            self.statement = Statement(word, rest[0], Source(self.depth, rest[0]), {word: rest[1:]})
        elif self.statement:
            self.statement.marks[word] = rest
        self.source = Source(self.depth)

    def in_use(self, depth: int) -> Source:
        """The source to which the next use of a picture belongs: that of the last command, until it has one."""
        if self.statement and not self.statement.source.is_begun():
            return self.statement.source
        if not self.source.is_begun():
            self.source.depth = depth
        return self.source

    def being_made(self) -> Source:
        """The source to which a step belongs."""
        return self.source if not self.statement or self.source.is_begun() or self.is_shown else self.statement.source

    def read_trace(self, line: str) -> None:
        """Reads a line of METAFONT's own trace."""
        if assignment := ASSIGNMENT.fullmatch(line):
            self.read_assignment(assignment[1] or assignment[2])
        elif line == "{nullpicture}":
            self.in_use(self.depth).is_null = True
        elif operation := OPERATION.fullmatch(line):
            self.read_step(Step(operation[1], operation[2]))
        elif line == "{-(picture)}":
            self.read_step(NEGATED)
        elif restored := RESTORED.fullmatch(line):
            self.read_restored(restored[1])
        elif "(picture)" in line and not (QUESTION.fullmatch(line) and not self.being_made().steps):
            raise Untranslated(f"METAFONT's operation {line}")
        elif line[1:-1] in COMMANDS:
            self.read_command(line[1:-1])
        elif line in GROUPS:
            self.depth += GROUPS[line]
        elif line not in OF_MARKS and ENDING.match(line):
            self.read_other(line)

    def read_command(self, word: str) -> None:
        """Reads the trace of a command, which must come after its mark."""
        if self.awaited != word:
            raise Untranslated(f"METAFONT's {word} under another name")
        self.source, self.is_shown, self.awaited = Source(self.depth), False, ""

    def read_step(self, step: Step) -> None:
        """Reads something that is done to a picture."""
        source = self.being_made()
        if not source.is_begun() and not self.is_shown:
            raise Untranslated(f"it is not known what picture is {'subtracted' if step == NEGATED else f'{step.word} {step.operand}'}")
        source.steps.append(step)

    def read_restored(self, token: str) -> None:
        """Reads that the names that begin with a token are restored. Their pictures are no longer known."""
        if names := self.script.known_by(token):
            self.end_statement()
            self.script.known -= names

    def read_other(self, line: str) -> None:
        """Reads the trace of something that does nothing to pictures. In a group inside an expression it ends nothing."""
        if line in SHOWING:
            self.end_statement()
            self.is_shown = True
        elif self.depth <= self.source.depth or not self.source.is_begun():
            self.source, self.is_shown = Source(self.depth), False

    def read_assignment(self, name: str) -> None:
        """Reads an assignment to a picture."""
        self.end_statement()
        source, self.source = self.source, Source(self.depth)
        if name in PLAIN and source.uses[:1] == [name]:
            del source.uses[0]
        is_clear = self.depth == source.depth and not self.is_shown and not (source.is_null and source.steps)
        if not is_clear or len(source.uses) + source.is_null != 1:
            raise Untranslated(f"it is not known what is assigned to the picture {name}")
        self.script.assign(name, "" if source.is_null else source.uses[0], source.steps)

    def end(self) -> None:
        """Ends the script at the end of the log."""
        self.end_statement()
        if self.awaited or self.weight:
            raise Untranslated("the log ends in a command")

    def end_statement(self) -> None:
        """Writes the last command that has started, now that all of it has been read."""
        statement, self.statement = self.statement, None
        if self.is_open:
            raise Untranslated(f"something else is done before a contour is added to the picture {self.target}")
        if statement and statement.word == "cull":
            self.end_cull(statement.name, statement.marks)
        elif statement:
            name = source_name(statement.source)
            if statement.word == "also":
                self.script.also(statement.name, name, statement.source.steps)
            else:
                self.script.ship(name, statement.source.steps, *statement.marks["shipout"])

    def end_cull(self, name: str, marks: dict[str, list[str]]) -> None:
        ranges = [(word, *marks[word]) for word in ("keeping", "dropping") if word in marks]
        if len(ranges) != 1:
            raise Untranslated("a cull has no range")
        self.script.cull(name, *ranges[0], marks.get("weight", ["1"])[0])


def source_name(source: Source) -> str:
    """The name of a picture that is added or shipped, or an empty text if it is `nullpicture`."""
    if source.name:
        return source.name
    # If something is done to a marked picture, that picture is the source.
    if len(source.uses) == 1 and source.steps and not source.is_null:
        return source.uses[0]
    if not source.uses and not source.steps and source.is_null:
        return ""
    raise Untranslated("it is not known what picture is added or shipped")


def whole_lines(log: str) -> typing.Iterator[tuple[int, str]]:
    """The lines of a log, each with its number. METAFONT breaks long lines; broken lines of its trace are joined here."""
    begun: list[str] = []
    for number, line in enumerate(log.splitlines(), 1):
        begun.append(line)
        if len(line) != WIDTH or not begun[0].startswith("{") or line.endswith("}"):
            yield number, "".join(begun)
            begun = []


def read_log(file: pathlib.Path) -> str:
    """The text of a log."""
    with file.open("rb") as opened:
        log = read_up_to(opened, MOST_BYTES)
    if len(log) > MOST_BYTES:
        raise Untranslated(f"it has more than {MOST_BYTES} bytes")
    return log.decode("latin-1")


def translate(log: str, script: Script) -> str:
    """The script of a log. Anything that cannot be translated is reported with its line."""
    reader, number = Log(script), 0
    try:
        for number, line in whole_lines(log):
            reader.read(line)
        reader.end()
        return script.finish()
    except Untranslated as fault:
        raise Untranslated(f"line {number}: {fault}") from None


def main(arguments: list[str]) -> int:
    parser = argparse.ArgumentParser(description="Makes a script for mfpic from METAFONT's log and GF file.")
    parser.add_argument("log", type=named_file, metavar="LOG", help="the log of METAFONT, which read mf2mfp.mf before the font")
    parser.add_argument("font", type=named_file, metavar="FONT", help="the GF file that METAFONT wrote")
    parser.add_argument("--proof", type=int, action="append", default=[], metavar="CODE", help="print a proof of this character")
    words = parser.parse_args(arguments)
    path = words.font
    try:
        font = read_font(read_file(path))
        check_proofs(font, words.proof)
        path = words.log
        script = translate(read_log(path), Script(font, set(words.proof)))
    except (OSError, NotGf, Untranslated, MemoryError) as fault:
        tell_fault("mf2mfp.py", path, fault)
        return 1
    print_made("mf2mfp.py", script)
    return 0


if __name__ == "__main__":
    sys.exit(main(sys.argv[1:]))
