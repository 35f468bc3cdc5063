#!/usr/bin/env python3
"""Compares the transcripts and the font files of random scripts with those of small, slow models.

    tests/random_scripts.py [PROGRAM [SCRIPTS [SEED [WRONG]]]]

PROGRAM is by default `mfpic` beside this folder. WRONG is the share of lines that are not in the grammar, at most 0.5 and by
default 0.05. Each script is run with `--gf`; a script that ships no character must make no font file. The first scripts that
differ are printed, without the lines that can be left out while they still differ.

At the end the counts are printed: how often each command was performed, how often each refusal was answered, how often contours
had each answer with the turning check on and off, and what the font files had. With 10,000 scripts or more, a count of 0 is a
failure. FileTooLong is not counted.

The lines are made by `random_lines.py`, with `random_cycles.py` and `random_spelling.py`. The models are `pixel_model.py`, with
`reading_model.py` for some lines that are not in the grammar, and `font_model.py`. They share nothing with the program but its
rules. `tests/random.sh` runs this script in the gate.
"""

import collections
import pathlib
import subprocess
import sys
import tempfile
import typing

from models.font_model import Opcode, font_commands
from models.pixel_model import MAX_OPERATIONS, Model, TooSlow, fault_of_bytes, path_fault, turning, turning_fault
from models.random_lines import Chance

CLEARED = b"currentpicture:=nullpicture\n"
COMMANDS = ["contour", "also", "also -", "keeping", "dropping", ":=", "shifted", "scaled", "xscaled", "yscaled"]
COMMANDS += ["rotated", "show totalweight", "show", "proof", "shipout", "publish", "no command"]
COMMANDS += ["turningcheck on", "turningcheck off"]
REFUSALS = ["TooFewPoints", "TooManyPoints", "PointOutOfRange", "NotRectilinear", "Backtracks", "TurningZero"]
REFUSALS += ["BadWeight", "BadCull", "BadScale", "BadTurn", "OutOfField", "WeightTooLarge", "TooManyOperations"]
REFUSALS += ["LineTooLong", "NotAscii", "Syntax", "ProofTooLarge"]
# Each character of a grid text, and numbers at the limits in a run text.
SHOWN = [*(f"proof with {character}" for character in ".123456789+abcdefghi-")]
SHOWN += [f"show with {number}" for number in (-4095, 4094, -32767, 32767)]
# How a contour turns, whether the turning check is on or off, and what the answer is.
EARLY, LATE = ["BadWeight", "TooManyOperations"], ["WeightTooLarge", "filled", "filled last"]
TURNS = {turn: {"on": EARLY + LATE, "off": EARLY + LATE} for turn in ("left", "right", "TurningZero", "Backtracks")}
for refused in ("TurningZero", "Backtracks"):
    TURNS[refused]["on"] = [*EARLY, refused, f"{refused} before WeightTooLarge"]
TURNED = [f"contour {turn}, {c}: {how}" for turn, checks in TURNS.items() for c, hows in checks.items() for how in hows]
TURNED += [f"contour, {check}: weight {weight}" for check in ("on", "off") for weight in (-32767, 32767)]
TURNED += ["contour, off: no pixel", "contour, off: no pixel last"]
# What font files may have: commands, by their first bytes, and some kinds of characters.
WRITTEN = {opcode: f"font with {opcode.name.lower()}" for opcode in Opcode}
SHIPPED = ["a blank character", "a code shipped again", "a code shipped three times or more", "boc of a new code"]
FONTS = ["no font", *WRITTEN.values(), *(f"font with {part}" for part in SHIPPED)]
KNOWN = [*COMMANDS, *REFUSALS, "Syntax of turningcheck", *SHOWN, *TURNED, *FONTS]
# The place in a boc that means no character.
NO_PLACE = bytes([255] * 4)
# With this many scripts each of these must occur.
ENOUGH = 10_000
# How many of the scripts that differ are printed.
TOLD = 5


class End(typing.NamedTuple):
    """How a script with `--gf` ends: the exit status, what is printed, the message, and the font file, if one is made."""

    status: int
    printed: str
    message: str
    font: bytes | None


def answer(model, line, text, columns):
    """What a line prints, from its bytes, its form, and the model."""
    fault = fault_of_bytes(text)
    if fault is None and line.refused is not None:
        fault = f"Syntax {columns[line.refused]}"
    return line.perform(model) if fault is None else f"refused {fault}\n"


def count(counts, line, printed):
    word, *others = printed.split() or [""]
    counts[others[0] if word == "refused" else line.command] += 1
    counts["Syntax of turningcheck"] += others[:1] == ["Syntax"] and line.tokens[:1] == ["turningcheck"]
    if line.command in ("proof", "show") and word not in ("refused", "blank"):
        shown = set(printed) if line.command == "proof" else set(printed.split())
        counts.update(key for key in (f"{line.command} with {part}" for part in shown) if key in SHOWN)


def cases_of(line, printed, before, model):
    """How a contour turns and what the answer is, from the model before it and after it, if it is a rectilinear cycle."""
    if path_fault(line.points):
        return
    fault, name, check = turning_fault(line.points), line.tokens[1], "on" if model.checks else "off"
    turn = fault.split()[0] if fault else "left" if turning(line.points) > 0 else "right"
    old, new = before.picture(name), model.picture(name)
    last = " last" if model.is_full(name) else ""
    yield f"contour {turn}, {check}: " + (printed.split()[1] if printed else f"filled{last}")
    if printed == f"refused {fault}\n":
        before.checks = False
        if would_be := line.perform(before).split():
            yield f"contour {turn}, {check}: {turn} before {would_be[1]}"
    elif not printed:
        yield from (f"contour, {check}: weight {weight}" for weight in {*new.values()} - {*old.values()})
        if new == old:
            yield f"contour, {check}: no pixel{last}"


def count_font(counts, characters, commands):
    times = collections.Counter(character.code for character in characters).values()
    counts["no font"] += not characters
    counts["font with a blank character"] += sum(not character.black for character in characters)
    counts["font with a code shipped again"] += sum(count > 1 for count in times)
    counts["font with a code shipped three times or more"] += sum(count > 2 for count in times)
    counts["font with boc of a new code"] += sum(
        command[0] == Opcode.BOC and command[5:9] == NO_PLACE for command in commands
    )
    counts.update(WRITTEN[command[0]] for command in commands if command[0] in WRITTEN)


def spell(chance, lines):
    """Lines, each with its bytes, its columns, and its line end."""
    for i, line in enumerate(lines):
        end, part = chance.line_end(i == len(lines) - 1)
        written, columns = chance.spell(line.tokens)
        yield line, written + part, columns, end[len(part) :]


def perform(cleared, lines, counts):
    """The lines that the model can perform, after `currentpicture` was cleared `cleared` times, and how a script of them ends."""
    model, kept, transcript = Model(cleared), [], ""
    for line, text, columns, end in lines:
        before = model.copy()
        try:
            printed = answer(model, line, text, columns)
        except TooSlow:
            continue
        count(counts, line, printed)
        if line.points is not None and line.refused is None:
            counts.update(cases_of(line, printed, before, model))
        kept.append((line, text, columns, end))
        transcript += printed
    commands = font_commands(model.shipped) if model.shipped else []
    count_font(counts, model.shipped, commands)
    if not commands:
        return kept, End(3, transcript, "mfpic: NoCharacters\n", None)
    return kept, End(0, transcript, "", b"".join(commands))


def run(program, cleared, lines, path):
    """How the program ends a script, with the font file at this path."""
    words, text = [program, "--gf", path], b"".join(text + end for _, text, _, end in lines)
    shown = subprocess.run(words, input=CLEARED * cleared + text, capture_output=True, timeout=600, check=False)
    font = path.read_bytes() if path.exists() else None
    path.unlink(missing_ok=True)
    return End(shown.returncode, shown.stdout.decode(errors="replace"), shown.stderr.decode(errors="replace"), font)


def tell(program, number, cleared, lines, path):
    """Prints a script that differs, without all lines that can be left out while it still differs."""
    for place in reversed(range(len(lines))):
        fewer, expected = perform(cleared, lines[:place] + lines[place + 1 :], collections.Counter())
        if run(program, cleared, fewer, path) != expected:
            lines = fewer
    lines, expected = perform(cleared, lines, collections.Counter())
    print(f"script {number}, after {cleared} lines that clear currentpicture:")
    print(*(text + end for _, text, _, end in lines), sep="\n")
    for end, kind in ((run(program, cleared, lines, path), "ended"), (expected, "and not")):
        font = "no font" if end.font is None else f"the font {end.font.hex()}"
        print(f"{kind} with status {end.status}, the message {end.message!r}, {font}, and printed\n{end.printed}")
    sys.stdout.flush()


def main():
    words = sys.argv[1:]
    program = words[0] if words else str(pathlib.Path(__file__).parent.parent / "mfpic")
    scripts = int(words[1]) if len(words) > 1 else 1000
    chance = Chance(int(words[2]) if len(words) > 2 else 1)
    wrong = float(words[3]) if len(words) > 3 else 0.05
    counts, different = collections.Counter(), 0
    with tempfile.TemporaryDirectory() as folder:
        path = pathlib.Path(folder) / "font.gf"
        for number in range(scripts):
            # Some scripts start shortly before the last operation that `currentpicture` may accept.
            cleared = MAX_OPERATIONS - chance.place(1, 3) if number % 250 == 0 else 0
            lines, expected = perform(cleared, spell(chance, chance.script(cleared > 0, wrong)), counts)
            if run(program, cleared, lines, path) != expected:
                different += 1
                if different <= TOLD:
                    tell(program, number, cleared, lines, path)
    for known in KNOWN:
        print(f"{counts[known]:9} {known}")
    missing = [known for known in KNOWN if counts[known] == 0]
    lines = sum(counts[known] for known in COMMANDS + REFUSALS)
    print(f"{scripts} scripts of {lines} lines, {different} of them differ")
    if missing:
        print(f"never came: {', '.join(missing)}")
    sys.exit(1 if different > 0 or missing and scripts >= ENOUGH else 0)


if __name__ == "__main__":
    main()
