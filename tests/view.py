#!/usr/bin/env python3
"""Compares what `mfview` draws and writes with a small, slow model, on random scripts.

    tests/view.py [PROGRAM [SCRIPTS [SEED]]]

PROGRAM is by default crates/mfview/out/mfview. Each script is performed with `--frames` and without, in a terminal of some size,
and with a folder of plates unless a picture is too large for an image; half of them with PGM images, too. Then

- the transcript and the font file must be those of the models, the font's design size and resolution included;
- the frames must be frames of published pictures whose revisions rise, and the last one that of the last picture;
- there must be an image for each published revision and each shipped character, and no other, that reads back as its picture, PGM
  images only where they are asked for, and a page that has these images in their order, and no other.

And two pictures whose frames reach the right end of a small terminal must be seen whole there.

The models are `pixel_model.py` and `frame_model.py`, which share nothing with the program but its rules. The last line counts the
scripts that passed. The gate runs this script (see `check`).
"""

import dataclasses
import pathlib
import re
import shutil
import subprocess
import sys
import tempfile

from models import frame_model
from models.font_model import font_commands
from models.pixel_model import Model, TooSlow
from models.random_lines import Chance
from random_scripts import answer, spell

ROOT = pathlib.Path(__file__).resolve().parent.parent
# Sizes of terminals: the least one, the usual one, and a wide one.
SIZES = [(50, 6), (80, 24), (200, 50)]
# Design sizes in points and resolutions in dots per inch.
FONTS = [(0, 0), (10, 300), (2047, 100_000)]
PUBLISH = "publish"
PADDING = 223
# A small terminal, and two scripts whose last frames have a line that is as wide as it, each with that line: one of tiles, and the
# longest line of numbers.
SMALL = (50, 10)
WIDEST = {
    "addto currentpicture contour (0,0)--(50,0)--(50,4)--(0,4)--cycle": "▀" * 50,
    "addto currentpicture contour (-4095,-4095)--(-999,-4095)--(-999,-999)--(-4095,-999)--cycle": (
        "columns -4095..-1000  rows -4095..-1000  scale 228"
    ),
}
# A control sequence, or a character.
SIGN = re.compile("\x1b\\[[0-9;]*[A-Za-z]|.", re.DOTALL)


@dataclasses.dataclass
class Performance:
    """What a script prints and ships, the pictures that it publishes, by their revisions, the last one included, and its plates in their
    order: the name of each, what the page says of it, and its picture."""

    script: bytes = b""
    transcript: str = ""
    font: bytes | None = None
    published: dict[int, frame_model.Picture] = dataclasses.field(default_factory=dict)
    plates: list[tuple[str, str, frame_model.Picture]] = dataclasses.field(default_factory=list)

    def has_images(self) -> bool:
        return not any(frame_model.is_too_large(picture) for _, _, picture in self.plates)

    def publish(self, model: Model) -> None:
        """Notes what is published. A revision that was published before has its plate."""
        revision, picture = model.accepted, model.picture("currentpicture")
        if revision not in self.published:
            self.plates.append((f"{revision:07}", f'revision="{revision}"', picture))
        self.published[revision] = picture

    def ship(self, model: Model) -> None:
        """Notes the last character that was shipped."""
        shipped, number = model.shipped[-1], sum(it.code == model.shipped[-1].code for it in model.shipped)
        name = f"character-{shipped.code}" + (f"-{number}" if number > 1 else "")
        said = f'code="{shipped.code}" data-dx="{shipped.dx}" data-width="{shipped.width}"'
        self.plates.append((name, said, model.weights[-1]))


def performance(chance: Chance) -> Performance:
    """A random script, as the models perform it."""
    model, made = Model(), Performance()
    for line, text, columns, end in spell(chance, chance.script(False, 0.05)):
        before = model.copy()
        try:
            printed = answer(model, line, text, columns)
        except TooSlow:
            model = before
            continue
        made.script, made.transcript = made.script + text + end, made.transcript + printed
        if printed == model.publish() and line.command == PUBLISH:
            made.publish(model)
        if len(model.shipped) > len(before.shipped):
            made.ship(model)
    made.publish(model)
    commands = font_commands(model.shipped) if model.shipped else []
    made.font = b"".join(commands) if commands else None
    return made


def with_words(font: bytes, points: int, dots: int) -> bytes:
    """A font file with this design size in points and this resolution in dots per inch, in place of zeros."""
    place = int.from_bytes(font.rstrip(bytes([PADDING]))[-5:-1], "big")
    pixels = round(dots * 65536 * 100 / 7227)
    words = b"".join(word.to_bytes(4, "big") for word in (points << 20, 0, pixels, pixels))
    return font[: place + 5] + words + font[place + 21 :]


def difference_of_frames(shown: str, made: Performance, size: tuple[int, int], is_plain: bool) -> str | None:
    """How what was drawn differs from frames of the pictures that were seen, of which some may have been missed."""
    seen, rest, ended = {0: {}} | made.published, shown, False
    for revision in sorted(seen):
        frame = frame_model.frame(seen[revision], revision, *size, is_plain)
        over = "" if is_plain or rest == shown else frame_model.over(size[1])
        ended = rest.startswith(over + frame)
        rest = rest.removeprefix(over + frame)
    if rest:
        return f"after {len(shown) - len(rest)} characters that are frames comes {rest[:200]!r}"
    return None if ended else "the last picture is not drawn last"


def difference_of_plates(folder: pathlib.Path, made: Performance, has_pgm: bool) -> str | None:
    """How the images in a folder differ from the pictures that were published and shipped, or its page from the images."""
    named = {f"{name}.{kind}" for name, _, _ in made.plates for kind in ["svg", *["pgm"] * has_pgm]} | {"index.html"}
    if found := named ^ {path.name for path in folder.iterdir()}:
        return f"there should be, or should not be, the files {sorted(found)}"
    sections = ""
    for name, said, picture in made.plates:
        image = (folder / f"{name}.svg").read_text(encoding="ascii")
        if frame_model.read_svg(image) != picture:
            return f"the SVG image {name} is not its picture"
        if has_pgm and (folder / f"{name}.pgm").read_bytes() != frame_model.pgm(picture):
            return f"the PGM image {name} is not its picture"
        sections += f"<template data-{said}>\n{image}</template>\n"
    before, found, after = (folder / "index.html").read_text(encoding="ascii").partition(sections)
    return None if found and "<template data-" not in before + after else "the page has other images"


def difference(
    program: str, made: Performance, size: tuple[int, int], is_plain: bool, words_of_font: tuple[int, int], has_pgm: bool
) -> str | None:
    """How the program differs from the models on a script."""
    with tempfile.TemporaryDirectory() as folder:
        plates, font = pathlib.Path(folder) / "plates", pathlib.Path(folder) / "font.gf"
        plates.mkdir()
        words = [program, "--columns", str(size[0]), "--rows", str(size[1]), *["--frames"] * is_plain]
        points, dots = map(str, words_of_font)
        words += ["--gf", str(font), "--design-size", points, "--resolution", dots] if made.font else []
        words += ["--plates", str(plates), *["--pgm"] * has_pgm] if made.has_images() else []
        ran = subprocess.run(words, input=made.script, capture_output=True, timeout=600, check=False)
        if ran.returncode or ran.stderr.decode() != made.transcript:
            return f"it ended with status {ran.returncode}, and told {ran.stderr!r}, not {made.transcript!r}"
        if made.font and font.read_bytes() != with_words(made.font, *words_of_font):
            return "it wrote another font file"
        if made.has_images() and (found := difference_of_plates(plates, made, has_pgm)):
            return found
        return difference_of_frames(ran.stdout.decode(), made, size, is_plain)


def seen_in_a_terminal(frame: str, columns: int) -> list[str]:
    """The lines of text of a frame, from the top, as a terminal such as xterm shows them: after a character in the last column the
    cursor stays on it until the next one comes, which begins another line, and to erase the rest of a line erases it, too."""
    lines, column = [[" "] * columns], 0
    for sign in SIGN.findall(frame):
        if sign == "\n" or sign.isprintable() and column == columns:
            lines, column = [*lines, [" "] * columns], 0
        if sign == "\x1b[K":
            start = min(column, columns - 1)
            lines[-1][start:] = " " * (columns - start)
        elif sign.isprintable():
            lines[-1][column] = sign
            column += 1
    return ["".join(line) for line in lines]


def difference_where_wide(program: str, script: str, line: str) -> str | None:
    """How the last frame of a script lacks this line in a small terminal, or has too many lines."""
    columns, rows = SMALL
    words = [program, "--columns", str(columns), "--rows", str(rows)]
    ran = subprocess.run(words, input=script, capture_output=True, timeout=600, check=True, encoding="utf-8")
    found = seen_in_a_terminal(ran.stdout.rpartition(frame_model.over(rows))[2].removesuffix("\n"), columns)
    return None if len(found) == rows - 1 and line in found else f"a terminal of {columns} columns shows {found}"


def main() -> int:
    words = sys.argv[1:]
    program = words[0] if words else str(ROOT / "crates/mfview/out/mfview")
    if not shutil.which(program):
        sys.exit(f"there is no program {program}: `./mfview < /dev/null` builds it")
    scripts = int(words[1]) if len(words) > 1 else 200
    chance = Chance(int(words[2]) if len(words) > 2 else 1)
    wrong = 0
    for number in range(scripts):
        made = performance(chance)
        size, is_plain = SIZES[number % len(SIZES)], number % 2 == 0
        if found := difference(program, made, size, is_plain, FONTS[number // 2 % len(FONTS)], number // 4 % 2 == 0):
            wrong += 1
            print(f"script {number}, {size[0]} columns and {size[1]} rows: {found}\n{made.script!r}", flush=True)
    for script, line in WIDEST.items():
        if found := difference_where_wide(program, script, line):
            wrong += 1
            print(f"{found}\n{script}", flush=True)
    print(f"{scripts + len(WIDEST) - wrong} passed, {wrong} failed")
    return int(wrong > 0)


if __name__ == "__main__":
    sys.exit(main())
