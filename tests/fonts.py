#!/usr/bin/env python3
"""Compares whole fonts with METAFONT's (`mf-nowin`, Debian packages texlive-binaries and texlive-base).

    tests/fonts.py [PROGRAM [FONT..]]

METAFONT draws four fonts at two resolutions, or the fonts that are named at the lower one. tools/mf2mfp.py makes a script from the
log of each, and PROGRAM, by default `mfpic` beside this folder, makes a font file from that. This script compares the black pixels of
all characters in order, their codes, and dx and width of each code. It counts the characters whose boxes are the same, because
METAFONT's may be larger. gftype must not complain about the file and must show the same pixels, and gftopk must pack it. The same is
done with `pictures.mf`, a font with everything that is translated. What is not translated must be reported.

examples/logo10.mfp must be the script of logo10 at the lower resolution. examples/logo10.gf must have METAFONT's characters, and
the grid in examples/logo10.transcript must have METAFONT's weights.

If METAFONT, its base, a source or one of the programs is not installed, nothing is compared.
"""

import itertools
import os
import pathlib
import re
import shutil
import subprocess
import sys
import tempfile
import typing

import gftype
from metafont_contours import pixels_of_edges

ROOT = pathlib.Path(__file__).resolve().parent.parent
TOOLS, TESTS = ROOT / "tools", ROOT / "tests"
sys.path.append(str(TOOLS))

from gf import Font, NotGf, read_font

METAFONT, BASE = "mf-nowin", "mf.base"
PROGRAMS = (METAFONT, "kpsewhich", "gftype", "gftopk")
SOURCES = ("logo10", "cmr10", "cmti10", "cmex10")
PICTURES = "pictures"
# The example, and the code of the character of which it has a proof.
EXAMPLE, PROOFED = "logo10", 77
# METAFONT finds the sources in these folders first, has this memory, in words of eight bytes, and does not make missing files.
ENVIRONMENT = {**os.environ, "MFINPUTS": f"{TOOLS}:{TESTS}:", "main_memory": "8000000", "MKTEXFMT": "0", "MKTEXMF": "0"}
# Seconds that a run may take. The program may take more, since `mfpic` builds it where it is missing.
LIMIT, LIMIT_WITH_BUILD = 60, 3600

# METAFONT commands in a letter that tools/mf2mfp.py does not translate, and what it says about them.
UNTRANSLATED = (
    ("u := nullpicture; t := u;", "it is not known what is assigned to the picture t"),
    ("u := nullpicture; show currentpicture; t := u;", "it is not known what is assigned to the picture t"),
    ("currentpicture := t;", "it is not known what is assigned to the picture currentpicture_"),
    ("begingroup save v; picture v; v := nullpicture; endgroup; addto currentpicture also v;", "what the picture v is"),
    ("addto currentpicture also (pic_ shifted (1, 1));", "METAFONT found an error: Missing `)'"),
    ("addto currentpicture also -t;", "it is not known what picture is subtracted"),
    ("addto_ currentpicture contour unitsquare;", "METAFONT's addto under another name"),
    ("cull_ currentpicture keeping_ (1, 2);", "METAFONT's cull under another name"),
    ("tracingcommands := 0; fill unitsquare; cullit;", "METAFONT does not trace addto"),
    ("tracingedges := 0; fill unitsquare; cullit;", "something else is done before a contour is added"),
    ("addto v contour begingroup fill unitsquare; unitsquare endgroup;", "something else is done before a contour is added"),
    ("if totalweight(currentpicture shifted (1, 1)) > 0: fi;", "METAFONT's operation {totalweight(picture)}"),
    ("for i = 1 upto 24: w[i] := nullpicture; endfor", "there is no register left for the picture w23"),
    ("currentpicture := currentpicture rotated 45;", "METAFONT found an error"),
    ("charext := 1;", "the character 321 has a code above 255, which a script cannot ship"),
    ("chardy := 2;", "the character 65 has an escapement upwards"),
    ("def shipit = shipout nullpicture hide(chardx := 7) enddef;", "the escapement of the character 65 is 37 here"),
    ("proofing := -1;", "METAFONT ships 65 after the last character of the font"),
)
LETTER = """mode_setup; picture t, u, v, w[]; t := nullpicture; v := currentpicture; beginchar("B", 9pt#, 9pt#, 0); endchar;
beginchar("A", 9pt#, 9pt#, 0); fill unitsquare scaled 9;
{} endchar; end
"""


class Mode(typing.NamedTuple):
    """What METAFONT knows about a printer: pixels per inch, and its corrections for the printer's blackness and for overshoot."""

    pixels: int
    blacker: str
    fillin: str
    overshoot: str


MODES = (Mode(300, "0", ".2", ".6"), Mode(600, ".25", "0", "1"))


class Compared(typing.NamedTuple):
    """The result of comparing a font: how many characters were compared, how many have METAFONT's box, and what is wrong."""

    characters: int
    same_box: int
    wrong: list[str]


class Failure(Exception):
    """A program exits with a status other than 0, or does not exit in time."""


def run(words: list[object], folder: pathlib.Path, limit: int = LIMIT, script: str = "") -> str:
    """Runs a program in a folder, and returns what it prints. It must exit with status 0."""
    texts = [str(word) for word in words]
    how = {"input": script, "capture_output": True, "encoding": "latin-1", "timeout": limit, "check": False}
    try:
        ran = subprocess.run(texts, cwd=folder, env=ENVIRONMENT, **how)
    except subprocess.TimeoutExpired:
        raise Failure(f"{texts[0]} is still running after {limit} seconds") from None
    if ran.returncode != 0:
        raise Failure(f"{' '.join(texts)} exits with status {ran.returncode}: {(ran.stderr or ran.stdout).strip()[-400:]}")
    return ran.stdout


def missing() -> str | None:
    """Something that is needed and not installed, if there is such a thing."""
    for program in PROGRAMS:
        if not shutil.which(program):
            return program
    for words in (["-engine=metafont", BASE], *(["-format=mf", f"{source}.mf"] for source in SOURCES)):
        if subprocess.run(["kpsewhich", *words], env=ENVIRONMENT, capture_output=True, check=False).returncode != 0:
            return words[1]
    return None


def drawing(name: str, mode: Mode, more: str = "") -> list[str]:
    """The command line by which METAFONT draws a font, after the commands `more`."""
    setting = f"pixels_per_inch := {mode.pixels}; blacker := {mode.blacker}; fillin := {mode.fillin};"
    setting += f" o_correction := {mode.overshoot}; proofing := 0; fontmaking := 1; tracingtitles := 0;"
    line = f"\\mode_def trial = {setting} enddef; mode := trial; {more} input {name}"
    return [METAFONT, f"-jobname={name}", "-interaction=batchmode", line]


def draw(name: str, mode: Mode, folder: pathlib.Path, more: str = "") -> pathlib.Path:
    """Has METAFONT draw a font, after the commands `more`. Returns the path of the font file, which has the log beside it."""
    run(drawing(name, mode, f"input mf2mfp; {more}"), folder)
    return folder / f"{name}.{mode.pixels}gf"


def translation(font: pathlib.Path, *options: str) -> str:
    """The script that is made from a font file and the log beside it."""
    return run([sys.executable, TOOLS / "mf2mfp.py", font.with_suffix(".log"), font, *options], font.parent)


def difference(ours: Font, theirs: Font) -> list[str]:
    """How two fonts differ, if they do."""
    wrong = []
    if len(ours.characters) != len(theirs.characters):
        wrong.append(f"{len(ours.characters)} and {len(theirs.characters)} characters")
    for number, (own, other) in enumerate(zip(ours.characters, theirs.characters)):
        if (own.code, own.previous) != (other.code, other.previous):
            told = " and ".join(f"the code {one.code} after character {one.previous}" for one in (own, other))
            wrong.append(f"character {number}: {told}")
        elif own.runs != other.runs:
            apart = sorted(own.black ^ other.black)
            wrong.append(f"the code {own.code}: {len(apart)} pixels differ, the first ones are {apart[:4]}")
    for code in sorted(ours.locators.keys() | theirs.locators.keys()):
        own, other = ours.locators.get(code), theirs.locators.get(code)
        if own != other:
            wrong.append(f"the code {code}: {own} and {other}")
    return wrong


def complaints(path: pathlib.Path, font: Font) -> list[str]:
    """What gftype and gftopk complain about in a font file, and where gftype shows other pixels than `font` has."""
    characters, _, wrong = gftype.told_by_gftype(path)
    pairs = zip(characters, font.characters)
    wrong += [f"gftype shows the code {own.code} otherwise" for shown, own in pairs if shown.black != own.black]
    if path.stat().st_size % 4:
        wrong.append("the length of the file is no multiple of 4")
    if told := run(["gftopk", path, path.with_suffix(".pk")], path.parent):
        wrong.append(f"gftopk says: {told}")
    return wrong


def at_corner(weights: dict[tuple[int, int], int]) -> dict[tuple[int, int], int]:
    """Weights by pixels, moved so that the least column and the least row are 0."""
    left, low = (min(places) for places in zip(*weights))
    return {(x - left, y - low): weight for (x, y), weight in weights.items()}


def grid_of(transcript: str) -> dict[tuple[int, int], int]:
    """The weights by pixels of the grid text that a transcript has before its first character."""
    rows = enumerate(reversed(transcript.partition("[")[0].splitlines()))
    return {(x, y): int(mark) for y, row in rows for x, mark in enumerate(row) if mark != "."}


def weights_by_metafont(folder: pathlib.Path) -> dict[tuple[int, int], int]:
    """The weights by pixels of the character of which the example has a proof, when METAFONT ships it."""
    showing = f'extra_endchar := extra_endchar & "if charcode = {PROOFED}: show currentpicture; fi";'
    log = draw(EXAMPLE, MODES[0], folder, showing).with_suffix(".log")
    return pixels_of_edges(log.read_text(encoding="latin-1"))


def about_example(script: str, theirs: Font, folder: pathlib.Path) -> list[str]:
    """What is wrong with the example, which should be this script and have METAFONT's characters."""
    example = ROOT / "examples" / EXAMPLE
    wrong = difference(read_font(example.with_suffix(".gf").read_bytes()), theirs)
    if example.with_suffix(".mfp").read_text(encoding="ascii") != script:
        wrong.append("this is not the script that is made from the font")
    grid = grid_of(example.with_suffix(".transcript").read_text(encoding="ascii"))
    if at_corner(grid) != at_corner(weights_by_metafont(folder)):
        wrong.append("the grid has other weights than METAFONT's picture")
    return [f"examples/{EXAMPLE}: {line}" for line in wrong]


def about_untranslated(commands: str, told: str, folder: pathlib.Path) -> list[str]:
    """What is wrong if a letter with these commands does not get the message `told`."""
    (folder / "letter.mf").write_text(LETTER.format(commands), encoding="ascii")
    try:
        font = draw("letter", MODES[0], folder)
    except Failure:
        font = folder / f"letter.{MODES[0].pixels}gf"
    try:
        return [f"{commands}: this makes the script {translation(font)}"]
    except Failure as fault:
        return [] if re.search(rf": line \d+: .*{re.escape(told)}", str(fault)) else [f"{commands}: {fault}"]


def compare(program: str, name: str, mode: Mode, folder: pathlib.Path) -> Compared:
    """Draws a font with METAFONT and with a script, and compares both."""
    font, path = draw(name, mode, folder), folder / "ours.gf"
    theirs, script = read_font(font.read_bytes()), translation(font)
    path.unlink(missing_ok=True)
    transcript = run([program, "--gf", path], folder, LIMIT_WITH_BUILD, script)
    ours = read_font(path.read_bytes())
    refused = [line for line in transcript.splitlines() if line.startswith("refused")]
    wrong = refused + difference(ours, theirs) + complaints(path, ours)
    if (name, mode) == (EXAMPLE, MODES[0]):
        wrong += about_example(translation(font, "--proof", str(PROOFED)), theirs, folder)
    same = sum(own.box == other.box for own, other in zip(ours.characters, theirs.characters))
    return Compared(len(theirs.characters), same, wrong)


def is_passed(program: str, name: str, mode: Mode) -> bool:
    """Whether a font is as METAFONT draws it. Prints the result."""
    about = f"{name} at {mode.pixels} dots per inch"
    with tempfile.TemporaryDirectory() as folder:
        try:
            characters, same, wrong = compare(program, name, mode, pathlib.Path(folder))
        except (Failure, NotGf, OSError) as fault:
            characters, same, wrong = 0, 0, [str(fault)]
    print("\n".join([*(f"{about}: {line}" for line in wrong), f"{about}: {characters} characters, {same} with METAFONT's box"]))
    return not wrong and characters > 0


def are_told() -> bool:
    """Whether everything that is not translated is reported. Prints the result."""
    wrong = []
    for commands, told in UNTRANSLATED:
        with tempfile.TemporaryDirectory() as folder:
            wrong += about_untranslated(commands, told, pathlib.Path(folder))
    print("\n".join([*wrong, f"{len(UNTRANSLATED)} letters that are not translated, {len(wrong)} of them wrong"]))
    return not wrong


def main() -> int:
    if absent := missing():
        print(f"0 fonts compared: {absent} is not installed")
        return 0
    program = os.path.abspath(sys.argv[1]) if len(sys.argv) > 1 else str(ROOT / "mfpic")
    # These two are not counted as fonts, but they must pass.
    failed = 0 if are_told() else 1
    failed += 0 if is_passed(program, PICTURES, MODES[0]) else 1
    named = [(name, MODES[0]) for name in sys.argv[2:]]
    results = [is_passed(program, *font) for font in named or itertools.product(SOURCES, MODES)]
    failed += results.count(False)
    print(f"{results.count(True)} passed, {failed} failed")
    return 1 if failed else 0


if __name__ == "__main__":
    sys.exit(main())
