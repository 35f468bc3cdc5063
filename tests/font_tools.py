#!/usr/bin/env python3
"""Tests the tools of fonts: `gfdiff.py`, `gf2pl.py`, and what all of them say of files that they cannot use.

    tests/font_tools.py [PROGRAM]

The fonts are those of `font_model.py`, and the lines that are expected of them were worked out by hand. PROGRAM, by default
crates/mfpic/out/mfpic, performs the scripts of `gfdiff.py --script`. Files that are empty, cut off, random, without an end, or
missing must be refused with a message that names them, and so must logs with numbers that are none, a closed or full output, and a
lack of memory. Changed fonts and logs must never end a tool with a traceback. Where `pltotf` is installed (Debian package
texlive-binaries), it must take the property list. The last line counts what passed.
"""

import os
import pathlib
import random
import shutil
import struct
import sys
import tempfile
import time
import types
from collections.abc import Callable, Iterator

from models import font_model
from outlines import FINE, PIXEL, PREAMBLE, SHORT, WITHOUT_PICTURE, Ended, call, expect, file_of, run

ROOT = pathlib.Path(__file__).resolve().parent.parent
# The folder of the tools is on the path since `outlines` has been read.
import gf
import gf2mfp
import gf2pl
import gfdiff
import gfwords
import mf2mfp

Pixels = frozenset[tuple[int, int]]
SQUARE, RING = (frozenset((x, y) for x in range(size) for y in range(size)) - hole for size, hole in ((2, set()), (3, {(1, 1)})))
BLANK: Pixels = frozenset()
FILLED = RING | {(1, 1)}
RIGHT = frozenset((x + 1, y) for x, y in SQUARE)
# The seed of what is random, and how many changed files are tried.
SEED, CHANGED = 20, 300
# Kilobytes that a tool may have where an allocation fails, and the bytes of the file that it then reads, which has a hole. Seconds that
# it may take.
LITTLE, HOLE, MOST_SECONDS = 100_000, 300_000_000, 60
# A log that draws the font FINE.
LOG = """mf2mfp addto currentpicture_
{addto}
Tracing edges at line 1: (weight 1)
(0,0)(1,0)(1,1)(0,1).
mf2mfp shipout currentpicture_ 65 1 0 0
{shipout}
"""


def font_of(*characters: tuple[int, int, int, Pixels]) -> bytes:
    """A font of these characters: their codes, dx and widths, and black pixels."""
    return b"".join(font_model.font_commands([font_model.Character(*character) for character in characters]))


def ends(tool: types.ModuleType, words: list[str | pathlib.Path], expected: Ended) -> None:
    found = call(tool, words)
    expect(found == expected, f"it ends with {found} instead of {expected}")


def trouble_of(tool: types.ModuleType) -> int:
    """The exit status of a tool that cannot do what it should."""
    return gfdiff.TROUBLE if tool == gfdiff else 1


def fails(tool: types.ModuleType, words: list[str | pathlib.Path], told: str) -> None:
    """A tool must print nothing, and say this."""
    ends(tool, words, Ended(trouble_of(tool), "", f"{tool.__name__}.py: {told}\n"))


# Fonts that are compared: both fonts, and the lines that are expected.

BASE = (65, 131072, 524288, SQUARE), (66, 131072, 524288, RING)
COMPARED: dict[str, tuple[bytes, bytes, str]] = {
    "the same": (font_of(*BASE), font_of(*BASE), "2 codes: 2 the same, 0 differ, 0 only in A, 0 only in B\n"),
    "one pixel": (
        font_of(*BASE),
        font_of((65, 131072, 524288, SQUARE - {(1, 0)}), BASE[1]),
        "65: 1 pixels only in A, 0 only in B, columns 1..1 rows 0..0\n"
        "2 codes: 1 the same, 1 differ, 0 only in A, 0 only in B\n",
    ),
    "pixels on both sides": (
        font_of((7, 0, 0, SQUARE)),
        font_of((7, 0, 0, frozenset({(0, 0), (-3, -2), (4, 1)}))),
        "7: 3 pixels only in A, 2 only in B, columns -3..4 rows -2..1\n1 codes: 0 the same, 1 differ, 0 only in A, 0 only in B\n",
    ),
    "other dx and width": (
        font_of(*BASE),
        font_of((65, 65536, 524288, SQUARE), (66, 131073, -1, RING)),
        "65: dx 131072 in A and 65536 in B\n66: dx 131072 in A and 131073 in B; width 524288 in A and -1 in B\n"
        "2 codes: 0 the same, 2 differ, 0 only in A, 0 only in B\n",
    ),
    "codes of one font": (
        font_of(*BASE, (200, 0, 0, BLANK)),
        font_of((0, 1, 2, RING), BASE[1]),
        "0: only in B\n65: only in A\n200: only in A\n4 codes: 1 the same, 0 differ, 2 only in A, 1 only in B\n",
    ),
    "all at once, and the last character of a code": (
        font_of((65, 9, 9, RING), (65, 1, 3, SQUARE)),
        font_of((65, 2, 4, RIGHT)),
        "65: dx 1 in A and 2 in B; width 3 in A and 4 in B; 2 pixels only in A, 2 only in B, columns 0..2 rows 0..1\n"
        "1 codes: 0 the same, 1 differ, 0 only in A, 0 only in B\n",
    ),
    "a width without a picture, and dy": (
        file_of(PREAMBLE + PIXEL, SHORT + WITHOUT_PICTURE),
        file_of(PREAMBLE + PIXEL, struct.pack(">2B4i", 245, 65, 65536, 5, 0, len(PREAMBLE))),
        "65: dy 0 in A and 5 in B\n66: only in A\n2 codes: 0 the same, 1 differ, 1 only in A, 0 only in B\n",
    ),
    "a picture that one font lacks": (
        file_of(PREAMBLE + PIXEL, SHORT + WITHOUT_PICTURE),
        font_of((65, 65536, 0, frozenset({(0, 0)})), (66, 65536, 0, BLANK)),
        "66: no picture in A\n2 codes: 1 the same, 1 differ, 0 only in A, 0 only in B\n",
    ),
}

# What the program prints of the scripts: runs are a row, two columns and a weight, rows from the top.
SCRIPTED: dict[str, tuple[bytes, bytes, str]] = {
    "moved, a hole, and one font only": (
        font_of((1, 0, 0, SQUARE), (2, 0, 0, RING), (3, 0, 0, SQUARE), (5, 0, 0, RING), (6, 0, 0, BLANK)),
        font_of((1, 0, 0, RIGHT), (2, 0, 0, FILLED), (4, 0, 0, RIGHT), (5, 9, 9, RING)),
        "1 0 0 1\n1 2 2 -1\n0 0 0 1\n0 2 2 -1\npublished 3\n"
        "1 1 1 -1\npublished 6\n"
        "1 0 1 1\n0 0 1 1\npublished 9\n"
        "1 1 2 -1\n0 1 2 -1\npublished 12\n",
    ),
    "the same": (font_of(*BASE), font_of(*BASE), ""),
    "other dx": (font_of((1, 0, 0, SQUARE)), font_of((1, 1, 0, SQUARE)), ""),
}


def two_files(a: bytes, b: bytes, folder: pathlib.Path) -> list[pathlib.Path]:
    files = [folder / "a.gf", folder / "b.gf"]
    for file, font in zip(files, (a, b)):
        file.write_bytes(font)
    return files


def check_compared(case: tuple[bytes, bytes, str], folder: pathlib.Path) -> None:
    a, b, told = case
    ends(gfdiff, two_files(a, b, folder), Ended(int(told.count("\n") > 1), told, ""))


def check_scripted(program: str, case: tuple[bytes, bytes, str], folder: pathlib.Path) -> None:
    """The program must print these weights when it performs the script of the differences."""
    a, b, shown = case
    made = call(gfdiff, [*two_files(a, b, folder), "--script"])
    is_different = call(gfdiff, two_files(a, b, folder)).status
    expect(made.status == is_different and not made.told, f"it ends with {made}")
    performed = run([program], text=made.printed)
    expect((performed.returncode, performed.stdout) == (0, shown), f"the program prints {performed.stdout} instead of {shown}")


def check_outside(folder: pathlib.Path) -> None:
    """Pixels outside the field are compared, and have no script. A few bytes may make millions of them black."""
    a, b = font_of((1, 0, 0, frozenset({(4095, 0)}))), font_of((1, 0, 0, BLANK))
    files = two_files(a, b, folder)
    fails(gfdiff, [*files, "--script"], f"{files[0]}, {files[1]}: code 1 in A: row 0 leaves the field of pixels from -4095 to 4094")
    most = (1 << 24) - 1
    rows = bytes([0, 66, 255, 255, 255]) + bytes([70, 0, 66, 255, 255, 255]) * 99
    front = PREAMBLE + struct.pack(">B6i", 67, 1, -1, 0, most, -99, 0) + rows + bytes([69])
    files[0].write_bytes(file_of(front, struct.pack(">3B2i", 246, 1, 0, 0, len(PREAMBLE))))
    told = f"1: {100 * most} pixels only in A, 0 only in B, columns 0..{most - 1} rows -99..0\n"
    ends(gfdiff, files, Ended(1, f"{told}1 codes: 0 the same, 1 differ, 0 only in A, 0 only in B\n", ""))


# Property lists. At 722.7 dots per inch a point has 10 pixels, so 10 points have 100.

TALL = frozenset({(0, -20), (3, 49)})
LISTED = font_of((0, 0, 1, BLANK), (48, 0, -262144, SQUARE), (65, 0, 524288, TALL), (255, 0, 655360, frozenset({(0, -3)})))
LIST = """(DESIGNSIZE R 10.0)
(CHECKSUM O 37777777777)
(CHARACTER O 0 (CHARWD R 0.000001))
(CHARACTER C 0 (CHARWD R -0.25) (CHARHT R 0.02))
(CHARACTER C A (CHARWD R 0.5) (CHARHT R 0.5) (CHARDP R 0.2))
(CHARACTER O 377 (CHARWD R 0.625) (CHARDP R 0.03))
"""


def check_list(folder: pathlib.Path) -> None:
    """The words of the file are used, unless the options give others. `pltotf` must take the list without a word."""
    file = folder / "a (b) list.gf"
    file.write_bytes(LISTED)
    expect(call(gfwords, [file, "--checksum", "-1"]).status == 0, "gfwords.py fails")
    words = ["--design-size", "10", "--resolution", "722.7"]
    ends(gf2pl, [file, *words], Ended(0, f"(FAMILY ablist)\n{LIST}", ""))
    expect(call(gfwords, [file, *words]).status == 0, "gfwords.py fails")
    ends(gf2pl, [file, "--family", "Two-Words"], Ended(0, f"(FAMILY Two-Words)\n{LIST}", ""))
    # Half the resolution makes everything twice as high, and so does half the design size.
    doubled = LIST.replace("0.02)", "0.04)").replace("CHARHT R 0.5", "CHARHT R 1.0").replace("0.2)", "0.4)").replace("0.03", "0.06")
    ends(gf2pl, [file, "--resolution", "361.35"], Ended(0, f"(FAMILY ablist)\n{doubled}", ""))
    smaller = doubled.replace("SIZE R 10.0", "SIZE R 5.0")
    ends(gf2pl, [file, "--design-size", "5"], Ended(0, f"(FAMILY ablist)\n{smaller}", ""))
    if shutil.which("pltotf"):
        (folder / "list.pl").write_text(LIST, encoding="ascii")
        ran = run(["pltotf", folder / "list.pl", folder / "list.tfm"])
        expect((ran.returncode, ran.stdout + ran.stderr) == (0, ""), f"pltotf says {ran.stdout}{ran.stderr}")


def check_packed(folder: pathlib.Path) -> None:
    """A packed font is read as the GF file of which it was made, where the programs for that are installed. One that is cut off is
    refused."""
    whole, packed = folder / "whole.gf", folder / "whole.pk"
    whole.write_bytes(font_of(*BASE))
    if not (shutil.which("gftopk") and shutil.which("pktogf")):
        packed.write_bytes(bytes([247, 89, 0]))
        fails(gf2pl, [packed], f"{packed}: byte 0: a packed font (PK) needs the program pktogf (Debian package texlive-binaries)")
        return
    run(["gftopk", str(whole), str(packed)])
    ends(gfdiff, [whole, packed], Ended(gfdiff.SAME, COMPARED["the same"][2], ""))
    scripts = [call(gf2mfp, [file]).printed for file in (whole, packed)]
    expect(scripts[0] == scripts[1], f"the script of the packed font is {scripts[1]} instead of {scripts[0]}")
    cut = folder / "cut.pk"
    cut.write_bytes(packed.read_bytes()[:40])
    seconds, gf.MOST_SECONDS = gf.MOST_SECONDS, 1
    found = call(gfdiff, [whole, cut])
    gf.MOST_SECONDS = seconds
    expect(found.status == gfdiff.TROUBLE and "pktogf makes no GF file" in found.told, f"a font that is cut off ends with {found}")


def check_no_list(folder: pathlib.Path) -> None:
    """What no metrics can say is refused."""
    file = folder / "f.gf"
    file.write_bytes(font_of((65, 0, 16777216, frozenset({(0, 4000)}))))
    no_size = f"{file}: its design size is 0.0 points, and metrics need 1.0 or more: give --design-size\n"
    fails(gf2pl, [file], f"{no_size}gf2pl.py: {file}: it has 0.0 pixels per point: give --resolution")
    fails(gf2pl, [file, "--design-size", "0.5", "--resolution", "300"], no_size.replace("0.0", "0.5")[:-1])
    bound = "design sizes, and metrics have less than 16"
    width, height = f"its CHARWD is 16.0 {bound}", f"its CHARHT is 40.01 {bound}"
    words = [file, "--design-size", "10", "--resolution", "722.7"]
    fails(gf2pl, words, f"{file}: character 65: {width}\ngf2pl.py: {file}: character 65: {height}")


# Files that no tool can use.


def words_for(tool: types.ModuleType, file: str | pathlib.Path, fine: pathlib.Path) -> list[str | pathlib.Path]:
    """The words with which a tool reads a font file, last of its files."""
    more = {gfdiff: ["--script"], gfwords: ["--checksum", "1"]}.get(tool, [])
    return [*([fine] if tool in (gfdiff, mf2mfp) else []), file, *more]


TOOLS = gfdiff, gf2pl, gf2mfp, gfwords, mf2mfp
NOISE = random.Random(SEED).randbytes(5000)
BAD_FILES = {
    "empty": (b"", "byte 0: the file ends too early"),
    "cut off": (FINE[:50], "byte 50: the file ends too early"),
    "random": (NOISE, f"byte 0: the first byte of a GF file is 247, and here is {NOISE[0]}"),
    "random after its beginning": (FINE[:16] + bytes([12]) + NOISE, "byte 16: the command 12 does not begin a character"),
}


def check_bad_files(tool: types.ModuleType, folder: pathlib.Path) -> None:
    """A tool must name the file, and the byte that is wrong."""
    fine, file = folder / "fine.gf", folder / "bad.gf"
    fine.write_bytes(FINE)
    for name, (font, told) in BAD_FILES.items():
        file.write_bytes(font)
        fails(tool, words_for(tool, file, fine), f"{file}: {told}")
        expect(file.read_bytes() == font, f"a file that is {name} has changed")
    fails(tool, words_for(tool, folder / "none.gf", fine), f"{folder / 'none.gf'}: No such file or directory")
    is_changed = tool == gfwords
    fails(tool, words_for(tool, folder, fine), f"{folder}: {'it is not a regular file' if is_changed else 'Is a directory'}")
    ended_so = call(tool, words_for(tool, "", fine))
    expect(ended_so.status == 2 and ended_so.told.endswith(": the name of the file is empty\n"), f"an empty name: {ended_so}")


def by_shell(limits: str, tool: types.ModuleType, words: list[str | pathlib.Path]) -> Ended:
    """Runs a tool in a process of its own, after what a shell does."""
    ran = run(["sh", "-c", f'{limits}; exec "$@"', "sh", sys.executable, tool.__file__, *words], MOST_SECONDS)
    return Ended(ran.returncode, ran.stdout, ran.stderr)


def check_output(tool: types.ModuleType, folder: pathlib.Path) -> None:
    """A closed or full standard output is told, and where standard error is closed, standard output has no message."""
    fine, log = folder / "fine.gf", folder / "fine.log"
    fine.write_bytes(FINE)
    log.write_text(LOG, encoding="ascii")
    words = {gfdiff: [fine, fine], gf2pl: [fine, "--resolution", "300"], gf2mfp: [fine], mf2mfp: [log, fine]}[tool]
    made = {gfdiff: "the comparison", gf2pl: "the property list"}.get(tool, "the script")
    status = trouble_of(tool)
    for limits, told in (("exec >&-", "Bad file descriptor"), ("exec >/dev/full", "No space left on device")):
        expected = Ended(status, "", f"{tool.__name__}.py: {made} was not written: {told}\n")
        found = by_shell(limits, tool, words)
        expect(found == expected, f"{limits}: it ends with {found} instead of {expected}")
    found = by_shell("exec 2>&-", tool, words_for(tool, folder / "none.gf", fine))
    expect(found == Ended(status, "", ""), f"without standard error it ends with {found}")


def check_memory(tool: types.ModuleType, folder: pathlib.Path) -> None:
    fine, file = folder / "fine.gf", folder / "large.gf"
    fine.write_bytes(FINE)
    file.write_bytes(FINE)
    os.truncate(file, HOLE)
    found = by_shell(f"ulimit -v {LITTLE}", tool, words_for(tool, file, fine))
    expected = Ended(trouble_of(tool), "", f"{tool.__name__}.py: {file}: there is not enough memory\n")
    file.unlink()
    expect(found == expected, f"it ends with {found} instead of {expected}")


def check_endless(tool: types.ModuleType, folder: pathlib.Path) -> None:
    """A file without an end is refused where it begins. A tool that would read it needs more memory than it has here."""
    fine = folder / "fine.gf"
    fine.write_bytes(FINE)
    found = by_shell(f"ulimit -v {LITTLE}", tool, words_for(tool, "/dev/zero", fine))
    told = "it is not a regular file" if tool == gfwords else "byte 0: the first byte of a GF file is 247, and here is 0"
    expected = Ended(trouble_of(tool), "", f"{tool.__name__}.py: /dev/zero: {told}\n")
    expect(found == expected, f"it ends with {found} instead of {expected}")


def check_pipe(folder: pathlib.Path) -> None:
    """A pipe stays one, and is not waited for."""
    pipe = folder / "pipe"
    os.mkfifo(pipe)
    found = by_shell("true", gfwords, [pipe, "--checksum", "1"])
    expected = Ended(1, "", f"gfwords.py: {pipe}: it is not a regular file\n")
    expect(found == expected and pipe.is_fifo(), f"it ends with {found} instead of {expected}")


def check_nothing(folder: pathlib.Path) -> None:
    """Millions of commands that do nothing are read at once, and draw nothing."""
    file = folder / "nothing.gf"
    end = FINE.rindex(bytes([249]))
    file.write_bytes(FINE[:end] + bytes([244]) * 20_000_000 + FINE[end:])
    plain = folder / "fine.gf"
    plain.write_bytes(FINE)
    expect(call(gf2mfp, [file]) == call(gf2mfp, [plain]), "it makes another script")


# Logs.

NINES = "9" * 5000
# What replaces a text of the log, and what is said of it.
BAD_LOGS = [
    *((" 65 1", f" {number} 1", f"line 5: {number[:60]} is no number") for number in ("1/0", "1e99999", "1e999999999", "nan", NINES)),
    (" 1 0 0", " 1e999999999 0 0", "line 5: 1e999999999 is no number"),
    (" 1 0 0", " 1 0 1/0", "line 5: 1/0 is no number"),
    ("(0,0)(1", f"({NINES},0)(1", f"line 4: no contour: ({NINES[:59]}"),
    (LOG, "", "line 0: no character is shipped: METAFONT must have read tools/mf2mfp.mf before the font"),
    (LOG, LOG[:29], "line 1: something else is done before a contour is added to the picture currentpicture_"),
    (LOG, NOISE.decode("latin-1"), None),
]


def check_checkerboard(folder: pathlib.Path) -> None:
    """Two megabytes of pixels that touch at corners alone have more contours than a script may have, which must not take minutes."""
    columns, rows = 1400, 1500
    painted = b"".join(bytes([74 + row % 2 if row else 0, *[1] * (columns - 1)]) for row in range(rows))
    front = PREAMBLE + struct.pack(">B6i", 67, 65, -1, 0, columns + 1, 0, rows - 1) + painted + bytes([69])
    file = folder / "board.gf"
    file.write_bytes(file_of(front, SHORT))
    begun = time.monotonic()
    count = rows * columns // 2
    fails(gf2mfp, [file], f"{file}: it takes at least {count + 1} operations, and currentpicture accepts 1000000")
    expect(time.monotonic() - begun < MOST_SECONDS, "it takes too long")


def check_logs(folder: pathlib.Path) -> None:
    """A tool must name the log, and its line. Of noise the message is not compared, since it has no lines."""
    font, log = folder / "fine.gf", folder / "font.log"
    font.write_bytes(FINE)
    log.write_text(LOG, encoding="latin-1")
    drawn = call(gf2mfp, [font]).printed.splitlines()[4:6]
    expect(call(mf2mfp, [log, font]).printed.splitlines()[2:4] == drawn, "the log does not draw the font")
    for old, new, told in BAD_LOGS:
        log.write_text(LOG.replace(old, new, 1), encoding="latin-1")
        if told:
            fails(mf2mfp, [log, font], f"{log}: {told}")
        else:
            expect(call(mf2mfp, [log, font]).status == 1, "noise is no fault")
    for name in ("none.log", "/dev/full/log"):
        fails(mf2mfp, [folder / name, font], f"{folder / name}: {'Not a directory' if '/' in name else 'No such file or directory'}")


# Changed files.


def change(content: bytes, chance: random.Random) -> bytes:
    """A file with a byte changed, some bytes left out, or some put in twice."""
    place, size = chance.randrange(len(content)), chance.randrange(1, 9)
    front, back = content[:place], content[place:]
    return chance.choice([front + chance.randbytes(1) + back[1:], front + back[size:], front + back[:size] + back, front])


def check_changed(folder: pathlib.Path) -> None:
    """Tools must read changed files, or say what is wrong with them."""
    chance = random.Random(SEED)
    fine, file, log = folder / "fine.gf", folder / "changed.gf", folder / "changed.log"
    fine.write_bytes(FINE)
    for _ in range(CHANGED):
        file.write_bytes(change(FINE, chance))
        log.write_bytes(change(LOG.encode("ascii"), chance))
        for tool, words in ((mf2mfp, [log, fine]), *((tool, words_for(tool, file, fine)) for tool in TOOLS[:4])):
            ended_so = call(tool, words)
            expect(ended_so.status in (0, 1, 2), f"{tool.__name__} ends with status {ended_so.status}")
            is_told = ended_so.status == trouble_of(tool)
            expect(bool(ended_so.told) == is_told, f"{tool.__name__} ends with {ended_so}")


def checks(program: str) -> Iterator[tuple[str, Callable[[pathlib.Path], None]]]:
    """All checks, each with its name."""
    for name, case in COMPARED.items():
        yield f"compared: {name}", lambda folder, case=case: check_compared(case, folder)
    for name, case in SCRIPTED.items():
        yield f"script of differences: {name}", lambda folder, case=case: check_scripted(program, case, folder)
    yield "pixels outside the field", check_outside
    yield "a property list", check_list
    yield "what no metrics can say", check_no_list
    yield "a packed font", check_packed
    for tool in TOOLS:
        yield f"{tool.__name__}.py: files that are no font", lambda folder, tool=tool: check_bad_files(tool, folder)
        yield f"{tool.__name__}.py: little memory", lambda folder, tool=tool: check_memory(tool, folder)
        yield f"{tool.__name__}.py: a file without an end", lambda folder, tool=tool: check_endless(tool, folder)
        if tool != gfwords:
            yield f"{tool.__name__}.py: outputs", lambda folder, tool=tool: check_output(tool, folder)
    yield "gfwords.py: a pipe", check_pipe
    yield "gf2mfp.py: commands that do nothing", check_nothing
    yield "gf2mfp.py: a checkerboard", check_checkerboard
    yield "mf2mfp.py: logs", check_logs
    yield "changed files", check_changed


def main() -> int:
    program = sys.argv[1] if len(sys.argv) > 1 else str(ROOT / "crates/mfpic/out/mfpic")
    passed = failed = 0
    for name, check in checks(program):
        with tempfile.TemporaryDirectory() as folder:
            try:
                check(pathlib.Path(folder))
                passed += 1
            except Exception as fault:
                print(f"{name}: {type(fault).__name__}: {fault}")
                failed += 1
    print(f"{passed} passed, {failed} failed")
    return int(failed > 0)


if __name__ == "__main__":
    sys.exit(main())
