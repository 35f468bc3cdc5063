#!/usr/bin/env python3
"""Tests the page that `mfview --plates FOLDER` writes: its sections, its files, and what it does in a browser.

    tests/plate_pages.py [--browser CHROMIUM]

What is expected of worked scripts was worked out by hand. For each script of examples/ the page must have a section for each revision
that is published and each character that is shipped, with the runs that `show` prints there, and the images of the files. The
programs must have been built. The last line counts what passed.

With a browser (Debian package chromium), by hand, it opens the page of a script and a font, in a light and a dark scheme, presses keys,
points at pixels, types a text, and compares what the page then says; the browser must have no message. It leaves screenshots in out/pages/.
"""

import argparse
import json
import pathlib
import re
import subprocess
import sys
import tempfile
from collections import Counter
from collections.abc import Callable, Iterator

from models import frame_model
from outlines import expect, run

ROOT = pathlib.Path(__file__).resolve().parent.parent
MFVIEW, MFPIC = ROOT / "mfview", ROOT / "mfpic"
SECTION = re.compile(r"<template data-([^>]*)>\n(.*?)</template>\n", re.S)
SHIPMENT = re.compile(r"shipout (\S+) code (\d+) dx (-?\d+) width (-?\d+)")
RUN = re.compile(r"(-?\d+) (-?\d+) (-?\d+) (-?\d+)")
# A square with weights 1, 2 and -2, a blank character, one pixel with the code of the first, and a line that is refused.
CHARACTERS = """addto a contour (0,0)--(2,0)--(2,2)--(0,2)--cycle
addto a contour (1,0)--(2,0)--(2,1)--(1,1)--cycle
addto a contour (0,1)--(1,1)--(1,2)--(0,2)--cycle withweight -3
shipout a code 65 dx 131072 width 524288
shipout nullpicture code 66 dx 65536 width 1
addto currentpicture contour (4,-7)--(5,-7)--(5,-6)--(4,-6)--cycle
shipout currentpicture code 65 dx -98304 width -1
shipout a code 256 dx 0 width 0
"""
SHIPPED = [
    ('code="65" data-dx="131072" data-width="524288"', "character-65", {(0, 0): 1, (1, 0): 2, (0, 1): -2, (1, 1): 1}),
    ('code="66" data-dx="65536" data-width="1"', "character-66", {}),
    ('code="65" data-dx="-98304" data-width="-1"', "character-65-2", {(4, -7): 1}),
    ('revision="1"', "0000001", {(4, -7): 1}),
]
# Two publishes of a letter T, whose stem has weight 2 in its bar, and three characters, two of which have a code. One has no black pixels
# where its stem of weight -1 meets its bar, or is not covered by it.
USED = """addto currentpicture contour (0,4)--(8,4)--(8,6)--(0,6)--cycle
publish
addto currentpicture contour (3,0)--(5,0)--(5,6)--(3,6)--cycle
publish
shipout currentpicture code 84 dx 655360 width 655360
addto a contour (0,0)--(8,0)--(8,2)--(0,2)--cycle
addto a contour (0,0)--(2,0)--(2,6)--(0,6)--cycle withweight -1
shipout a code 76 dx 655360 width 655360
shipout a code 84 dx 655360 width 655360
"""
# Shows the folder of screenshots to who looks at them, and is in .gitignore as all folders of this name.
SHOTS = ROOT / "out/pages"
# What is done to the page, and what it must then say.
ACTS = """
const said = [];
addEventListener("error", event => said.push("error: " + event.message));
const press = key => document.dispatchEvent(new KeyboardEvent("keydown", { key, bubbles: true, cancelable: true }));
const tell = () => said.push($("told").value + " | " + $("zoom").value);
addEventListener("load", () => {
  tell();
  press("Home"); tell();
  press("ArrowRight"); tell();
  press("ArrowLeft"); press("ArrowLeft"); tell();
  press("End"); press("+"); tell();
  press("-"); press("-"); tell();
  const scale = parseInt($("zoom").value), frame = $("plate").getBoundingClientRect();
  for (const [column, row] of POINTS) {
    const x = frame.left + (column - every[0] + .5) * scale, y = frame.top + (every[3] - row + .5) * scale;
    $("plate").dispatchEvent(new MouseEvent("mousemove", { clientX: x, clientY: y, bubbles: true }));
    said.push($("pixel").value);
  }
  $("typed").value = "LT?";
  $("typed").dispatchEvent(new Event("input"));
  said.push(`the text is ${$("line").style.width} wide`);
  said.push(`${$("sheet").children.length} characters, the first: ${$("sheet").children[0].textContent.replaceAll("\\n", "; ")}`);
  document.body.dataset.said = JSON.stringify(said);
});
"""


def view(script: str, folder: pathlib.Path, *words: str) -> subprocess.CompletedProcess[str]:
    """Runs mfview on a script, with plates for a folder."""
    return run([MFVIEW, "--frames", "--plates", folder, "--transcript", "/dev/null", *words], text=script)


def sections_of(folder: pathlib.Path) -> list[tuple[str, str]]:
    """What the page of a folder says of each section, and its image. Nothing of the page may come from outside."""
    page = (folder / "index.html").read_text(encoding="ascii")
    expect(not re.search(r"\bsrc=|\bhref=|@import|url\((?!#grid\))|//(?!www\.w3\.org/2000/svg\"|\s)", page), "the page is not alone")
    return SECTION.findall(page)


def check_plates(folder: pathlib.Path, expected: list[tuple[str, str, frame_model.Picture]], kinds: tuple[str, ...] = ("svg",)) -> None:
    """The folder has these plates, each with what the page says of it, its name and its picture, and the page has them in this order."""
    found = [(said, frame_model.read_svg(image)) for said, image in sections_of(folder)]
    expect(found == [(said, picture) for said, _, picture in expected], f"the page has {found} instead of {expected}")
    files = {path.name for path in folder.iterdir()}
    named = {f"{name}.{kind}" for _, name, _ in expected for kind in kinds} | {"index.html"}
    expect(files == named, f"the files are {files} instead of {named}")
    for (_, image), (_, name, picture) in zip(sections_of(folder), expected):
        expect((folder / f"{name}.svg").read_text(encoding="ascii") == image, f"the page has another image {name}")
        if "pgm" in kinds:
            expect((folder / f"{name}.pgm").read_bytes() == frame_model.pgm(picture), f"another PGM image {name}")


def check_characters(folder: pathlib.Path) -> None:
    """Characters, one of them blank, and one whose code was shipped before; the weights are those that were shipped."""
    ran = view(CHARACTERS, folder, "--pgm")
    expect((ran.returncode, ran.stderr) == (0, ""), f"mfview ends with {ran.returncode} and says {ran.stderr}")
    check_plates(folder, SHIPPED, ("svg", "pgm"))


def check_again(folder: pathlib.Path) -> None:
    """A publish of what was published is no other section, and an earlier page is replaced."""
    (folder / "index.html").write_text("old", encoding="ascii")
    ran = view("publish\npublish\nshipout a code 0 dx 0 width 0\npublish\n", folder)
    expect(ran.returncode == 0, f"mfview ends with {ran.returncode}")
    check_plates(folder, [('revision="0"', "0000000", {}), ('code="0" data-dx="0" data-width="0"', "character-0", {})])


def check_stopped(folder: pathlib.Path) -> None:
    """A run that stops keeps the plates that stand there, and writes no page; a page that cannot be written is a fault."""
    (folder / "index.html").write_text("old", encoding="ascii")
    wide = "addto currentpicture contour (-2,0)--(4095,0)--(4095,1)--(-2,1)--cycle\n"
    for line in (f"publish\n{wide}publish\n", f"publish\n{wide}shipout currentpicture code 1 dx 0 width 0\n"):
        ran = view(line, folder)
        expect((ran.returncode, ran.stderr) == (3, "mfview: ImageTooLarge 1\n"), f"mfview ends with {ran.returncode} and says {ran.stderr}")
        expect({path.name for path in folder.iterdir()} == {"0000000.svg", "index.html"}, "the run writes other files")
    expect((folder / "index.html").read_text(encoding="ascii") == "old", "the old page was changed")
    (folder / "index.html").unlink()
    (folder / "index.html").mkdir()
    ran = view("", folder)
    expect((ran.returncode, ran.stderr) == (3, "mfview: PlateFault 0\n"), f"mfview ends with {ran.returncode} and says {ran.stderr}")


def shown_by(script: list[str]) -> Iterator[tuple[str, str, frame_model.Picture]]:
    """The plates of a script by what `show` prints after each line that publishes or ships, and at the end."""
    lines = [*script, "publish"]
    told: list[str] = []
    for number, line in enumerate(lines):
        shipment = SHIPMENT.match(line)
        told += [line, f"show {shipment[1] if shipment else 'currentpicture'}", "%"] if shipment or line.startswith("publish") else [line]
    printed = run([MFPIC], text="\n".join([*told, ""])).stdout.splitlines()
    shipments, codes, last = iter(filter(None, map(SHIPMENT.match, lines))), Counter[int](), None
    for number, line in enumerate(printed):
        picture = {}
        for row in printed[number + 1 :]:
            if not (found := RUN.fullmatch(row)):
                break
            y, first, end, weight = map(int, found.groups())
            picture |= {(x, y): weight for x in range(first, end + 1)}
        if line.startswith("published ") and (revision := int(line.split()[1])) != last:
            last = revision
            yield f'revision="{revision}"', f"{revision:07}", picture
        elif line.startswith("["):
            _, code, dx, width = next(shipments).groups()
            codes[int(code)] += 1
            again = f"-{codes[int(code)]}" if codes[int(code)] > 1 else ""
            yield f'code="{code}" data-dx="{dx}" data-width="{width}"', f"character-{code}{again}", picture


def check_script(path: pathlib.Path, folder: pathlib.Path) -> None:
    """The plates of a script."""
    script = path.read_text(encoding="ascii")
    ran = view(script, folder)
    expect((ran.returncode, ran.stderr) == (0, ""), f"mfview ends with {ran.returncode} and says {ran.stderr}")
    check_plates(folder, list(shown_by(script.splitlines())))


def check_browser(chromium: str, folder: pathlib.Path) -> None:
    """What the page of the letter T and of a font says when it is used, and that the browser has no message."""
    view(USED, folder)
    page = (folder / "index.html").read_text(encoding="ascii")
    acts = ACTS.replace("POINTS", "[[0, 5], [3, 5], [3, 0], [0, 0], [-1, -1]]")
    (folder / "used.html").write_text(page.replace("</script>", f"{acts}</script>"), encoding="ascii")
    SHOTS.mkdir(parents=True, exist_ok=True)
    options = ["--headless", "--no-sandbox", "--disable-gpu", "--hide-scrollbars", "--window-size=1000,1400", "--enable-logging=stderr"]
    ran = run([chromium, *options, "--virtual-time-budget=3000", "--dump-dom", f"file://{folder}/used.html"], limit=120)
    said = json.loads(re.search(r'data-said="([^"]*)"', ran.stdout)[1].replace("&quot;", '"').replace("&amp;", "&"))
    scale = int(said[0].rpartition("| ")[2].split()[0])
    whole, part = "revision 2, totalweight 28, columns 0..7, rows 0..5", "revision 1, totalweight 16, columns 0..7, rows 4..5"
    expected = [
        f"{whole} | {scale} px", f"{part} | {scale} px", f"{whole} | {scale} px", f"{part} | {scale} px",
        f"{whole} | {scale + 1} px", f"{whole} | {scale - 1} px",
        "column 0, row 5: weight 1", "column 3, row 5: weight 2", "column 3, row 0: weight 1", "column 0, row 0: weight 0",
        "column -1, row -1: weight 0",
        # Two letters of 10 pixels, and one more, with a margin of one: 23 pixels of 4.
        "the text is 92px wide",
        "3 characters, the first: code 76 L; dx 10; width 0.625; columns 0..7; rows 0..5; character-76.svg",
    ]  # fmt: skip
    expect(said == expected, f"the page says {said}")
    told = [line for line in ran.stderr.splitlines() if "CONSOLE" in line]
    expect(not told, f"the browser says {told}")
    for scheme, forced in (("light", []), ("dark", ["--force-dark-mode", "--blink-settings=preferredColorScheme=0"])):
        shot = SHOTS / f"{scheme}.png"
        run([chromium, *options, *forced, f"--screenshot={shot}", f"file://{folder}/index.html"], limit=120)
        expect(shot.is_file(), f"there is no {shot}")
    run([chromium, *options, f"--print-to-pdf={SHOTS / 'printed.pdf'}", f"file://{folder}/index.html"], limit=120)


def checks(chromium: str | None) -> Iterator[tuple[str, Callable[[pathlib.Path], None]]]:
    """All checks, each with its name."""
    yield "characters", check_characters
    yield "what is published again", check_again
    yield "a run that stops", check_stopped
    for path in sorted(ROOT.glob("examples/*.mfp")):
        yield path.name, lambda folder, path=path: check_script(path, folder)
    if chromium:
        yield "a browser", lambda folder: check_browser(chromium, folder)


def main() -> int:
    parser = argparse.ArgumentParser(description=__doc__, formatter_class=argparse.RawDescriptionHelpFormatter)
    parser.add_argument("--browser", metavar="CHROMIUM")
    passed = failed = 0
    for name, check in checks(parser.parse_args().browser):
        with tempfile.TemporaryDirectory() as folder:
            try:
                check(pathlib.Path(folder))
                passed += 1
            except Exception as fault:
                print(f"{name}: {type(fault).__name__}: {fault}")
                failed += 1
    print(f"{passed} passed, {failed} failed")
    return int(failed > 0)


if __name__ == "__main__":
    sys.exit(main())
