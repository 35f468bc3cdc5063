#!/usr/bin/env python3
"""Measures what users of the programs feel.

    bench/felt.py pauses|frames|fonts.. [--record]

`pauses` has the program answer rectangles one by one, up to as many as a script may have on currentpicture: the next is written when the
publish after the last one was answered. `frames` draws a script that publishes after each rectangle, with `mfview`, and counts the
frames. `fonts` draws all of Computer Modern by the scripts that tools/mf2mfp.py makes of METAFONT's logs, and with METAFONT, which is timed
without such a log; the characters must be the same (Debian packages texlive-binaries, texlive-base and time). Each time is the
least of three.

The programs are those that tools/build.py proves and builds. Nothing else should run. With --record what is printed goes into the tables of
results/, too.
"""

import argparse
import concurrent.futures
import os
import pathlib
import re
import statistics
import subprocess
import sys
import tempfile
import time
import typing

import run
import workloads

ROOT = pathlib.Path(__file__).resolve().parent.parent
sys.path += [str(ROOT / "results"), str(ROOT / "tests")]
import fonts as compared  # noqa: E402
from record import Table  # noqa: E402

MFPIC, MFVIEW = (str(ROOT / "crates" / name / "out" / name) for name in ("mfpic", "mfview"))
FONT_SOURCE = re.compile(r"cm[a-z]+\d+\.mf")
# The printers of fonts, as tests/fonts.py describes them.
MODES = (compared.MODES[1], compared.Mode(2400, "1", "0", "1"))


class Command(typing.NamedTuple):
    """A command line, the folder in which it runs, and its standard input, if it has one."""

    words: list[str]
    folder: pathlib.Path
    script: pathlib.Path | None = None

    def run(self, before: tuple[str, ...] = ()) -> None:
        """Runs it, after these words. It must exit with status 0, and refuse no line. Standard output goes to the file `told`."""
        told = self.folder / "told"
        with open(self.script or os.devnull, "rb") as lines, told.open("wb") as output:
            how = {"env": compared.ENVIRONMENT, "stdin": lines, "stdout": output, "stderr": subprocess.DEVNULL, "check": True}
            subprocess.run([*before, *self.words], cwd=self.folder, **how)
        if b"\nrefused" in b"\n" + told.read_bytes():
            raise SystemExit(f"{' '.join(self.words)} refuses a line")

    def seconds(self) -> float:
        """The least processor time of three runs."""
        times = []
        for _ in range(3):
            before = run.processor_seconds()
            self.run()
            times.append(run.processor_seconds() - before)
        return min(times)

    def memory(self) -> float:
        """The most memory that a run takes, in megabytes."""
        self.run((run.GNU_TIME, "-f", "%M", "-o", "peak"))
        return int((self.folder / "peak").read_text()) / 1024


def answers(count: int) -> list[float]:
    """The seconds from each of so many rectangles to the answer to the publish after it."""
    seconds = []
    with subprocess.Popen([MFPIC], stdin=subprocess.PIPE, stdout=subprocess.PIPE) as process:
        for line in workloads.random_rectangles(1, count, 4000, 4000):
            begin = time.perf_counter()
            process.stdin.write(f"{line}\npublish\n".encode())
            process.stdin.flush()
            told = process.stdout.readline()
            seconds.append(time.perf_counter() - begin)
            if not told.startswith(b"published"):
                raise SystemExit(f"{line}: {told!r}")
        process.stdin.close()
    if process.returncode:
        raise SystemExit(f"{MFPIC} exits with status {process.returncode}")
    return seconds


def pauses(is_recorded: bool) -> None:
    """How long a rectangle and its publish take, in the middle and at most."""
    table = Table("pauses", ["rectangles", "median, µs", "99.9th percentile, µs", "longest, ms", "all, s"], is_recorded)
    for count in (10_000, 1_000_000):
        seconds = sorted(answers(count))
        middle, most = statistics.median(seconds) * 1e6, seconds[-1 - count // 1000] * 1e6
        table.add(f"{count:,}", f"{middle:.0f}", f"{most:.0f}", f"{seconds[-1] * 1e3:.1f}", f"{sum(seconds):.1f}")


def drawn_beside(script: pathlib.Path, folder: pathlib.Path) -> tuple[float, float, int]:
    """The seconds until a script has printed all while `mfview` draws its picture, and until `mfview` has ended, and the frames."""
    pipe, told = folder / "transcript", folder / "told"
    pipe.unlink(missing_ok=True)
    os.mkfifo(pipe)
    with open(script, "rb") as lines, told.open("wb") as output:
        begin = time.perf_counter()
        how = {"stdin": lines, "stdout": output}
        with subprocess.Popen([MFVIEW, "--frames", "--transcript", str(pipe)], **how) as process, open(pipe, "rb", buffering=0) as printed:
            while printed.read(65_536):
                performed = time.perf_counter() - begin
        if process.returncode:
            raise SystemExit(f"{MFVIEW} exits with status {process.returncode}")
        ended = time.perf_counter() - begin
    return performed, ended, told.read_bytes().count(b"revision ")


def frames(is_recorded: bool) -> None:
    """How many frames are drawn beside a script that publishes all the time, and what that costs the script."""
    columns = ["publishes", "script alone, s", "script beside a viewer, s", "mfview to its end, s", "frames in a second"]
    table = Table("frames", columns, is_recorded)
    count = 100_000
    with tempfile.TemporaryDirectory() as name:
        folder = pathlib.Path(name)
        script = folder / "work.mfp"
        script.write_text("\n".join([*workloads.published_each(1, count), ""]))
        command, alone, drawn = Command([MFPIC], folder, script), [], []
        for _ in range(5):
            begin = time.perf_counter()
            command.run()
            alone.append(time.perf_counter() - begin)
            drawn.append(drawn_beside(script, folder))
    beside, ended = (min(times) for times in list(zip(*drawn))[:2])
    rate = statistics.median(count / seconds for _, seconds, count in drawn)
    table.add(f"{count:,}", f"{min(alone):.2f}", f"{beside:.2f}", f"{ended:.2f}", f"{rate:.0f}")


class Font(typing.NamedTuple):
    """A font that was drawn: by the program, and by METAFONT, without a log."""

    characters: int
    size: int
    own: Command
    other: Command


def made(name: str, mode: compared.Mode, folder: pathlib.Path) -> Font:
    """Makes the script of a font in a folder of its own, and draws the font."""
    place = folder / f"{name}-{mode.pixels}"
    place.mkdir()
    font, script = compared.draw(name, mode, place), place / "work.mfp"
    script.write_text(compared.translation(font), encoding="latin-1")
    font.with_suffix(".log").unlink()
    own = Command([MFPIC, "--gf", "own.gf"], place, script)
    own.run()
    theirs = compared.read_font(font.read_bytes())
    if wrong := compared.difference(compared.read_font((place / "own.gf").read_bytes()), theirs):
        raise SystemExit(f"{name} at {mode.pixels} dots per inch: {wrong[0]}")
    return Font(len(theirs.characters), script.stat().st_size, own, Command(compared.drawing(name, mode), place))


def names_of_fonts() -> list[str]:
    """The fonts of Computer Modern that are installed."""
    found = subprocess.run(["kpsewhich", "-format=mf", "cmr10.mf"], check=True, stdout=subprocess.PIPE, encoding="utf-8").stdout
    return sorted(it.stem for it in pathlib.Path(found.strip()).parent.iterdir() if FONT_SOURCE.fullmatch(it.name))


def fonts(is_recorded: bool) -> None:
    """What all fonts take together, and the most memory that one takes."""
    columns = ["dots per inch", "fonts", "characters", "scripts, MB", "mfpic, s", "METAFONT, s", "mfpic, MB", "METAFONT, MB"]
    table = Table("fonts", columns, is_recorded)
    for mode in MODES:
        with tempfile.TemporaryDirectory() as name, concurrent.futures.ThreadPoolExecutor(os.cpu_count()) as pool:
            drawn = list(pool.map(lambda it, how=mode: made(it, how, pathlib.Path(name)), names_of_fonts()))
            both = [[it.own for it in drawn], [it.other for it in drawn]]
            seconds = [f"{sum(command.seconds() for command in each):.2f}" for each in both]
            memory = [f"{max(command.memory() for command in each):.1f}" for each in both]
        characters, size = sum(it.characters for it in drawn), sum(it.size for it in drawn) / 1e6
        table.add(str(mode.pixels), str(len(drawn)), f"{characters:,}", f"{size:.0f}", *seconds, *memory)


MEASURED = {"pauses": pauses, "frames": frames, "fonts": fonts}


def main() -> None:
    """Takes the measurements that are asked for."""
    parser = argparse.ArgumentParser(description=__doc__, formatter_class=argparse.RawDescriptionHelpFormatter)
    parser.add_argument("measured", nargs="+", choices=MEASURED)
    parser.add_argument("--record", action="store_true", help="write the tables of results/, too")
    given = parser.parse_args()
    if missing := [it for it in (MFPIC, MFVIEW) if not os.access(it, os.X_OK)]:
        sys.exit(f"there is no program {missing[0]}: tools/build.py builds it")
    for name in given.measured:
        MEASURED[name](given.record)


if __name__ == "__main__":
    main()
