"""Measures looks at a live picture with the program of the folder looks. (`run.py --looks` calls it.)

The program is no crate of crates.txt, so that the gate takes no longer, and the gate stops at a file .rt that belongs to no crate.
So its sources have names that end in .rattle. They are copied into a folder of their own, and proved and built there, if they or a
library have changed. The program is kept as out/looks.
"""

import hashlib
import pathlib
import shutil
import statistics
import subprocess
import sys
import tempfile

HERE = pathlib.Path(__file__).resolve().parent
sys.path[:0] = [str(HERE.parent / "tools"), str(HERE.parent / "results")]

import build  # noqa: E402
from build import Failure, Prover  # noqa: E402
from record import Table  # noqa: E402

NAME = "looks"
SOURCES = sorted((HERE / NAME).glob("*.rattle"))
PROGRAM, STAMP = HERE / "out" / NAME, HERE / "out" / "stamp"
# The libraries that its files name.
NAMED = ("mf_geom", "mf_ops", "mf_live", "left_right", "anyhow")

THREADS = (1, 2, 4, 16)
# The rows of the pictures. A picture has at most 8190, and a band 16.
HEIGHTS = (1, 16, 512, 2048, 8190)
HEIGHT = 512
# Each number is the best of so many runs, of so many milliseconds each. Delays are those of one longer run.
RUNS, MILLISECONDS, LONGER = 3, 500, 4000


def libraries(prover):
    """All libraries of the program, each after those that it uses."""
    return [*dict.fromkeys(it for name in NAMED for it in [*prover.libraries.get(name, []), name])]


def sum_of_sources(prover):
    """A hash of everything that the program is proved from."""
    found = hashlib.sha256(prover.version)
    for name in prover.below(NAME):
        found.update(prover.sum_of_sources(name).encode())
    for file in SOURCES:
        found.update(file.name.encode() + file.read_bytes())
    return found.hexdigest()


def prove_and_build(prover, folder):
    """Proves and builds the program in this folder, and keeps it."""
    (folder / "src").mkdir()
    for file in SOURCES:
        shutil.copy(file, folder / "src" / f"{file.stem}.rt")
    prover.add_program(NAME, folder, libraries(prover))
    build.build(prover, NAME)
    PROGRAM.parent.mkdir(exist_ok=True)
    shutil.copy(folder / "out" / NAME, PROGRAM)
    STAMP.write_text(sum_of_sources(prover))


def ensure_program():
    """Proves and builds the program, unless it is built from the present sources."""
    prover = Prover()
    prover.libraries[NAME] = libraries(prover)
    if PROGRAM.is_file() and STAMP.is_file() and STAMP.read_text() == sum_of_sources(prover):
        return
    print(f"{NAME}: proving and building the program; this takes some six minutes", file=sys.stderr)
    with tempfile.TemporaryDirectory() as folder:
        try:
            prove_and_build(prover, pathlib.Path(folder))
        except Failure as failure:
            raise SystemExit(str(failure))


def numbers(kind, threads, height, milliseconds=MILLISECONDS):
    """The numbers that one run prints."""
    words = [str(PROGRAM), kind, str(threads), str(height), str(milliseconds)]
    ran = subprocess.run(words, stdout=subprocess.PIPE, check=True, encoding="ascii", timeout=600)
    return [int(word) for word in ran.stdout.split()]


def rates(kind, threads):
    """The most looks in a second, and the most publishes, in millions."""
    runs = [numbers(kind, threads, HEIGHT) for _ in range(RUNS)]
    return max(1000 * run[0] / run[4] for run in runs), max(1000 * run[1] / run[4] for run in runs)


def print_rates(is_recorded):
    """Looks in a second, at a picture and at a number that `left_right` keeps."""
    columns = ["threads", "looks, silent", "looks", "publishes", "left_right, silent", "left_right", "its publishes"]
    table = Table("looks", columns, is_recorded)
    for threads in THREADS:
        row = [rates("live-silent", threads)[0], *rates("live", threads)]
        row += [rates("library-silent", threads)[0], *rates("library", threads)]
        table.add(str(threads), *(f"{number:.3f}" for number in row))


def microseconds(threads, height):
    """The least microseconds of an operation, and of a publish."""
    runs = [numbers("live", threads, height) for _ in range(RUNS)]
    return [min(run[at] / run[1] / 1000 for run in runs) for at in (2, 3)]


def print_publishes(is_recorded):
    """Microseconds of an operation and of a publish, by the height of the picture."""
    table = Table("publishes", ["rows", "an operation", "a publish", "an operation, one viewer", "a publish, one viewer"], is_recorded)
    for height in HEIGHTS:
        table.add(f"{height:,}", *(f"{number:.2f}" for threads in (0, 1) for number in microseconds(threads, height)))


def print_delays(is_recorded):
    """Microseconds from a publish to the first look that shows it."""
    table = Table("delays", ["threads", "publishes", "median", "99th percentile"], is_recorded)
    for threads in THREADS:
        delays = [number / 1000 for number in numbers("delay", threads, HEIGHT, LONGER)]
        last = statistics.quantiles(delays, n=100, method="inclusive")[98]
        table.add(str(threads), f"{len(delays):,}", f"{statistics.median(delays):.1f}", f"{last:.1f}")


def measure(is_recorded):
    """Prints the three tables, and records them if that is wanted."""
    ensure_program()
    for print_table in (print_rates, print_publishes, print_delays):
        print_table(is_recorded)
        print()
