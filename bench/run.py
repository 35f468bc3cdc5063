#!/usr/bin/env python3
"""Measures the program on the workloads of workloads.py, and compares it with METAFONT and with a plain C++ program.

    bench/run.py [--program PROGRAM] [--repeats N] [--seed S] [--only WORD] [--processor] [--growth] [--record]
    bench/run.py --looks [--record]

PROGRAM is the built program, by default crates/mfpic/out/mfpic beside this folder. METAFONT (`mf-nowin`, Debian package
texlive-binaries) takes part if it is installed, and plain.cpp if there is a compiler, which is `c++` or what CXX names. Each
workload runs at least N times, by default 5, and more often while all runs together take less than two seconds, up to 100 times.
The programs run in turn, and the least time of each counts. If a workload ships characters, all write a font file. The totals that
they print and the characters that they ship are compared. The exit status is 1 if they differ, if the program does not refuse
exactly the lines that it should, or if METAFONT finds an error. One more run of each measures its peak memory with GNU time
(Debian package time), if that is installed.

Times are wall times, or, with --processor, processor times, which depend less on what else the machine does.

With --growth only the program runs, on scripts of several sizes, and on one without what grows, whose time is subtracted. The
exponent is the power of the size with which times grow, where all of them can be measured. With --looks a program of its own runs,
which measures looks at a live picture (looks.py). With --record what is printed goes into the tables of results/, too.
"""

import argparse
import math
import os
import pathlib
import re
import resource
import shutil
import statistics
import subprocess
import sys
import tempfile
import time

import looks
import workloads

ROOT = pathlib.Path(__file__).resolve().parent.parent
sys.path.append(str(ROOT / "results"))
from record import Table  # noqa: E402

PLAIN = ROOT / "bench/plain.cpp"

GNU_TIME = "/usr/bin/time"

# METAFONT's memory limit, in words of eight bytes.
ENVIRONMENT = {**os.environ, "main_memory": "8000000"}


def processor_seconds():
    """The processor time of all processes that were started and have ended."""
    used = resource.getrusage(resource.RUSAGE_CHILDREN)
    return used.ru_utime + used.ru_stime


class Runner:
    """One of the programs, with its own script in a folder."""

    # The name of the program, and those of its script, of what it prints and of its font file.
    NAME, SCRIPT, PRINTED, FONT = "", "", "", ""
    # The patterns of a total and of a fault in what the program writes.
    TOTAL, FAULT = r"", r""
    clock = staticmethod(time.perf_counter)

    def __init__(self, words, text, folder):
        self.words = words
        self.folder = folder
        (folder / self.SCRIPT).write_text(text)

    def stdin(self):
        """The file that is the standard input."""
        return self.folder / self.SCRIPT

    def outputs(self):
        """The files that a run writes."""
        return [self.PRINTED, self.FONT]

    def output(self):
        """What the last run wrote."""
        return (self.folder / self.PRINTED).read_text()

    def run(self, before=()):
        """Runs the program, and returns its time in seconds. It writes into new files: where one is cut off that is still being written to
        the disk, a run may wait for that."""
        for name in self.outputs():
            (self.folder / name).unlink(missing_ok=True)
        with open(self.stdin(), "rb") as lines, open(self.folder / self.PRINTED, "wb") as printed:
            begin = self.clock()
            done = subprocess.run(
                [*before, *self.words],
                cwd=self.folder,
                env=ENVIRONMENT,
                stdin=lines,
                stdout=printed,
                stderr=subprocess.DEVNULL,
            )
            seconds = self.clock() - begin
        if fault := re.search(self.FAULT, self.output(), re.MULTILINE):
            raise SystemExit(f"{' '.join(self.words)} reports a fault: {fault[0]}")
        if done.returncode != 0:
            raise SystemExit(f"{' '.join(self.words)} exits with status {done.returncode}")
        return seconds

    def totals(self):
        """The totals that the last run printed."""
        return re.findall(self.TOTAL, self.output(), re.MULTILINE)

    def characters(self):
        """The bytes of the characters that the last run shipped, which are between pre and post in its font file."""
        font = (self.folder / self.FONT).read_bytes()
        # A font file ends with the place of its post, the byte 131, and some bytes 223.
        post = int.from_bytes(font.rstrip(bytes([223]))[-5:-1], "big")
        return font[3 + font[2] : post]

    def peak(self):
        """The peak memory of one more run, in megabytes, as text."""
        if not os.path.exists(GNU_TIME):
            return "-"
        told = self.folder / "peak"
        self.run([GNU_TIME, "-f", "%M", "-o", str(told)])
        return f"{int(told.read_text()) / 1024:.1f}"


class Program(Runner):
    """The program, which writes a transcript, and a font file if the script ships characters."""

    NAME, SCRIPT, PRINTED, FONT = "mfpic", "work.mfp", "mfpic.txt", "mfpic.gf"
    TOTAL, FAULT = r"^totalweight (-?\d+)$", r"^refused (?!BadWeight$).*"
    # The words of the command line before the name of the font file.
    OPTION = ("--gf",)

    def __init__(self, program, lines, folder):
        words = [program, *self.OPTION, self.FONT] if workloads.ships(lines) else [program]
        super().__init__(words, "\n".join(lines) + "\n", folder)
        self.refused = sum(map(workloads.is_refused, lines))

    def run(self, before=()):
        seconds = super().run(before)
        refused = len(re.findall(r"^refused ", self.output(), re.MULTILINE))
        if refused != self.refused:
            raise SystemExit(f"{self.NAME} refuses {refused} lines, and should refuse {self.refused}")
        return seconds

    def totals(self):
        return [int(n) for n in super().totals()]


class Plain(Program):
    """The plain C++ program."""

    NAME, PRINTED, FONT, OPTION = "C++", "plain.txt", "plain.gf", ()


class Metafont(Runner):
    """METAFONT, which writes a log, and a font file if the script ships characters."""

    NAME, SCRIPT, PRINTED, FONT = "METAFONT", "work.mf", "metafont.txt", "work.gf"
    TOTAL, FAULT = r"^>> (-?[\d.]+)", r"^! .*"

    def __init__(self, lines, folder):
        super().__init__(["mf-nowin", "-ini", "-interaction=batchmode", self.SCRIPT], workloads.metafont(lines), folder)

    def stdin(self):
        return os.devnull

    def outputs(self):
        return [*super().outputs(), "work.log"]

    def output(self):
        return (self.folder / "work.log").read_text(errors="replace")

    def totals(self):
        # METAFONT has n / 65536 for a total weight of n, and prints it with enough digits to distinguish it from others.
        return [round(float(n) * 65536) for n in super().totals()]


# The programs, in the order of their columns.
NAMES = [Program.NAME, Metafont.NAME, Plain.NAME]


def is_wanted(repeats, times, seconds):
    """Whether one more run is needed after runs with these times, all of which took this many seconds."""
    return len(times) < repeats or (len(times) < 100 and seconds < 2)


def times_of(repeats, runner):
    """The times of repeated runs."""
    times = []
    while is_wanted(repeats, times, sum(times)):
        times.append(runner.run())
    return times


def difference(own, other, lines):
    """What differs between the last runs, if anything does."""
    found, expected = own.totals(), other.totals()
    if found != expected:
        return f"the totals start with {found[:9]}, and those of {other.NAME} with {expected[:9]}"
    if workloads.ships(lines) and own.characters() != other.characters():
        return f"the characters are not those of {other.NAME}"
    return None


def times_in_turn(repeats, name, lines, runners):
    """The times of each of the runners, which run in turn. The first one is compared with the others."""
    own, *others = runners
    times = [[] for _ in runners]
    while is_wanted(repeats, times[0], sum(map(sum, times))):
        for runner, taken in zip(runners, times):
            taken.append(runner.run())
        for wrong in filter(None, (difference(own, other, lines) for other in others)):
            raise SystemExit(f"{name}: {wrong}")
    return times


def row(arguments, name, lines, folder, plain):
    """The cells of a workload."""
    runners = [Program(arguments.program, lines, folder)]
    if shutil.which("mf-nowin"):
        runners.append(Metafont(lines, folder))
    if plain:
        runners.append(Plain(plain, lines, folder))
    times = times_in_turn(arguments.repeats, name, lines, runners)
    least = {runner.NAME: min(taken) for runner, taken in zip(runners, times)}
    peaks = {runner.NAME: runner.peak() for runner in runners}
    cells = [f"{least[it]:.3f}" if it in least else "-" for it in NAMES]
    cells += [f"{least[it] / least[Program.NAME]:.2f}" if it in least else "-" for it in NAMES[1:]]
    cells += [peaks.get(it, "-") for it in NAMES]
    return name, *cells


def compile_plain(folder):
    """The path of the compiled C++ program, or nothing where there is no compiler."""
    compiler = shutil.which(os.environ.get("CXX", "c++"))
    if not compiler:
        return None
    program = folder / "plain"
    subprocess.run([compiler, "-std=c++17", "-O2", "-o", str(program), str(PLAIN)], check=True)
    return str(program)


def compare(arguments, folder):
    plain = compile_plain(folder)
    cells = [f"{name}, s" for name in NAMES] + [f"{name} / mfpic" for name in NAMES[1:]] + [f"{name}, MB" for name in NAMES]
    table = Table("speed", ["workload", *cells], arguments.record)
    for name, (make, size) in workloads.WORKLOADS.items():
        if arguments.only in name:
            table.add(*row(arguments, name, make(arguments.seed, size), folder, plain))


def exponent(sizes, times):
    """The power of the size with which times grow: the slope of the line that fits their logarithms best."""
    across, up = ([math.log(number) for number in numbers] for numbers in (sizes, times))
    return statistics.linear_regression(across, up).slope


def growth(arguments, folder):
    table = Table("growth", ["workload", "sizes", "without it, s", "seconds", "exponent"], arguments.record)
    for name, (make, sizes) in workloads.GROWING.items():
        if arguments.only not in name:
            continue
        runners = (Program(arguments.program, make(arguments.seed, size), folder) for size in (0, *sizes))
        without, *times = (min(times_of(arguments.repeats, own)) for own in runners)
        times = [max(0.0, seconds - without) for seconds in times]
        slope = f"{exponent(sizes, times):.2f}" if min(times) > 0.0005 else "-"
        table.add(name, "; ".join(f"{size:,}" for size in sizes), f"{without:.3f}", "; ".join(f"{it:.3f}" for it in times), slope)


def main():
    parser = argparse.ArgumentParser()
    parser.add_argument("--program", default=str(ROOT / "crates/mfpic/out/mfpic"))
    parser.add_argument("--repeats", type=int, default=5)
    parser.add_argument("--seed", type=int, default=1)
    parser.add_argument("--only", default="")
    parser.add_argument("--processor", action="store_true")
    parser.add_argument("--growth", action="store_true")
    parser.add_argument("--looks", action="store_true")
    parser.add_argument("--record", action="store_true")
    arguments = parser.parse_args()
    if not shutil.which(arguments.program):
        sys.exit(f"there is no program {arguments.program}: `./mfpic < /dev/null` builds it")
    if arguments.processor:
        Runner.clock = staticmethod(processor_seconds)
    if arguments.looks:
        looks.measure(arguments.record)
        return
    with tempfile.TemporaryDirectory() as folder:
        (growth if arguments.growth else compare)(arguments, pathlib.Path(folder))


if __name__ == "__main__":
    sys.exit(main())
