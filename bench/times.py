#!/usr/bin/env python3
"""Takes the time of what a newcomer and the gate wait for, and writes it into results/times.tsv.

    bench/times.py [--slow] answer|build|gate..

Each is run in a fresh clone of the last commit: `answer` is the first answer of `./mfpic`, which is not proved; `build` is
tools/build.py, for mfpic and then for mfview, with a row for each crate, by when it is proved; `gate` is .ci/run, which the toolchain may
shorten by what it has kept of earlier runs. Nothing else should run beside it. They use the processors that they may (`taskset -c 0,1`
leaves two), whose number is in the name of a run, and its rows replace those of the one before. With --slow that name also says that the
machine is slow, so that the rows stand beside those of others.
README.md and docs/work/CONTRIBUTING.md quote these minutes, and tests/documents.py compares them.
"""

import argparse
import os
import pathlib
import re
import subprocess
import sys
import tempfile
import time
from collections.abc import Iterator

ROOT = pathlib.Path(__file__).resolve().parent.parent
sys.path.append(str(ROOT / "results"))
from record import circumstances, write  # noqa: E402

# What tools/build.py and `rt ci` say of a crate, and the gate of a part.
PROVED = re.compile(r"\w+: (?!not )(\w+) (?:is )?proved\b")
PASSED = re.compile(r"\d+ passed, \d+ failed")
COMMANDS = {
    "answer": [["./mfpic"]],
    "build": [["tools/build.py", "mfpic"], ["tools/build.py", "mfview"]],
    "gate": [[".ci/run"]],
}


def parts_of(command: list[str], clone: pathlib.Path) -> Iterator[tuple[str, float]]:
    """Runs a command in a clone. Yields each of its parts and then `whole`, with the minutes after which it has ended. The parts of the
    gate are numbered: the first is `rt ci`. A crate that was proved before is left out."""
    begun, count = time.monotonic(), 0
    how = {"stdout": subprocess.PIPE, "stderr": subprocess.STDOUT, "encoding": "utf-8", "errors": "replace"}
    with (ROOT / "examples/rectangle.mfp").open("rb") as script, subprocess.Popen(command, cwd=clone, stdin=script, **how) as ran:
        for line in ran.stdout or ():
            sys.stderr.write(line)
            proved = PROVED.match(line)
            minutes = (time.monotonic() - begun) / 60
            if PASSED.fullmatch(line.strip()):
                count += 1
                yield str(count), minutes
            elif proved and minutes >= 0.05:
                yield proved[1], minutes
    if ran.returncode:
        sys.exit(f"{' '.join(command)} ended with status {ran.returncode}")
    yield "whole", (time.monotonic() - begun) / 60


def main() -> None:
    parser = argparse.ArgumentParser(description=__doc__, formatter_class=argparse.RawDescriptionHelpFormatter)
    parser.add_argument("--slow", action="store_true", help="say that the machine is slow")
    parser.add_argument("runs", nargs="+", choices=COMMANDS)
    given = parser.parse_args()
    made_with, processors = circumstances(), f"{len(os.sched_getaffinity(0))} {'slow ' * given.slow}processors"
    # A clone has nothing that is not committed.
    made_with["commit"] = made_with["commit"].rstrip("+")
    for run in given.runs:
        rows = []
        with tempfile.TemporaryDirectory(prefix="times-") as folder:
            clone = pathlib.Path(folder) / "clone"
            subprocess.run(["git", "clone", "--quiet", str(ROOT), str(clone)], check=True)
            for command in COMMANDS[run]:
                run_of = f"{' '.join(command)}, {processors}"
                rows += [{"run": run_of, "part": part, "minutes": f"{minutes:.1f}"} for part, minutes in parts_of(command, clone)]
        write("times", [row | made_with for row in rows])


if __name__ == "__main__":
    main()
