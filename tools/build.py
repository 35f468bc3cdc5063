#!/usr/bin/env python3
"""Proves and builds a program of the repository, except what is already proved and built.

    tools/build.py [PROGRAM]

PROGRAM is mfpic, which it is by default, or mfview. results/times.tsv says how long that takes from nothing. Each library of the program
is proved as soon as the libraries that it uses are. Several are proved at a time where processors are free, because part of each proof
keeps only one processor busy. A line is printed for each crate when it is proved.
"""

import pathlib
import sys
import time

sys.path.insert(0, str(pathlib.Path(__file__).resolve().parent.parent / "proof"))

from prover import Failure, Prover, count_jobs, prove_in_order  # noqa: E402

PROGRAMS = ("mfpic", "mfview")


def build(prover: Prover, program: str) -> None:
    """Proves the libraries of a program, and then the program."""
    libraries, begun = prover.below(program), time.monotonic()

    def tell(name: str, number: int) -> None:
        minutes = (time.monotonic() - begun) / 60
        print(f"{program}: {name} is proved, {number} of {len(libraries) + 1}, {minutes:.1f} minutes", file=sys.stderr)

    for number, name in enumerate(prove_in_order(prover, libraries), 1):
        tell(name, number)
    prover.link(program, count_jobs())
    tell(program, len(libraries) + 1)


def main() -> int:
    """Says what it does, and what the toolchain said if a crate is not proved."""
    program = sys.argv[1] if len(sys.argv) > 1 else PROGRAMS[0]
    if program not in PROGRAMS:
        print(f"{program} is not a program of the repository: {' or '.join(PROGRAMS)}", file=sys.stderr)
        return 2
    print(f"{program}: proving and building the program", file=sys.stderr)
    try:
        build(Prover(), program)
    except Failure as failure:
        print(failure, file=sys.stderr)
        return 1
    return 0


if __name__ == "__main__":
    sys.exit(main())
