#!/usr/bin/env python3
"""Compares contours, with the turning check on and off, with METAFONT (`mf-nowin`, Debian package texlive-binaries).

    tests/metafont_contours.py PROGRAM COUNT SEED

The program and METAFONT fill random cycles into blank pictures, each with a weight and a value of `turningcheck`. METAFONT's edge
structures are read from its log. METAFONT also fills a cycle that the program refuses under the check, so the pixels of these are
not compared. METAFONT must call a cycle with turning number 0 and without a reversal a strange path exactly where its check is
above 1. Nothing is required of cycles that turn straight back, because METAFONT counts a reversal as a left turn. This script is
run by hand.
"""

import collections
import os
import pathlib
import re
import subprocess
import sys
import tempfile

from models.pixel_model import WEIGHTS, path_fault
from models.random_cycles import Cycles

HEAD = """delimiters ();
def --={curl 1}..{curl 1}enddef;
autorounding:=0; smoothing:=0; granularity:=1;
picture a;
"""
# The number of contours that METAFONT reads at once, and the greatest number of points of its paths.
AT_ONCE, POINTS = 500, 200
CHECKS = (-1, 0, 0, 1, 2, 2)
SHOWN = re.compile(r"^row (-?\d+):(.*)$", re.M)


def cases(count, seed):
    """Cycles, each with a weight and a value of `turningcheck`."""
    random = Cycles(seed)
    found = []
    while len(found) < count:
        points = random.points()
        if len(points) <= POINTS and path_fault(points) is None:
            found.append((points, random.choice(WEIGHTS), random.choice(CHECKS)))
    return found


def path_of(points):
    return "--".join(f"({x},{y})" for x, y in points) + "--cycle"


def by_program(program, cases):
    """What the program prints of each contour: the refusal if there is one, and the runs."""
    lines = []
    for points, weight, check in cases:
        lines += [f"turningcheck := {check}", f"addto a contour {path_of(points)} withweight {weight}"]
        lines += ["show a", "show totalweight nullpicture", "a := nullpicture"]
    script = "\n".join(lines) + "\n"
    printed = subprocess.run([program], input=script, stdout=subprocess.PIPE, check=True, encoding="ascii").stdout
    return printed.split("totalweight 0\n")[:-1]


def by_metafont(cases, folder):
    """What METAFONT logs of each contour."""
    lines = [HEAD]
    for points, weight, check in cases:
        # METAFONT reads only short lines.
        path = path_of(points).replace("--(", "--\n(")
        lines += [f"turningcheck:={check}; a:=nullpicture;", f"addto a contour {path} withweight {weight};"]
        lines += ["show a;", 'message "next";']
    (folder / "work.mf").write_text("\n".join([*lines, "end", ""]), encoding="ascii")
    words = ["mf-nowin", "-ini", "-interaction=batchmode", "work.mf"]
    how = {"stdin": subprocess.DEVNULL, "stdout": subprocess.DEVNULL, "check": False}
    subprocess.run(words, cwd=folder, env={**os.environ, "MFINPUTS": "."}, **how)
    log = (folder / "work.log").read_text(encoding="latin-1")
    return log.split("\nnext")[: len(cases)]


def pixels_of_runs(text):
    found = {}
    for line in text.splitlines():
        if line != "blank":
            row, first, last, weight = (int(word) for word in line.split())
            found |= {(column, row): weight for column in range(first, last + 1)}
    return found


def pixels_of_edges(log):
    """The weights of an edge structure: at the column of an edge they increase by one for each + after it, and decrease for each
    -."""
    found = {}
    for row, edges in SHOWN.findall(re.sub(r"\n(?= )", "", log)):
        changes = collections.Counter()
        for column, signs in re.findall(r"(-?\d+)([+-]+)", edges):
            changes[int(column)] += len(signs) if signs[0] == "+" else -len(signs)
        weight, columns = 0, sorted(changes)
        for column, after in zip(columns, columns[1:]):
            weight += changes[column]
            if weight:
                found |= {(place, int(row)): weight for place in range(column, after)}
    return found


def difference(case, printed, log):
    """How the two differ, if they do."""
    points, weight, check = case
    strange = "Strange path" in log
    if printed.startswith("refused"):
        zero = printed.startswith("refused TurningZero")
        return "" if check > 0 and (not zero or strange == (check > 1)) else f"{printed} and strange: {strange}"
    if strange:
        return "METAFONT calls it strange"
    ours, theirs = pixels_of_runs(printed), pixels_of_edges(log)
    return "" if ours == theirs else f"{sorted(ours.items())[:8]} and {sorted(theirs.items())[:8]}"


def main():
    if len(sys.argv) != 4:
        sys.exit(__doc__)
    program, count, seed = sys.argv[1], int(sys.argv[2]), int(sys.argv[3])
    wanted, differ, kinds = cases(count, seed), 0, collections.Counter()
    with tempfile.TemporaryDirectory() as name:
        for begin in range(0, count, AT_ONCE):
            some = wanted[begin : begin + AT_ONCE]
            ours, theirs = by_program(program, some), by_metafont(some, pathlib.Path(name))
            if len(ours) != len(some) or len(theirs) != len(some):
                print(f"{len(some)} contours have {len(ours)} and {len(theirs)} answers", file=sys.stderr)
                return 1
            for case, printed, log in zip(some, ours, theirs):
                told = difference(case, printed, log)
                answer = printed.split()[1] if printed.startswith("refused") else "filled"
                kinds["on" if case[2] > 0 else "off", answer] += 1
                if told:
                    differ += 1
                    print(f"turningcheck := {case[2]}, {path_of(case[0])} withweight {case[1]}: {told}")
    print("\n".join(f"{kinds[kind]:7} {', '.join(kind)}" for kind in sorted(kinds)))
    print(f"{count} contours, {differ} of them differ")
    return 1 if differ or not kinds["off", "filled"] else 0


if __name__ == "__main__":
    sys.exit(main())
