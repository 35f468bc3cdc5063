#!/usr/bin/env python3
"""Tests `tools/mfcheck.py`, which says which lines of a script are refused: worked cases, and all scripts that are kept.

    tests/refused_lines.py

What is expected of the cases was worked out by hand from docs/user/LANGUAGE.md. For each script of examples/ and tests/scripts/ the
refusals must be those of its transcript, in order, each at a line of the script. The programs must have been built. The last line
counts what passed.
"""

import pathlib
import re
import subprocess
import sys
import tempfile

ROOT = pathlib.Path(__file__).resolve().parent.parent
TOOL, WRAPPER = str(ROOT / "tools/mfcheck.py"), str(ROOT / "mfview")
LONG = b"show a" + b" " * 80 + b"b" + b" " * 80 + b"c"
# Scripts, and what is said of each.
CASES: dict[str, tuple[bytes, str]] = {
    "nothing": (b"", ""),
    "no refusal": (b"show a\n\n% show a b\nproof a;\n", ""),
    "a column": (b"show a\nshow a b\n", "<stdin>:2: refused Syntax 8\n    show a b\n           ^\n"),
    "past the last byte": (b"show", "<stdin>:1: refused Syntax 5\n    show\n        ^\n"),
    "no column": (
        b"cull a keeping (0,1)\nshipout nullpicture code 65 dx 0 width 0\naddto a contour (0,0)--(1,1)--cycle",
        "<stdin>:1: refused BadCull\n    cull a keeping (0,1)\n"
        "<stdin>:3: refused NotRectilinear 0\n    addto a contour (0,0)--(1,1)--cycle\n",
    ),
    "a carriage return and a tab": (b"show a\r\n\tshow a b\r\n", "<stdin>:2: refused Syntax 9\n     show a b\n            ^\n"),
    "carriage returns that are no end of a line": (
        b"show a\r\r\nshow a\r",
        "<stdin>:1: refused NotAscii\n    show a?\n<stdin>:2: refused NotAscii\n    show a?\n",
    ),
    "a byte that is no text": (b"show \xe4\n", "<stdin>:1: refused NotAscii\n    show ?\n"),
    "lines that are refused as those of the tool are": (
        b" ?\n  ?\n ?\n",
        "<stdin>:1: refused Syntax 2\n     ?\n     ^\n<stdin>:2: refused Syntax 3\n      ?\n      ^\n<stdin>:3: refused Syntax 2\n     ?\n     ^\n",
    ),
    "a long line": (LONG, "<stdin>:1: refused Syntax 87\n    " + LONG.decode()[26:126] + "\n    " + " " * 60 + "^\n"),
    "a line that is too long": (b"%" * 65_537 + b"\nshow", "<stdin>:1: refused LineTooLong\n    " + "%" * 100 + "\n<stdin>:2: refused Syntax 5\n    show\n        ^\n"),
}


def check(words: list[str], script: bytes, expected: tuple[int, str, str]) -> str:
    """What is wrong with a run of the tool, or nothing."""
    ran = subprocess.run(words, input=script, capture_output=True, check=False)
    found = ran.returncode, ran.stdout.decode(), ran.stderr.decode()
    return "" if found == expected else f"it ends with {found} instead of {expected}"


def check_kept(path: pathlib.Path) -> str:
    """What is wrong with the refusals that are found in a script, or nothing."""
    transcript = subprocess.run([str(ROOT / "mfpic")], input=path.read_bytes(), capture_output=True, check=True).stdout.decode()
    expected = [line for line in transcript.splitlines() if line.startswith("refused ")]
    told = subprocess.run([TOOL, str(path)], capture_output=True, check=False).stdout.decode()
    found = re.findall(rf"^{re.escape(str(path))}:(\d+): (refused .*)$", told, re.M)
    numbers = [int(number) for number, _ in found]
    if [refusal for _, refusal in found] != expected:
        return f"it finds {found} instead of {expected}"
    return "" if numbers == sorted(set(numbers)) else f"the lines do not rise: {numbers}"


def main() -> int:
    faults: dict[str, str] = {}
    for name, (script, told) in CASES.items():
        faults[name] = check([TOOL], script, (int(bool(told)), told, ""))
    script, told = CASES["a column"]
    faults["by mfview"] = check([WRAPPER, "--check"], script, (1, told, ""))
    with tempfile.TemporaryDirectory() as folder:
        path = pathlib.Path(folder) / "none.mfp"
        faults["a script that is missing"] = check([TOOL, str(path)], b"", (2, "", f"mfcheck: {path}: No such file or directory\n"))
        path.write_bytes(script)
        told = told.replace("<stdin>", str(path))
        faults["two files"] = check([TOOL, str(path), str(path)], b"", (1, 2 * told, ""))
    for path in sorted([*ROOT.glob("examples/*.mfp"), *ROOT.glob("tests/scripts/*.mfp")]):
        faults[path.name] = check_kept(path)
    for name, fault in faults.items():
        if fault:
            print(f"{name}: {fault}")
    failed = sum(map(bool, faults.values()))
    print(f"{len(faults) - failed} passed, {failed} failed")
    return int(failed > 0)


if __name__ == "__main__":
    sys.exit(main())
