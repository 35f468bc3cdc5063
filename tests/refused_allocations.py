#!/usr/bin/env python3
"""Runs scripts and tests while one allocation after another is refused.

    tests/refused_allocations.py [--all] [PROGRAM]

PROGRAM is the built program, by default crates/mfpic/out/mfpic. Each script is run with ample memory, then with its first
allocation refused, then with its second, and so on, until a run has fewer allocations. Then all of this is repeated with all
later allocations refused, too (`allocation_runner.py` says how). Without --all the scripts are a few that reach each command and each
refusal.

A run must exit by itself, as docs/user/PROGRAM.md says of `OutOfMemory`: with status 4 and one message, after printing what the
lines before the refused allocation print, and with the old font file untouched. Or it does what it does with ample memory, if
nothing depends on what is refused: the points of a line that is refused as `Syntax` or `TooManyPoints`, a join of parts, which
may stay apart, spare room that is given back, or a guess at what refused words mean. Beside viewers the message may be `NoPlace`, before
anything is read, and in some run it must be: where no thread starts. It is never `NoLook`, since a look does not allocate.

Tests are run in the same way, by the programs of tests that `rt ci` has built (crates/NAME/out/NAME_tests), and must pass. Tests
in modules `growths` make one call while allocations are refused, check what is left after it, and make the call again. In these
only the allocations of that call count, and a test in which none was refused fails. The tests of AGAIN repeat each call that
was refused.

The first case or test that does anything else is printed, and the exit status is 1.
"""

import concurrent.futures
import dataclasses
import itertools
import os
import pathlib
import re
import subprocess
import sys
import tempfile
from collections.abc import Callable, Iterator

from allocation_runner import FOREVER, OLD, ROOT, Answer, Case, Runner, build_library, unknown_growths

# Tests that repeat each call that was refused.
AGAIN = [("mf_desk_tests", f"tests::again::{name}") for name in ("perform_lines", "end_a_script")]

# Every command and operation, on registers and on the live picture; the last line has no line feed.
COMMANDS = """% Every command.|addto a contour (0,0)--(4,0)--(4,3)--(0,3)--cycle|addto currentpicture also a|show a
addto a contour (1,1)--(3,1)--(3,2)--(1,2)--cycle withweight -3;|addto currentpicture also -a|addto a also nullpicture
addto currentpicture contour (0,-20)--(2,-20)--(2,20)--(-5,20)--(-5,18)--(0,18)--cycle|addto a also a|publish
cull a keeping (1,32767) withweight 2|cull a dropping (-9,9)|addto a also currentpicture|a := a shifted (3,-17)
a := a scaled 2|a := a xscaled -1|a := a yscaled -3|a := a rotated 90|a := a rotated 180|a := a rotated 270|proof a
shipout a code 65 dx 655360 width 655360|a := nullpicture||shipout nullpicture code 0 dx 0 width -1
shipout a code 65 dx 1 width 0
addto c contour (0,0)--(9,0)--(9,9)--(8,9)--(8,1)--(6,1)--(6,9)--(4,9)--(4,1)--(2,1)--(2,9)--(1,9)--(1,1)--(0,1)--cycle
addto d also c|addto c contour (1,1)--(8,1)--(8,9)--(1,9)--cycle|show c|addto c also -d|show c
turningcheck := 0|addto e contour (0,0)--(0,2)--(3,2)--(3,0)--cycle withweight -2|addto e contour (0,0)--(1,0)--cycle
addto currentpicture contour (0,0)--(1,0)--(1,2)--(2,2)--(2,1)--(0,1)--cycle|turningcheck := -1|publish|show e
addto currentpicture contour (0,0)--(3,0)--(1,0)--(1,1)--(0,1)--cycle withweight 2|turningcheck := 1
currentpicture := currentpicture shifted (1,1)|publish|currentpicture := currentpicture rotated 90
currentpicture := currentpicture scaled -1|cull currentpicture keeping (1,3)|show totalweight currentpicture|publish
currentpicture := nullpicture|show totalweight c""".replace("|", "\n").encode()
# Lines that are refused, each for another reason.
REFUSED = """addto a contour (0,0)--(4,0)--(4,3)--(0,3)--cycle|addto currentpicture contur|addto a contour (0,0)--cycle
addto a contour (0,0)--(4,0)--(4,3)--(0,3)--(0,2)--(5,2)--(5,0)|addto a contour (0,0)--(4096,0)--(4096,1)--(0,1)--cycle
addto a contour (0,0)--(1,1)--(0,1)--cycle|addto a contour (0,0)--(3,0)--(1,0)--(1,1)--(0,1)--cycle|a := a scaled 0
addto a contour (0,0)--(1,0)--(1,2)--(2,2)--(2,1)--(0,1)--cycle|a := a rotated 45|cull a keeping (0,3)|% \x7f
addto a contour (0,0)--(1,0)--(1,1)--(0,1)--cycle withweight 4|a := a shifted (4095,0)|shipout a code 65 dx 0 width 0
shipout a code 256 dx 0 width 0|addto b contour (0,0)--(1,0)--(1,129)--(0,129)--cycle
proof b|""".replace("|", "\n").encode() + 15 * b"addto a also a\n" + b"show totalweight a\n"
# Lines that are longer than a read: one that is too long, and a contour with too many points.
LONG = b"%" + 70_000 * b"x" + b"\nshow a\naddto a contour " + 4097 * b"(1,1)--" + b"cycle\nshow totalweight a"


# What the first lines of a script print, for each number of lines.
Texts = list[bytes]
# The messages of a refused allocation.
OUT_OF_MEMORY, NO_PLACE = b"mfpic: OutOfMemory\n", b"mfpic: NoPlace\n"


class Fault(Exception):
    """What is wrong with a case, or with a test."""


def wrong_with_ample_memory(case: Case, ample: Answer) -> str | None:
    """What is wrong with a run with ample memory, if anything is."""
    if (ample.status, ample.message) != (case.status, case.message) or not ample.out.startswith(case.begins):
        return "the run with ample memory does not end as it must"
    if case.status == 0 and (ample.font != OLD) != any("--gf" in word for word in case.words):
        return "a font file is missing, or there is one that nobody asked for"
    return None


def has_viewers(case: Case) -> bool:
    """Whether viewers look on."""
    return case.status != 2 and "--viewers" in " ".join(case.words)


def wrong(case: Case, texts: Texts, ample: Answer, answer: Answer) -> str | None:
    """What is wrong with a run to which memory was refused, if anything is. `texts` has what the first lines print."""
    if answer == ample:
        return None
    if answer.status != 4 or answer.font != OLD:
        return "the status is neither 4 nor that with ample memory, or the old font file was touched"
    # A read ends at a line feed, so the line that the last one gave was not performed, unless it reached the end of the script.
    ready = [texts[case.script[: max(answer.taken - 1, 0)].count(b"\n")]]
    lines = ample.out[len(texts[-1]) :].splitlines(keepends=True)
    ended = [texts[-1] + b"".join(lines[:shown]) for shown in range(len(lines) + 1)]
    at_end = ended if answer.taken == len(case.script) else []
    may_be = {OUT_OF_MEMORY: ready + at_end}
    if has_viewers(case):
        may_be[NO_PLACE] = [b""] if answer.taken == 0 else []
    if answer.message not in may_be:
        return "the message is not one of a refused allocation"
    return None if answer.out in may_be[answer.message] else "the output is not what the lines before print"


def try_case(runner: Runner, case: Case) -> str:
    """Refuses each allocation of a case, alone and with all later ones. Says how many there were."""
    lines = case.script.splitlines(keepends=True)
    fronts = [b"".join(lines[:count]) for count in range(len(lines) + 1)]
    texts = [runner.run(dataclasses.replace(case, words=(), script=front)).out for front in fronts]
    ample, unneeded, messages = runner.run(case), set[int](), set[bytes]()
    if fault := wrong_with_ample_memory(case, ample):
        raise Fault(f"{case}\n{ample}\n{fault}")
    allocations = 0
    for and_later in (False, True):
        for growth in itertools.count(1):
            last = FOREVER if and_later else growth
            answer = runner.run(case, growth, last)
            fault = wrong(case, texts, ample, answer)
            # A script that is read at once makes the same allocations as one that is read line by line.
            if not fault and case.twice and runner.run(case, growth, last, piece=0) != answer:
                fault = "the answer differs from that of the script read at once"
            if not fault and answer.refused == 0 and answer != ample:
                fault = "no allocation is refused and it is not as with ample memory"
            # Nothing may depend on any of those that are left: parts of a picture that are not joined are read all the same.
            is_unneeded = not and_later or unneeded.issuperset(range(growth, allocations + 1))
            if not fault and answer.refused > 0 and answer == ample and not is_unneeded:
                fault = "it is as with ample memory"
            if fault:
                raise Fault(f"{case}\n{answer}\n{fault}: allocation {growth}{' and all later ones' if and_later else ''}")
            if answer.refused == 0:
                break
            if not and_later and answer == ample:
                unneeded.add(growth)
            messages.add(answer.message)
        allocations = growth - 1
    if missing := {OUT_OF_MEMORY, *([NO_PLACE] if has_viewers(case) else [])} - messages:
        raise Fault(f"{case}\nno run ends with {missing}")
    return f"{case.about} {' '.join(case.words)}: {allocations} allocations, {len(unneeded)} of them not needed"


def try_test(runner: Runner, test: Case) -> str:
    """Refuses each allocation of a test, alone and, if it is marked, with all later ones. Says how many there were."""
    counts = []
    for and_later in (False, True) if test.marked else (False,):
        for growth in itertools.count(1):
            answer = runner.run(test, growth, FOREVER if and_later else growth)
            if answer.status != 0:
                which = f"allocation {growth}{' and all later ones' if and_later else ''}"
                raise Fault(f"{test}\n{answer}\nthe test does not pass: {which}")
            if answer.refused == 0:
                break
        counts.append(growth - 1)
    if 0 in counts:
        raise Fault(f"{test}\nno allocation of this test was refused")
    return f"{test.about}: {counts[0]} allocations"


def test_of(crate: str, name: str, marked: bool) -> Case:
    """The test with this name in this crate."""
    return Case(f"{crate} {name}", (name,), ROOT / "crates" / crate / f"out/{crate}_tests", marked=marked)


def marked_tests() -> Iterator[Case]:
    """The tests of the modules `growths`: those in the files growths.rt, in any module, and in the folders beside them."""
    files: dict[str, list[pathlib.Path]] = {}
    for pattern in ("crates/*/src/tests/**/growths.rt", "crates/*/src/tests/**/growths/**/*.rt"):
        for path in sorted(ROOT.glob(pattern)):
            files.setdefault(path.relative_to(ROOT).parts[1], []).append(path)
    for crate, paths in sorted(files.items()):
        program = ROOT / "crates" / crate / f"out/{crate}_tests"
        if not program.exists():
            raise Fault(f"the tests of {crate} are not built: rt ci builds them")
        listed = subprocess.run([program, "--list"], capture_output=True, check=True, encoding="utf-8").stdout
        names = [name for name in re.findall(r"^(\S+): test$", listed, re.M) if "::growths::" in name]
        if len(names) != sum(path.read_text(encoding="utf-8").count("#[test]") for path in paths):
            raise Fault(f"the tests of {crate} have changed since they were built: rt ci builds them")
        yield from (test_of(crate, name, marked=True) for name in names)


def scripts(program: pathlib.Path) -> Iterator[Case]:
    """Scripts that reach each command and each refusal."""
    font = ("--gf", "FOLDER/font.gf")
    yield Case("commands", font, program, COMMANDS)
    yield Case("commands", ("--gf=FOLDER/font.gf", "--viewers", "4"), program, COMMANDS)
    yield Case("refused lines", font, program, REFUSED)
    yield Case("no character", font, program, b"show a\n", status=3, message=b"mfpic: NoCharacters\n")


def more_scripts(program: pathlib.Path) -> Iterator[Case]:
    """The examples, the scripts of tests/scripts, and scripts and words that reach what those do not."""
    font = ("--gf", "FOLDER/font.gf")
    viewers = {"examples": [(), ("--viewers", "1"), ("--viewers", "4")], "tests/scripts": [()]}
    for path in sorted(path for folder in viewers for path in (ROOT / folder).glob("*.mfp")):
        text, transcript = path.read_bytes() + b"% The end.\n", path.with_suffix(".transcript").read_bytes()
        few = path.stem not in ("field", "large_contours")
        for words in viewers[str(path.parent.relative_to(ROOT))] if few else [()]:
            ships = font if path.with_suffix(".gf").exists() else ()
            yield Case(path.stem, words + ships, program, text, transcript, twice=few)
    for about, script in [("commands", COMMANDS), ("refused lines", REFUSED)]:
        yield Case(about, ("--viewers=1", *font), program, script)
        yield Case(f"{about}, in pieces of 7 bytes,", font, program, script, piece=7, twice=False)
    yield Case("refused lines", ("--gf=FOLDER/font.gf", "--viewers", "4"), program, REFUSED)
    yield Case("long lines", (), program, LONG, twice=False)
    yield Case("no file", ("--gf", "FOLDER"), program, COMMANDS, status=3, message=b"mfpic: WriteFault\n")
    usage = b"usage: mfpic [--viewers 0..16] [--gf FILE]\n"
    for words in ["--help", "--viewers 17", "--viewer 3", "--gf", "--gf x --gf y", "x"]:
        yield Case("bad words", tuple(words.split()), program, b"show a\n", status=2, message=usage)


def try_all(folder: pathlib.Path, cases: list[Case], tests: list[Case]) -> tuple[int, int]:
    """Tries all of these, one on each processor at a time. Returns how many allocations were refused, and in how many runs."""
    library = build_library(folder)

    def trial(number: int, run: Callable[[Runner, Case], str], case: Case) -> Runner:
        place = folder / str(number)
        place.mkdir()
        runner = Runner(library, place)
        print(run(runner, case), flush=True)
        return runner

    todo = [(try_case, case) for case in cases] + [(try_test, test) for test in tests]
    with concurrent.futures.ThreadPoolExecutor(len(os.sched_getaffinity(0))) as pool:
        trials = [pool.submit(trial, number, *both) for number, both in enumerate(todo)]
        for done in concurrent.futures.as_completed(trials):
            if fault := done.exception():
                pool.shutdown(cancel_futures=True)
                raise fault
    runners = [done.result() for done in trials]
    return sum(runner.refused for runner in runners), sum(runner.runs for runner in runners)


def main() -> int:
    words = sys.argv[1:]
    whole = words[:1] == ["--all"]
    named = words[whole:]
    program = pathlib.Path(named[0]).resolve() if named else ROOT / "crates/mfpic/out/mfpic"
    try:
        cases = [*scripts(program), *(more_scripts(program) if whole else [])]
        tests = [*marked_tests(), *(test_of(crate, name, marked=False) for crate, name in AGAIN)]
        for path in sorted({case.program for case in (*cases, *tests)}):
            if unknown := unknown_growths(path):
                raise Fault(f"{path} allocates in ways that are not refused: {unknown}")
        with tempfile.TemporaryDirectory() as folder:
            refused, runs = try_all(pathlib.Path(folder), cases, tests)
    except Fault as fault:
        print(fault, file=sys.stderr)
        return 1
    print(f"{refused} allocations refused in {runs} runs: {len(cases)} scripts and {len(tests)} tests")
    print(f"{len(cases) + len(tests)} passed, 0 failed")
    return 0


if __name__ == "__main__":
    sys.exit(main())
