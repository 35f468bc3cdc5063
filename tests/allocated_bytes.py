#!/usr/bin/env python3
"""Counts the bytes that commands allocate, to see that pictures share what a command does not change.

    tests/allocated_bytes.py [PROGRAM]

PROGRAM is the built program, by default crates/mfpic/out/mfpic. Each script is run without its command and with it, and the
difference is what the command allocates: the sum of the sizes given to malloc and realloc. A library, which `cc` compiles and
LD_PRELOAD puts before the C library, counts them.

A command must not allocate more than it needs for what it makes anew, and a command that makes all rows anew must not allocate
less than they need, by the sizes below. The first command that does is printed, and the exit status is 1.
"""

import dataclasses
import pathlib
import shutil
import subprocess
import sys
import tempfile

from allocation_runner import ROOT, unknown_growths

LIBRARY = r"""
#define _GNU_SOURCE
#include <stdlib.h>
#include <sys/mman.h>

void *__libc_malloc(size_t), *__libc_realloc(void *, size_t);
static unsigned long *asked;

/* Runs when the C library is ready, before the program. Bytes are counted from here, in the file REPORT. */
__attribute__((constructor)) static void begin(void) {
    void *place = mmap(NULL, sizeof *asked, PROT_READ | PROT_WRITE, MAP_SHARED, atoi(getenv("REPORT")), 0);
    if (place == MAP_FAILED) abort();
    asked = place;
}

static void count(size_t size) {
    if (asked) __atomic_add_fetch(asked, size, __ATOMIC_SEQ_CST);
}

void *malloc(size_t size) { return count(size), __libc_malloc(size); }
void *realloc(void *old, size_t size) { return count(size), __libc_realloc(old, size); }
"""

# A strip takes 8 bytes, and an edge 8. The points of a rectangle and its corners, its two strips, its two edges and the part that has
# them take at most this together.
FIELD, STRIP, EDGE, CONTOUR = 8190, 8, 8, 2048
# A list of parts takes 8 bytes for each. A picture that is copied, or published, needs up to two such lists.
LISTS = 2 * 8 * 32
# A command without a contour needs few bytes for itself.
LINE = 1024
# A comb has two strips and the blank one below it, and a row of its teeth has two edges for each.
TEETH = 200
COMB = (2 * TEETH + 2) * EDGE + 3 * STRIP


@dataclasses.dataclass(frozen=True)
class Case:
    """Lines, a command after them, the total weights of pictures after that, and the most and the least bytes that the command
    may allocate."""

    about: str
    before: str
    command: str
    shown: dict
    most: int
    least: int = 0


def box(name, left, bottom, right, top):
    """A line that fills the columns `left` to `right - 1` of the rows `bottom` to `top - 1`."""
    return f"addto {name} contour ({left},{bottom})--({right},{bottom})--({right},{top})--({left},{top})--cycle\n"


def tall(name):
    """A line for a picture with a run of 3 pixels in each row of the field."""
    return box(name, 0, -4095, 3, 4095)


def comb(name, bottom=0, top=100, teeth=TEETH):
    """A line for a comb in the rows `bottom + 1` to `top - 1`. The row `bottom` has one run."""
    points = [f"(0,{bottom})", f"({2 * teeth},{bottom})"]
    for right in range(2 * teeth, 0, -2):
        points += [f"({right},{top})", f"({right - 1},{top})", f"({right - 1},{bottom + 1})", f"({right - 2},{bottom + 1})"]
    return f"addto {name} contour {'--'.join(points)}--cycle\n"


def cases():
    """Commands that share some of a picture, and make the rest anew."""
    of_tall, of_comb = 3 * FIELD, 99 * TEETH + 2 * TEETH
    yield Case("equal rows", "", tall("a"), {"a": of_tall}, CONTOUR)
    yield Case("nothing is added", comb("a"), "addto a also nullpicture\n", {"a": of_comb}, LINE)
    yield Case("a copy", comb("a"), "addto b also a\n", {"a": of_comb, "b": of_comb}, LINE + LISTS)
    live = comb("currentpicture")
    yield Case("a publish", live, "publish\n", {"currentpicture": of_comb}, LINE + LISTS)
    # A contour is a part of its own, and stays apart from a part that is more than twice as large.
    line, shown = box("a", -9, -9, -8, 9), {"a": of_comb + 18}
    yield Case("a contour beside a large part", comb("a"), line, shown, CONTOUR)
    yield Case("a contour on a copy", comb("a") + "addto b also a\n", line, shown, CONTOUR + LISTS)
    line, shown = box("currentpicture", -9, -9, -8, 9), {"currentpicture": of_comb + 18}
    yield Case("a contour after a publish", live + "publish\n", line, shown, CONTOUR + LISTS)
    before = live + box("currentpicture", -9, -9, -8, 9)
    yield Case("a publish of two parts", before, "publish\n", {"currentpicture": of_comb + 18}, LINE + LISTS)
    # A picture of one part is shared where it is added to a part that is more than twice as large.
    before = comb("a") + comb("b", -10, -5, TEETH // 4)
    small = 2 * (TEETH // 4) + 4 * (TEETH // 4)
    yield Case("a small picture beside a large part", before, "addto a also b\n", {"a": of_comb + small, "b": small}, LINE + LISTS)
    yield from of_one_part(of_comb)


def of_one_part(of_comb):
    """Commands that make a part anew, of which no more is made than what is needed."""
    # A part that is made has room for all strips and edges of those that it is made from, and gives back what is left over.
    before, both = comb("a") + comb("b", -200, -100), {"a": 2 * of_comb}
    yield Case("two parts of one size", before, "addto a also b\n", both, LINE + LISTS + 2 * COMB + COMB // 2, 2 * COMB - STRIP)
    # What is subtracted is negated first.
    both = {"a": 0, "b": of_comb}
    yield Case("two parts that cancel", comb("a") + comb("b", -200, -100), "addto a also -b\n", both, LINE + LISTS + 4 * COMB, 3 * COMB - STRIP)
    both = {"a": of_comb}
    yield Case("a shift", comb("a"), "a := a shifted (3,-17)\n", both, LINE + LISTS + COMB + COMB // 4, COMB)
    yield Case("a reflection", comb("a"), "a := a yscaled -1\n", both, LINE + LISTS + 2 * (COMB + COMB // 4), COMB)
    yield Case("a cull", comb("a"), "cull a keeping (1,3) withweight 2\n", {"a": 2 * of_comb}, LINE + LISTS + COMB + COMB // 4, COMB)
    # The parts are joined first. The box ends among the teeth, so their sum has two strips of teeth, and so has what the cull makes of it.
    # The sum has room for one of them at first, and then for twice as much.
    before, shown = comb("a") + box("a", -9, -9, -8, 9), {"a": 2 * of_comb + 36}
    of_two = LINE + LISTS + 3 * COMB + COMB // 4
    yield Case("a total of two parts", before, "show totalweight a\n", {"a": of_comb + 18}, of_two, 2 * COMB)
    yield Case("a second total", before + "show totalweight a\n", "show totalweight a\n", {"a": of_comb + 18}, LINE)
    most = of_two + 2 * COMB + COMB // 4
    yield Case("a cull of two parts", before, "cull a keeping (1,3) withweight 2\n", shown, most, 4 * COMB)


class Counter:
    """Runs the program with a library that counts bytes."""

    def __init__(self, program, folder):
        self.program, self.folder = program, folder
        self.library, source = folder / "count.so", folder / "count.c"
        source.write_text(LIBRARY)
        subprocess.run(["cc", "-O1", "-Wall", "-shared", "-fPIC", "-o", self.library, source], check=True)

    def run(self, script):
        """Runs a script. Returns what it prints, and how many bytes it allocates."""
        place = self.folder / "script"
        place.write_text(script)
        # Standard input is a file, so each read gives all bytes that it asks for. A line that a read cuts off would allocate.
        with open(place, "rb") as reader, open(self.folder / "report", "w+b") as report:
            report.truncate(8)
            environment = {"LD_PRELOAD": str(self.library), "REPORT": str(report.fileno())}
            given = {"stdin": reader, "env": environment, "pass_fds": [report.fileno()]}
            ended = subprocess.run([self.program], capture_output=True, check=True, timeout=60, **given)
            return ended.stdout.decode(), int.from_bytes(report.read(8), sys.byteorder)


def try_case(counter, case):
    """What is wrong with a case, if anything is."""
    _, before = counter.run(case.before)
    _, after = counter.run(case.before + case.command)
    asked = after - before
    # The totals are shown in a run of their own, since a total joins the parts of a picture.
    shows = "".join(f"show totalweight {name}\n" for name in case.shown)
    printed, _ = counter.run(case.before + case.command + shows)
    print(f"{case.about}: {asked} bytes, {case.least} to {case.most} are allowed", flush=True)
    if not printed.endswith("".join(f"totalweight {total}\n" for total in case.shown.values())):
        return f"{case.about}: the totals are wrong:\n{printed}"
    if asked < case.least or case.most < asked:
        return f"{case.about}: {'more' if asked > case.most else 'less'} than is allowed"
    return None


def main():
    program = sys.argv[1] if len(sys.argv) > 1 else str(ROOT / "crates/mfpic/out/mfpic")
    if shutil.which("cc") is None:
        sys.exit("there is no C compiler: cc")
    if not pathlib.Path(program).is_file():
        sys.exit(f"there is no program: {program}")
    if unknown := unknown_growths(pathlib.Path(program)):
        sys.exit(f"the program allocates in ways that are not counted: {unknown}")
    count = 0
    with tempfile.TemporaryDirectory() as folder:
        counter = Counter(program, pathlib.Path(folder))
        for case in cases():
            fault = try_case(counter, case)
            if fault:
                sys.exit(fault)
            count += 1
    print(f"{count} passed, 0 failed")


if __name__ == "__main__":
    main()
