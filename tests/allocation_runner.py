"""Runs programs while their allocations are refused. (`refused_allocations.py` uses it.)

An allocation here is a call of malloc or realloc, or the start of a thread; the code calls it a growth. A library, which `cc`
compiles and LD_PRELOAD puts before the C library, counts and refuses them.
"""

import dataclasses
import os
import pathlib
import subprocess

ROOT = pathlib.Path(__file__).parent.parent
LIBRARY = r"""
#define _GNU_SOURCE
#include <dlfcn.h>
#include <errno.h>
#include <pthread.h>
#include <stdlib.h>
#include <sys/syscall.h>
#include <unistd.h>

/* Allocations of these sizes say where allocations count, or how many are allowed before all are refused: as many as the size exceeds
   ALLOWED, at most 99 (crates/mf_testing/src/growths.rt). */
enum { FROM_HERE = 33554467, TO_HERE, ALLOWED = 33554500 };

void *__libc_malloc(size_t), *__libc_realloc(void *, size_t);
static int (*start)(pthread_t *, const pthread_attr_t *, void *(*)(void *), void *);
static long growths, first, last = -1, report, allowed = -1;
static size_t piece;
static int counts;

/* Runs when the C library is ready, before the program. Allocations count from here, or from where the program says. */
__attribute__((constructor)) static void begin(void) {
    start = dlsym(RTLD_NEXT, "pthread_create");
    piece = atol(getenv("PIECE")), report = atol(getenv("REPORT"));
    first = atol(getenv("FIRST")), last = atol(getenv("LAST")), growths = 0;
    counts = !atol(getenv("MARKED"));
}

/* Whether this allocation is refused. If so, a byte is written to the file REPORT. */
static int refused(size_t size) {
    if (size == FROM_HERE || size == TO_HERE) {
        counts = size == FROM_HERE, allowed = -1;
        return 1;
    }
    if (size >= ALLOWED && size < ALLOWED + 100) {
        allowed = size - ALLOWED;
        return 1;
    }
    if (allowed > 0) return allowed--, 0;
    if (allowed == 0) return errno = ENOMEM, 1;
    if (!counts) return 0;
    long number = __atomic_add_fetch(&growths, 1, __ATOMIC_SEQ_CST);
    if (number < first || number > last) return 0;
    syscall(SYS_write, report, ".", 1);
    errno = ENOMEM;
    return 1;
}

void *malloc(size_t size) { return refused(size) ? NULL : __libc_malloc(size); }
void *realloc(void *old, size_t size) { return refused(size) ? NULL : __libc_realloc(old, size); }
int pthread_create(pthread_t *made, const pthread_attr_t *how, void *(*run)(void *), void *with) {
    return refused(0) ? EAGAIN : start(made, how, run, with);
}
/* A read ends at a line feed and after PIECE bytes, unless PIECE is 0. */
ssize_t read(int file, void *bytes, size_t size) {
    if (piece == 0) return syscall(SYS_read, file, bytes, size);
    size_t count = 0;
    for (char *next = bytes; count < size && count < piece && syscall(SYS_read, file, next, 1) == 1; next++)
        if (count++, *next == '\n') break;
    return count;
}
"""
# Ways to allocate that the library does not know.
OTHERS = {"aligned_alloc", "brk", "calloc", "memalign", "mmap", "posix_memalign", "reallocarray", "sbrk", "valloc"}
# No run makes as many allocations.
FOREVER = 1 << 40
OLD = b"what was there"


@dataclasses.dataclass(frozen=True)
class Case:
    """Words and a script for a program, and what the program does with ample memory. A read gives a line of the script, or at
    most `piece` bytes of a longer line. If `twice` is set, the script is also run in reads that give everything there is. If
    `marked` is set, the program says where its allocations start and cease to count."""

    about: str
    words: tuple[str, ...]
    program: pathlib.Path
    script: bytes = b""
    begins: bytes = b""
    status: int = 0
    message: bytes = b""
    piece: int = 1 << 16
    twice: bool = True
    marked: bool = False


@dataclasses.dataclass
class Answer:
    """What a run does. How much of the script it has read, and how many allocations were refused, is not compared."""

    status: int | str
    out: bytes
    message: bytes
    font: bytes
    taken: int = dataclasses.field(compare=False)
    refused: int = dataclasses.field(compare=False)


def build_library(folder: pathlib.Path) -> pathlib.Path:
    """Builds the library that refuses allocations, in this folder."""
    library, source = folder / "refuse.so", folder / "refuse.c"
    source.write_text(LIBRARY, encoding="ascii")
    subprocess.run(["cc", "-O1", "-Wall", "-shared", "-fPIC", "-o", library, source], check=True)
    return library


def unknown_growths(program: pathlib.Path) -> set[str]:
    """The ways in which a program allocates that the library does not refuse."""
    names = subprocess.run(["nm", "-D", program], capture_output=True, encoding="utf-8", check=True).stdout.split()
    return OTHERS & {name.split("@")[0] for name in names}


class Runner:
    """Runs programs with the library, one after another, with their files in a folder. Counts the runs and the allocations that
    were refused."""

    def __init__(self, library: pathlib.Path, folder: pathlib.Path) -> None:
        self.library, self.folder, self.runs, self.refused = library, folder, 0, 0

    def run(self, case: Case, first: int = FOREVER, last: int = FOREVER, piece: int | None = None) -> Answer:
        """Runs a case while the allocations `first` to `last` are refused."""
        font, place = self.folder / "font.gf", self.folder / "script"
        font.write_bytes(OLD)
        place.write_bytes(case.script)
        words = [case.program, *(word.replace("FOLDER", str(self.folder)) for word in case.words)]
        with open(place, "rb") as reader, open(self.folder / "report", "wb") as report:
            numbers = {"FIRST": first, "LAST": last, "PIECE": case.piece if piece is None else piece}
            numbers |= {"MARKED": int(case.marked), "REPORT": report.fileno()}
            environment = {"LD_PRELOAD": str(self.library)} | {name: str(n) for name, n in numbers.items()}
            given = {"stdin": reader, "env": environment, "pass_fds": [report.fileno()]}
            try:
                ended = subprocess.run(words, capture_output=True, check=False, timeout=60, **given)
                status, out, message = ended.returncode, ended.stdout, ended.stderr
            except subprocess.TimeoutExpired as late:
                status, out, message = "it does not end", late.stdout or b"", late.stderr or b""
            taken, refused = os.lseek(reader.fileno(), 0, os.SEEK_CUR), os.fstat(report.fileno()).st_size
        self.runs, self.refused = self.runs + 1, self.refused + refused
        return Answer(status, out, message, font.read_bytes(), taken, refused)
