"""A tool of proof: the crates of the repository, and the toolchain's prover. (`prove.py`, `wrong_bodies.py` and tools/ use it.)

A crate is proved from the statements of the libraries that it uses, without their proofs: reading the proofs of all libraries of
the program takes longer than proving most crates. `rt ci` does the same, but `rt lib` makes libraries with proofs. So the prover
is called here as `rt ci` calls it, and these libraries are kept apart from those of `rt lib`, in the folder
`out/rlib/statements` of each crate.
"""

import concurrent.futures
import hashlib
import os
import pathlib
import shutil
import subprocess
from collections.abc import Iterator

ROOT = pathlib.Path(__file__).resolve().parent.parent
SOURCES = ("src", "specs", "proofs")
# The memory of a job, in bytes: the most that any job was seen to take.
JOB_MEMORY = 2_000_000_000


class Failure(Exception):
    """A crate is not proved, or not built. The text is what the toolchain said."""


def libraries_of_crates() -> dict[str, list[str]]:
    """The crates of the repository, each after the crates that it uses, with all its libraries, including the toolchain's: those that
    `crates.txt` names, which its files use by name, and those that these use. Each comes after the libraries that it uses."""
    found: dict[str, list[str]] = {}
    for line in (ROOT / "crates.txt").read_text(encoding="utf-8").splitlines():
        names, colon, below = line.partition("#")[0].partition(":")
        if colon:
            found[names.split()[0]] = [*dict.fromkeys(it for name in below.split() for it in [*found.get(name, []), name])]
    return found


def statements_of(crate: str) -> pathlib.Path:
    """The path of the library with the statements of a crate."""
    return ROOT / "crates" / crate / "out/rlib/statements" / f"{crate}.rlib"


class Prover:
    """The prover, for the crates of the repository."""

    def __init__(self) -> None:
        if not shutil.which("rt"):
            raise Failure("rt, the command of the Rattle toolchain, is not on the path")
        page = subprocess.run(["rt", "doc"], stdout=subprocess.PIPE, check=True, encoding="utf-8").stdout
        self.toolchain = pathlib.Path(page.strip()).parent
        self.version = subprocess.run(["rt", "version"], stdout=subprocess.PIPE, check=True).stdout
        self.libraries = libraries_of_crates()
        self.folders = {crate: ROOT / "crates" / crate for crate in self.libraries}

    def add_program(self, crate: str, folder: pathlib.Path, libraries: list[str]) -> None:
        """Adds a program in another folder, for `link`. Its libraries come each after the libraries that it uses."""
        self.libraries[crate] = libraries
        self.folders[crate] = folder

    def below(self, crate: str) -> list[str]:
        """The crates of the repository that a crate uses."""
        return [name for name in self.libraries[crate] if name in self.libraries]

    def words(self, verb: str, crate: str, root: str = "src/lib.rt") -> list[str]:
        """The command line that proves a crate with this root file, from the statements of the libraries that it uses."""
        kit = self.toolchain / "rlibs"
        words = [str(self.toolchain / "bin/rattle"), verb, "--crate-name", crate, root, "-L", f"dependency={kit}"]
        for name in ["std", *self.libraries[crate]]:
            place = statements_of(name) if name in self.libraries else kit / f"{name}.rlib"
            words += ["--extern", f"{name}={place}", "-L", f"dependency={place.parent}"]
        words += ["--antt-project", str(self.toolchain / "rattle/logic/antt-project.json")]
        return [*words, "--logic-built", str(self.toolchain / "logic_built")]

    def build(self, crate: str, jobs: int, niceness: int) -> None:
        """Proves a library and keeps its statements, unless they are already kept."""
        place, sum_of_all = statements_of(crate), self.sum_of_sources(crate)
        stamp = place.parent / "stamp"
        if stamp.is_file() and stamp.read_text(encoding="utf-8") == sum_of_all:
            return
        shutil.rmtree(place.parent, ignore_errors=True)
        place.parent.mkdir(parents=True)
        self.run(crate, [*self.words("build", crate), "--jobs", str(jobs), "--statements", "-o", str(place)], niceness)
        stamp.write_text(sum_of_all, encoding="utf-8")

    def link(self, crate: str, jobs: int) -> None:
        """Proves, compiles and links a program, and puts it into the folder `out` of its crate."""
        out = self.folders[crate] / "out"
        out.mkdir(exist_ok=True)
        made, compilers = str(out / f"{crate}.o"), ["--toolchain", str(self.toolchain / "toolchain")]
        words = [*self.words("build", crate, "src/main.rt"), "--jobs", str(jobs), *compilers]
        self.run(crate, [*words, "--backend", "llvm", "-o", made])
        words = [str(self.toolchain / "bin/rattle-link"), "--target", "x86_64-unknown-linux-gnu", *compilers]
        libraries = [str(self.toolchain / "c" / name) for name in ("libos_c.a", "liblibc_c.a")]
        self.run(crate, [*words, "-o", str(out / crate), made, *libraries])

    def sum_of_sources(self, crate: str) -> str:
        """A hash of everything that a crate is proved from."""
        found = hashlib.sha256(self.version)
        for name in [*self.below(crate), crate]:
            for file in sorted(it for part in SOURCES for it in (ROOT / "crates" / name / part).rglob("*") if it.is_file()):
                found.update(file.relative_to(ROOT).as_posix().encode())
                found.update(file.read_bytes())
        return found.hexdigest()

    def run(self, crate: str, words: list[str], niceness: int = 0) -> None:
        """Runs a command in the folder of a crate."""
        how = {"stdin": subprocess.DEVNULL, "stdout": subprocess.PIPE, "stderr": subprocess.STDOUT}
        words = ["nice", "-n", str(niceness), *words]
        ran = subprocess.run(words, cwd=self.folders[crate], check=False, encoding="utf-8", errors="replace", **how)
        if ran.returncode:
            raise Failure(f"{crate}\n{ran.stdout}the prover exited with status {ran.returncode}")


def prove_in_order(prover: Prover, names: list[str]) -> Iterator[str]:
    """Proves these crates of the repository, each once the crates that it uses are proved. Crates that more others wait for get a
    higher priority. Yields each name when its crate is proved."""
    jobs, left = count_jobs(), names
    proved: list[str] = []
    running: dict[concurrent.futures.Future[None], str] = {}
    with concurrent.futures.ThreadPoolExecutor(max(1, len(names))) as pool:
        while left or running:
            ready = [name for name in left if all(it in proved for it in prover.below(name))]
            left = [name for name in left if name not in ready]
            share = share_of(jobs, max(1, len(ready) + len(running)))
            for name in ready:
                waiting = sum(name in prover.below(it) for it in names)
                running[pool.submit(prover.build, name, share, 2 * (len(names) - waiting))] = name
            for done in concurrent.futures.wait(running, return_when=concurrent.futures.FIRST_COMPLETED).done:
                done.result()
                proved.append(running.pop(done))
                yield proved[-1]


def count_jobs() -> int:
    """How many jobs run at a time: one for each processor, if there is enough free memory."""
    free = os.sysconf("SC_AVPHYS_PAGES") * os.sysconf("SC_PAGE_SIZE")
    for line in pathlib.Path("/proc/meminfo").read_text(encoding="ascii").splitlines():
        if line.startswith("MemAvailable:"):
            free = 1024 * int(line.split()[1])
    return max(1, min(len(os.sched_getaffinity(0)), free // JOB_MEMORY))


def share_of(jobs: int, crates: int) -> int:
    """How many jobs each of `crates` crates gets that are proved at a time: one more than its share of the processors, because no
    crate has work for all of its jobs all the time."""
    return min(jobs, jobs // crates + 1)
