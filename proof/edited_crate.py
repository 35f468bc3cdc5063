"""A tool of proof: proves a copy of a crate with edits, and reads what the prover says. (`wrong_bodies.py` uses it.)"""

import contextlib
import re
import shutil
import subprocess
from collections.abc import Iterable, Iterator
from pathlib import Path

from edits import Function, texts_of
from prover import ROOT, SOURCES, Prover

# What the prover says about a function, and its last line.
SAID = re.compile(r"^fn (\S+): (.*)$", re.M)
VERDICT = re.compile(r"^(?:only|logic)=", re.M)
# A goal that is not proved: what the prover says of it, and its name. It may say that it found values at which the goal is false.
OPEN = re.compile(r"^note: src/\S+: (.*? \(`(\S+)`\).*)$", re.M)
FALSE = "allow values at which this goal is false"
# The problem of a check whose control is not proved.
NO_CONTROL = "the control is not proved"
# What an error says when a file of proofs/ uses a name that the changed body no longer has, or a declaration that does.
GONE = re.compile(r"has no `|has no field|is not in scope|was not admitted|which was rejected, w(?:as|ere) not checked")


def owner_of(symbol: str) -> tuple[str, ...]:
    """The function that a symbol of the prover names, or that it is inside of, as the closure `a::fn::b::map` is inside of
    `a::b`. A method is given by its type with the trait, and its name; any other function by its full path."""
    path = symbol.split("::")[1:]
    if "fn" in path:
        at = path.index("fn")
        inner = path[at + 1 :]
        path = [*path[:at], *inner[: 2 if inner[0][0].isupper() else 1]]
    return tuple(path[-2:] if len(path) > 1 and path[-2][0].isupper() else path)


class Room:
    """A copy of a crate, which is proved again and again, each time starting from what its first proof has kept."""

    def __init__(self, crate: str, folder: Path) -> None:
        self.texts = texts_of(ROOT / "crates" / crate)
        self.folder = folder / crate
        self.words = [*Prover().words("check", crate), "--jobs", "1", "--incremental", "out"]
        self.work, self.kept = self.folder / "out", folder / "kept"
        self.symbols: dict[tuple[str, ...], list[str]] = {}
        self.checks = 0
        for part in SOURCES:
            if (ROOT / "crates" / crate / part).is_dir():
                shutil.copytree(ROOT / "crates" / crate / part, self.folder / part)

    def prove(self) -> str:
        """Proves the crate as it is, keeps that work, and remembers the symbols of its functions."""
        said = self.check(self.texts, [])
        for symbol, _ in SAID.findall(said):
            self.symbols.setdefault(owner_of(symbol), []).append(symbol)
        if self.work.is_dir():
            self.work.rename(self.kept)
        return said

    def check(self, texts: dict[str, str], only: list[str]) -> str:
        """What a check says about the crate with these texts, or about some functions of it."""
        self.checks += 1
        for file, text in texts.items():
            (self.folder / file).write_text(text, encoding="utf-8")
        if self.kept.is_dir():
            shutil.rmtree(self.work, ignore_errors=True)
            shutil.copytree(self.kept, self.work)
        words = [*self.words, *(word for symbol in only for word in ("--only", symbol))]
        how = {"stdin": subprocess.DEVNULL, "stdout": subprocess.PIPE, "stderr": subprocess.STDOUT}
        said = subprocess.run(words, cwd=self.folder, check=False, encoding="utf-8", errors="replace", **how).stdout
        # Where a check takes long, it says some things twice: first as news, without the notes that belong to them.
        return "".join(line for line in said.splitlines(keepends=True) if not line.startswith("so far: "))

    @contextlib.contextmanager
    def without_answers(self, symbols: Iterable[str]) -> Iterator[None]:
        """Takes the answers of these functions away for a while. Their invariants stay, since a loop has none without them."""
        files = [self.folder / folder_of(symbol) / "Answers.antt" for symbol in symbols]
        texts = {file: file.read_text(encoding="utf-8") for file in files if file.is_file()}
        for file in texts:
            file.unlink()
        yield
        for file, text in texts.items():
            file.write_text(text, encoding="utf-8")

    def symbols_of(self, functions: set[Function]) -> list[str]:
        """The symbols of these functions and of the closures in them."""
        return [symbol for function in sorted(functions) for symbol in self.symbols_in(function)]

    def symbols_in(self, function: Function) -> list[str]:
        if not function.holder:
            path = [it for it in function.module.split("::") if it not in ("lib", "main")]
            return self.symbols.get((*path, function.name), [])
        named = {key[0]: them for key, them in self.symbols.items() if len(key) == 2 and key[1] == function.name}
        # The block `impl Stopped<Infallible>` is called `Stopped+Infallible`, and `impl From<Stopped<A>> for B` is `BFromStoppedA`.
        near = [key for key in named if key[0].isupper() and (function.holder.startswith(key) or key.startswith(function.holder))]
        return named.get(function.holder) or (named[max(near, key=len)] if near else [])


def problem_of(said: str, control: list[str]) -> str:
    """Why a check says nothing about its batch, or an empty text."""
    errors = re.findall(r"^\S*error.*|^\S+:\d+:\d+: error.*", said, re.M)
    if not VERDICT.search(said):
        return f"it does not compile: {(errors or said.strip().splitlines()[-1:] or ['no word'])[0]}"
    unread = [error for error in errors if re.match(r"(\./)?(src|specs)/", error)]
    if unread:
        return f"the prover cannot read it: {unread[0]}"
    proved = {symbol for symbol, words in SAID.findall(said) if words.startswith("proved")}
    return "" if control and {*control} <= proved else NO_CONTROL


def folder_of(symbol: str) -> str:
    """The folder with the answers and invariants of a function."""
    return "/".join(["proofs", *symbol.split("::")[1:]])


def open_goals(symbol: str, said: str) -> dict[str, str]:
    """The goals of a function itself that are not proved, and what the prover says of each."""
    before, _, _ = said.partition(f"fn {symbol}: ")
    # The notes on a function come between the line of the function before it and its own line.
    return {name: words for words, name in OPEN.findall(before[before.rfind("\nfn ") + 1 :])}


def newly_open(symbol: str, right: str, wrong: str) -> list[str]:
    """The goals of a function that are open in the second check and not in the first one, or for which only the second one has found
    values at which they are false."""
    before, now = open_goals(symbol, right), open_goals(symbol, wrong)
    return [name for name, words in now.items() if name not in before or (FALSE in words and FALSE not in before[name])]


def own_reasons(symbol: str, said: str) -> tuple[list[str], list[str]]:
    """The reasons of a function itself for not being proved: its open goals, and the answers that do not fit. And the errors of
    its files that use names which are gone."""
    # An error may go on in further lines, which are indented.
    found = re.findall(rf"^\./({re.escape(folder_of(symbol))}/\w+\.antt:\S+ error: .*(?:\n  .*)*)", said, re.M)
    errors = [" ".join(error.split()) for error in found]
    gone = [error for error in errors if GONE.search(error)]
    return [*open_goals(symbol, said), *(error for error in errors if error not in gone)], gone
