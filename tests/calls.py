#!/usr/bin/env python3
"""A test: docs/work/CALLS.md has every public call with the names of its clauses, and the pages of docs/library have the clauses.

    tests/calls.py [--write]

The calls are read from the sources of the crates whose names begin with mf_, except those that hold tests. A page of docs/library has
those of some crates between a line `<!-- calls of CRATE.. -->` and the next line `<!-- end of calls -->`. Each call stands there with its
signature and its clauses as they are in the source, and below all of them stand the lines that import the words of the clauses by way of
the crate wonchhip, which must pass on each of them. With --write the pages are written anew. Without it they are compared with what would
be written; the exit status is 1 where they differ, and the last line counts the calls.
"""

import argparse
import dataclasses
import difflib
import re
import sys
import textwrap
from collections.abc import Iterable, Iterator
from pathlib import Path

ROOT = Path(__file__).resolve().parent.parent
PAGE = ROOT / "docs/work/CALLS.md"
HEAD = """# Calls

Every public call of the libraries: what its doc comment says, its signature, and the names of the clauses of its contract. This page is
made from the sources (`tests/calls.py --write`), and the gate compares. [PROVED.md](PROVED.md) says what the contracts come to, and how
to read them.
"""
BEGIN = re.compile(r"<!-- calls of ([\w ]+) -->\n")
END = "<!-- end of calls -->\n"
CITING = """**To cite the words of these clauses** in a contract of your own, import them. A word such as `viewers.seen_list` is `seen_list`
in the file `Viewers`. Signs and words that are not here, such as `≡` and `IfOk`, are in `Rattle.std.specs.Prelude`.
"""
# How many columns a line of imports may have.
WIDTH = 132
NAME = r"[A-Za-z_]\w*"
EXPORT = re.compile(r"^pub use ((?:\w+::)*)(?:\{([^}]*)\}|(\w+));", re.M)
RENAMED = re.compile(r"^pub use (mf_\w+) as (\w+);", re.M)
PASSED = re.compile(r"^pub use (Rattle[\w.]*) as (\w+)$", re.M)
IMPL = re.compile(rf"^impl(?:<.*?>)? ({NAME})(?:<.*>)? \{{")
TRAIT = re.compile(rf"^pub trait ({NAME})")
CALL = re.compile(rf"^( *)(pub )?fn ({NAME})")
CLAUSE = re.compile(r"^ *(requires|ensures)(?: (\w+))? \{")
IMPORT = re.compile(r"^ *ghost use (Rattle[\w.]*)(?:\.\{(.*)\}| as (\w+));$")
WORD = re.compile(r"[A-Za-z_][\w-]*(?:\.[A-Za-z_][\w-]*)?")


@dataclasses.dataclass(frozen=True)
class Call:
    """A public call: its name with that of its type, its doc comment, its lines as they stand, how many of these are the signature, the
    names of its clauses, and the modules and names of the words in them."""

    name: str
    text: str
    lines: list[str]
    signature_length: int
    requires: list[str]
    ensures: list[str]
    words: set[tuple[str, str]]

    def signature(self) -> str:
        """The signature in one line."""
        signature = " ".join(line.strip() for line in self.lines[: self.signature_length])
        return re.sub(r"\( ", "(", re.sub(r",? \)", ")", signature))

    def row(self) -> Iterator[str]:
        """The call as Markdown, with the names of its clauses."""
        yield from (f"**`{self.name}`** {self.text}", "", "```text", self.signature())
        yield from (f"{kind} {', '.join(names)}" for kind, names in (("requires", self.requires), ("ensures", self.ensures)) if names)
        yield from ("```", "")

    def entry(self) -> list[str]:
        """The call with its clauses."""
        return [re.sub(r"^(pub )?fn \w+", f"fn {self.name}", self.lines[0]), *self.lines[1:]]


def crates() -> list[str]:
    """The crates with public calls, in the order of crates.txt."""
    text = (ROOT / "crates.txt").read_text(encoding="utf-8")
    names = re.findall(r"^(mf_\w+):", text, re.M)
    return [name for name in names if name != "mf_testing" and not name.endswith("_tests")]


def exported(library: str) -> set[str]:
    """The names that a library passes on, of its own modules."""
    found: set[str] = set()
    for path, several, single in EXPORT.findall(library):
        if not path.startswith("mf_"):
            found |= {name.strip() for name in (several or single).split(",") if name.strip()}
    return found


def imports(line: str) -> Iterator[tuple[str, tuple[str, str]]]:
    """Each name that a line imports for clauses, with its module and the name there, which is nothing where it is a module itself."""
    found = IMPORT.match(line)
    if not found:
        return
    if found[3]:
        yield found[3], (found[1], "")
    for word in (found[2] or "").split(", "):
        name, _, renamed = word.partition(" as ")
        yield renamed or name, (found[1], name)


def cited(clauses: Iterable[str], known: dict[str, tuple[str, str]]) -> set[tuple[str, str]]:
    """The modules and names of the words in these lines of clauses."""
    found = set()
    for line in clauses:
        for word in WORD.findall(CLAUSE.sub("", line)):
            first, _, second = word.partition(".")
            module, name = known.get(first, ("", ""))
            if name or (module and second):
                found.add((module, name or second))
    return found


def calls_of(lines: list[str], public: set[str], is_laws: bool) -> Iterator[Call]:
    """The public calls of a file."""
    owner, is_trait = "", False
    known = {name: origin for line in lines if not line.startswith(" ") for name, origin in imports(line)}
    within: dict[str, tuple[str, str]] = {}
    for number, line in enumerate(lines):
        opened = IMPL.match(line) or TRAIT.match(line)
        if opened:
            owner, is_trait, within = opened[1], line.startswith("pub trait"), {}
        elif line == "}":
            owner, is_trait, within = "", False, {}
        within.update(imports(line))
        found = CALL.match(line)
        if not found or not (found[2] or is_trait):
            continue
        if not (owner in public if found[1] else is_laws or found[3] in public):
            continue
        name = f"{owner}::{found[3]}" if found[1] else f"laws::{found[3]}" if is_laws else found[3]
        yield call_at(lines, number, name, {**known, **within})


def call_at(lines: list[str], number: int, name: str, known: dict[str, tuple[str, str]]) -> Call:
    """The call whose signature begins at this line."""
    start = number
    while lines[start - 1].strip().startswith(("//", "#[")):
        start -= 1
    text = " ".join(line.strip()[3:].strip() for line in lines[start:number] if line.strip().startswith("///"))
    text = re.sub(r"\[(`[^`]*`)\]\([\w:]*\)", r"\1", text)
    end = number
    while not CLAUSE.match(lines[end]) and not lines[end].rstrip().endswith(("{", "{}", ";")):
        end += 1
    is_clause = bool(CLAUSE.match(lines[end]))
    body = end + (not is_clause)
    clauses, names = [], {"requires": [], "ensures": []}
    while is_clause and lines[end].strip() not in ("{", "{}", ";"):
        clause = CLAUSE.match(lines[end])
        if clause:
            names[clause[1]].append(clause[2] or "one clause without a name")
        clauses.append(lines[end].removesuffix(";"))
        end += 1
        # So ends the contract of a call of a trait.
        if lines[end - 1].endswith(";"):
            break
    signature = [re.sub(r" ?(\{\}|\{|;)$", "", line) for line in lines[number:body]]
    kept = textwrap.dedent("\n".join([*signature, *clauses])).split("\n")
    return Call(name, text, kept, len(signature), names["requires"], names["ensures"], cited(clauses, known))


def calls_in(crate: str) -> list[Call]:
    """The public calls of a crate, its laws last."""
    folder = ROOT / "crates" / crate / "src"
    public = exported((folder / "lib.rt").read_text(encoding="utf-8"))
    calls: list[Call] = []
    for path in sorted(folder.rglob("*.rt"), key=lambda path: (path.name == "laws.rt", path)):
        calls += calls_of(path.read_text(encoding="utf-8").split("\n"), public, path.name == "laws.rt")
    return calls


def passed_on() -> tuple[dict[str, str], dict[str, str]]:
    """What the crate wonchhip calls the crates, and the modules of their definitions."""
    folder = ROOT / "crates/wonchhip"
    names = RENAMED.findall((folder / "src/lib.rt").read_text(encoding="utf-8"))
    modules = PASSED.findall((folder / "specs/Lib.antt").read_text(encoding="utf-8"))
    return dict(names), {module: f"Rattle.wonchhip.specs.{name}" for module, name in modules}


def import_lines(calls: list[Call], modules: dict[str, str]) -> Iterator[str]:
    """The lines that import the words of clauses by way of wonchhip."""
    words: dict[str, set[str]] = {}
    for call in calls:
        for module, word in call.words:
            if module.startswith("Rattle.std."):
                continue
            folder = next((folder for folder in modules if f"{module}.".startswith(f"{folder}.")), None)
            if folder is None:
                sys.exit(f"crates/wonchhip/specs/Lib.antt does not pass on {module}, which a clause of {call.name} cites")
            words.setdefault(modules[folder] + module.removeprefix(folder), set()).add(word)
    for module in sorted(words):
        listed = textwrap.wrap(", ".join(sorted(words[module])), WIDTH - len(f"ghost use {module}.{{}};"), break_on_hyphens=False)
        yield from (f"ghost use {module}.{{{part.rstrip(',')}}};" for part in listed)


def section(listed: list[str]) -> str:
    """The part of a page about these crates."""
    names, modules = passed_on()
    lines, calls = [], []
    for crate in listed:
        of_crate = calls_in(crate)
        entries = [line for call in of_crate for line in call.entry()]
        lines += [f"### `wonchhip::{names[crate]}`", "", "```text", *entries, "```", ""]
        calls += of_crate
    return "\n".join([*lines, CITING, "```text", *import_lines(calls, modules), "```", ""])


def with_sections(text: str) -> str:
    """The text of a page with the parts that are made of the sources."""
    found = BEGIN.search(text)
    if not found:
        return text
    before, rest = text[: found.end()], text[found.end() :]
    if END not in rest:
        sys.exit(f"a page has no line {END.strip()} after {found[0].strip()}")
    after = rest[rest.index(END) :]
    return f"{before}\n{section(found[1].split())}\n{END}{with_sections(after.removeprefix(END))}"


def list_of_calls() -> tuple[str, int]:
    """The page of all calls, and the number of them."""
    lines, count = [HEAD], 0
    for crate in crates():
        calls = calls_in(crate)
        if calls:
            lines += [f"## `{crate}`", "", *(line for call in calls for line in call.row())]
        count += len(calls)
    return "\n".join(lines).rstrip() + "\n", count


def main() -> int:
    parser = argparse.ArgumentParser(description=__doc__, formatter_class=argparse.RawDescriptionHelpFormatter)
    parser.add_argument("--write", action="store_true", help="write the pages anew")
    is_writing = parser.parse_args().write
    text, count = list_of_calls()
    wanted = {PAGE: text}
    for path in sorted((ROOT / "docs/library").glob("*.md")):
        wanted[path] = with_sections(path.read_text(encoding="utf-8"))
    failed = 0
    for path, text in wanted.items():
        old = path.read_text(encoding="utf-8")
        if is_writing and old != text:
            path.write_text(text, encoding="utf-8")
        elif old != text:
            name = path.relative_to(ROOT)
            print(*difflib.unified_diff(old.split("\n"), text.split("\n"), str(name), "the sources", lineterm="", n=0), sep="\n")
            print(f"{name} is to be written anew: tests/calls.py --write")
            failed += 1
    print(f"{count if not failed else 0} passed, {failed} failed")
    return int(failed > 0)


if __name__ == "__main__":
    sys.exit(main())
