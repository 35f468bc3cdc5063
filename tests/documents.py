#!/usr/bin/env python3
"""Checks the documents: their commands print what is shown, their quotations are exact, and their links lead somewhere.

    tests/documents.py [DOCUMENT..]
    tests/documents.py --read | --write | --self-test

The documents are README.md, those of bench/ and examples/, and all of docs/. Where some are named, these alone are checked. The
programs must have been built (`PROGRAMS`). With --read nothing is run, and no program is needed. With --write tables that quote
results are written anew. The first word after the three backquotes of a fenced block says what is checked:

    console               lines that begin with `$ ` are commands of bash, and the lines below each are all that it prints
    console status=N      likewise; the last command exits with status N, and every other command of a document with 0
    console needs=NAME    run only where the program NAME is on the path; a NAME with a dot is a file that kpsewhich finds
    console skip=REASON   not run, for a reason in words that are joined by hyphens
    mfp                   each line is a script, and is not refused
    mfp file=PATH         lines of this file that follow one another
    mfp save=NAME         a script, which is written to the file NAME for the commands below it; NAME may have a folder
    rust file=PATH        lines of this file that follow one another, indentation aside
    contract file=PATH    likewise; a line `..` means that lines are left out, but no head of a function
    text                  not checked
    text save=NAME        a text, which is written to the file NAME

In what a command prints, a line `..` means any number of lines, and two dots within a line mean any text. All commands of
a document run in order in one copy of the repository, each in a shell of its own and for at most 60 seconds.

A relative link must lead to a file of the repository, and to a heading of it where an anchor is named. Every document must be linked
from README.md or from one that is. Some documents must be short (`MAX_LINES`), and so must the cells of tables (`MAX_CELL`). In words:

- A word in backquotes that has a slash and ends like a source, or in a slash, must be a file or folder.
- One with `_` or with a capital inside must stand in some source, and `Type::call` in a source that names the type.
- "`a` and `b` of `call`" must be clauses of that call, if it is a function, and so must "(`a`, `b`)" in a paragraph that names calls.
- Only docs/user/LANGUAGE.md has the numbers of refusals, and only README.md and CONTRIBUTING.md have numbers of minutes, which are
  those of results/times.tsv. No placeholder may be left. Each decision has its date.
- A table below a line `<!-- results/NAME.tsv -->` quotes that file: each of its rows must agree with one of the file in all columns that
  both have.

Each fault is a line `FILE:LINE: what is wrong`. The last line counts the commands, quotations and links that passed.
With --self-test the checks are tried on small repositories with one fault each, which must be found.
"""

import collections
import contextlib
import dataclasses
import fnmatch
import functools
import io
import os
import pathlib
import re
import shutil
import signal
import subprocess
import sys
import tempfile
from collections.abc import Callable, Iterable, Iterator, Mapping

ROOT = pathlib.Path(__file__).resolve().parent.parent
PROGRAM = "crates/mfpic/out/mfpic"
PROGRAMS = (PROGRAM, "crates/mfview/out/mfview")
README, LANGUAGE, CONTRIBUTING, TIMES = "README.md", "docs/user/LANGUAGE.md", "docs/work/CONTRIBUTING.md", "results/times.tsv"
DECISIONS = "docs/DECISIONS.md"
# Made from the sources, and about names of the past: the names in these are not looked for.
CALLS, CHANGELOG = "docs/work/CALLS.md", "docs/work/CHANGELOG.md"
READMES = (README, "bench/README.md", "examples/README.md")
# Lines that documents may have, characters that a cell of a table may have, and seconds that a command may take.
MAX_LINES = {README: 150, DECISIONS: 300, "docs/work/PROVED.md": 300, CHANGELOG: 150, CONTRIBUTING: 330}
MAX_CELL, LIMIT = 150, 60
# The attributes that a block of each kind may have, and those of which it needs one.
ATTRIBUTES = {"console": {"needs", "skip", "status"}, "mfp": {"file", "save"}, "rust": {"file"}, "contract": {"file"}, "text": {"save"}}
QUOTES = {"rust", "contract"}
# Documents that were in docs/ itself before. One was in docs/work/.
OLD = ("ASSURANCE", "FONTS", "GF", "LANGUAGE", "LIVE", "MAP", "PICTURES")
# Names of the toolchain, and words for any name, which no source has.
OUTSIDE = {"publish_as", "rattle_alloc", "rattle_dealloc", "start_io", "start_lib", "mf_NAME", "mf_NAME_tests"}

FENCE = re.compile(r" *(`{3,})(.*)")
HEADING = re.compile(r"(#{1,6}) +(.*?)[ #]*")
LIST_ITEM = re.compile(r" *([-*+]|\d+\.) ")
CODE = re.compile(r"(?<!`)(`+)(?!`)((?:(?!\n\s*\n).)+?)(?<!`)\1(?!`)", re.DOTALL)
LINK = re.compile(r"\[[^\[\]]*\]\(\s*([^()\s]+)[^()]*\)|^ *\[[^\[\]]+\]: +(\S+)", re.MULTILINE)
# What may be left out of a line that a command prints: two dots, and no more.
GAP = re.compile(r"(?<!\.)\.\.(?!\.)")
REASON = re.compile(r"\w+(-\w+)*")
NAME = re.compile(r"[^/]*[A-Za-z*][^/]*(/.*)?")
SOURCE = (".rt", ".antt", ".py", ".sh", ".mfp", ".md", ".mf", ".edit", "/")
IN_A_CRATE = ("specs/", "src/", "proofs/", "must-fail/", "wrong/")
# Words of a path that mean any name.
ANY_NAME = re.compile(r"NAME|CRATE")
HEAD = re.compile(r"(pub(\(.*\))? )?fn ")
OLD_PATH = re.compile(rf"\bdocs/({'|'.join(OLD)}|work/DECISIONS)\.md")
REFUSAL_NUMBER = re.compile(r"`[A-Z][A-Za-z]+( [a-z])?`\s+\(\d+\)|\b[Rr]efusals?\s+\d+")
MINUTES = re.compile(r"(\d[\d.]*)\s+minutes?\b")
PLACEHOLDER = re.compile(r"@[A-Z][A-Z0-9_]*@")
RESULTS = re.compile(r"<!-- (results/\w+\.tsv) -->")
# What sources declare, read line by line: a type and what belongs to it, a function, a clause, a fact that a type keeps.
OWNER = re.compile(r"(?:pub(?:\(.*?\))? )?(?:impl(?:<.*?>)? (?:[\w:]+(?:<.*>)? for )?|trait |struct |enum )(\w+)")
FUNCTION = re.compile(r"\s*(?:pub(?:\(.*?\))? )?(?:const )?fn (\w+)")
CLAUSE = re.compile(r"\s*(?:requires|ensures) (\w+) \{")
GHOST = re.compile(r"\s*(?:pub )?ghost (\w+)\b")
HAS_WORDS = (".rt", ".antt", ".py", ".sh", ".mf", ".edit", ".right", ".cpp", ".rattle", ".html", ".txt")
# Names of the sources in documents: with an underscore or a capital inside, or of a type.
NAMED = re.compile(r"\w*[a-z0-9]_\w*|[A-Z]*[a-z]+[A-Z]\w*|[A-Z]\w*::\w+")
WORDS = r"`\w+`(?:(?:,\s+and\s+|,\s+|\s+and\s+)`\w+`)*"
TARGETS = r"`[\w:]+`(?:(?:,\s+and\s+|,\s+|\s+and\s+)(?:of\s+)?`[\w:]+`(?!\s+of\b))*"
CITED_OF = re.compile(rf"({WORDS})\s+of\s+({TARGETS})")
CITED = re.compile(rf"\(({WORDS})\)")
DATE = re.compile(r"\(\d{4}-\d\d-\d\d\)\s*$")
# Between paragraphs and items of lists.
APART = re.compile(r"\n\s*\n|\n(?=\s*(?:[-*]|\d+\.) )")

# What a check yields: the line it is about, and what is wrong there, which is nothing where it passes.
Finding = tuple[int, str]
FINE = ""


@dataclasses.dataclass(frozen=True)
class Block:
    """A fenced block: the line of its fence, what it says of itself, and its lines."""

    line: int
    info: str
    lines: list[str]

    def kind(self) -> str:
        return (self.info.split() or [""])[0]

    def attributes(self) -> list[tuple[str, str]]:
        return [(name, value) for name, _, value in (word.partition("=") for word in self.info.split()[1:])]

    def value(self, name: str) -> str | None:
        return dict(self.attributes()).get(name)


@dataclasses.dataclass(frozen=True)
class Document:
    """A document: its path from the root, its lines, its blocks, and its lines without those of the blocks."""

    path: str
    lines: list[str]
    blocks: list[Block]
    prose: list[str]
    # Faults of its blocks as such.
    faults: list[Finding]

    def text(self) -> str:
        return "\n".join(self.prose)

    def headings(self) -> list[tuple[int, int, str]]:
        """Line, level and text of each heading."""
        found = ((number, HEADING.fullmatch(line)) for number, line in enumerate(self.prose, 1))
        return [(number, len(heading[1]), heading[2]) for number, heading in found if heading]


@dataclasses.dataclass(frozen=True)
class Sources:
    """What the sources name: their words; the words of the files that declare each type; the clauses of each function, by its name, alone
    and with that of its type; and the facts that types keep."""

    words: set[str]
    of_type: dict[str, set[str]]
    clauses: dict[str, set[str]]
    ghosts: set[str]

    def take(self, text: str) -> None:
        """Takes in a source in Rattle."""
        owner = function = ""
        owners = set()
        for line in text.splitlines():
            if found := OWNER.match(line):
                owner = function = found[1]
                owners.add(owner)
            elif line == "}":
                owner = function = ""
            if found := FUNCTION.match(line):
                function = found[1]
                self.clauses[function] |= set()
                self.clauses[f"{owner}::{function}"] |= set()
            elif found := CLAUSE.match(line):
                self.clauses[function].add(found[1])
                self.clauses[f"{owner}::{function}"].add(found[1])
            elif found := GHOST.match(line):
                self.ghosts.add(found[1])
        for name in owners:
            self.of_type[name] |= set(re.findall(r"\w+", text))


@dataclasses.dataclass(frozen=True)
class Repository:
    """A folder with the files of a repository, and how many seconds a command may take."""

    root: pathlib.Path
    files: set[str]
    folders: set[str]
    limit: int = LIMIT
    # Whether the commands of the documents are run.
    runs: bool = True

    def read(self, path: str) -> str:
        return (self.root / path).read_text(encoding="utf-8")

    def has(self, path: str) -> bool:
        """Whether this is a file or folder of the repository. A `*` matches any name."""
        wanted = path.rstrip("/")
        if "*" not in wanted:
            return wanted in self.folders or (wanted in self.files and not path.endswith("/"))
        pattern = re.compile("[^/]*".join(map(re.escape, wanted.split("*"))))
        return any(map(pattern.fullmatch, self.folders if path.endswith("/") else self.files | self.folders))

    @functools.cached_property
    def sources(self) -> Sources:
        sources = Sources(set(OUTSIDE), collections.defaultdict(set), collections.defaultdict(set), set())
        for path in sorted(self.files):
            sources.words.update(re.split(r"[/.]", path))
            if path.endswith(HAS_WORDS):
                text = self.read(path)
                sources.words.update(re.findall(r"\w+", text))
                if path.endswith(".rt"):
                    sources.take(text)
        return sources

    def crates(self) -> list[str]:
        return sorted(folder.removeprefix("crates/") for folder in self.folders if re.fullmatch("crates/[^/]+", folder))

    def documents(self) -> list[str]:
        return sorted(path for path in self.files if path in READMES or fnmatch.fnmatch(path, "docs/*.md"))


def open_repository(root: pathlib.Path, limit: int = LIMIT, runs: bool = True) -> Repository:
    """The files that git knows or would add. Without git they are all files but those that are made."""
    if (root / ".git").exists():
        words = ["git", "-C", str(root), "ls-files", "-coz", "--exclude-standard"]
        listed = subprocess.run(words, capture_output=True, text=True, check=True).stdout.split("\0")
        files = {path for path in listed if path and (root / path).is_file()}
    else:
        paths = (path.relative_to(root) for path in root.rglob("*") if path.is_file())
        files = {path.as_posix() for path in paths if not {"out", "__pycache__", ".git"} & set(path.parts)}
    folders = {parent.as_posix() for path in files for parent in pathlib.PurePosixPath(path).parents}
    return Repository(root, files, folders, limit, runs)


# Reading a document.


def read_document(repository: Repository, path: str) -> Document:
    lines = repository.read(path).split("\n")
    blocks, prose, faults = [], list(lines), []
    number = 0
    while number < len(lines):
        fence = FENCE.fullmatch(lines[number])
        if not fence:
            number += 1
            continue
        end = number + 1
        while end < len(lines) and lines[end].strip() != fence[1]:
            end += 1
        indent = fence.start(1) * " "
        blocks.append(Block(number + 1, fence[2].strip(), [line.removeprefix(indent) for line in lines[number + 1 : end]]))
        if end == len(lines):
            faults.append((number + 1, "the block has no end"))
        prose[number : end + 1] = [""] * len(prose[number : end + 1])
        number = end + 1
    return Document(path, lines, blocks, prose, faults + list(indented_blocks(prose)))


def indented_blocks(prose: list[str]) -> Iterator[Finding]:
    """Lines that are indented like code, outside of lists."""
    in_list = False
    for number, line in enumerate(prose):
        if line.strip() and not line.startswith("  "):
            in_list = bool(LIST_ITEM.match(line))
        before = prose[number - 1] if number else ""
        if line.startswith("    ") and line.strip() and not before.strip() and not in_list:
            yield number + 1, "the block is indented and not fenced"


def line_of(text: str, place: int) -> int:
    return text.count("\n", 0, place) + 1


def code_spans(document: Document) -> list[tuple[int, str]]:
    """Line and text of what is in backquotes."""
    text = document.text()
    return [(line_of(text, span.start()), span[2]) for span in CODE.finditer(text)]


def links(document: Document) -> list[tuple[int, str]]:
    """Line and target of each link within the repository."""
    text = CODE.sub(lambda span: re.sub(r"[^\n]", "`", span[0]), document.text())
    found = [(line_of(text, link.start()), link[1] or link[2]) for link in LINK.finditer(text)]
    return [(line, target) for line, target in found if not re.match(r"[a-z]+:", target)]


def anchors(document: Document) -> set[str]:
    """The anchors of the headings."""
    found: collections.Counter[str] = collections.Counter()
    made = set()
    for _, _, heading in document.headings():
        words = re.sub(r"\[([^\[\]]*)\]\([^()]*\)", r"\1", heading)
        anchor = re.sub(r"[^\w\- ]", "", words.lower()).replace(" ", "-")
        made.add(f"{anchor}-{found[anchor]}" if found[anchor] else anchor)
        found[anchor] += 1
    return made


def enclosing(document: Document, line: int) -> list[str]:
    """The heading above a line, and those of the sections that have it."""
    around: list[tuple[int, str]] = []
    for number, level, text in document.headings():
        if number <= line:
            around = [(other, heading) for other, heading in around if other < level] + [(level, text)]
    return [heading for _, heading in around]


# Links, names of files, and words.


def target_of(document: Document, target: str) -> tuple[str, str]:
    """The path from the root that a link leads to, and its anchor."""
    path, _, anchor = target.partition("#")
    if not path:
        return document.path, anchor
    folder = pathlib.PurePosixPath(document.path).parent
    return os.path.normpath(folder / path) + "/" * path.endswith("/"), anchor


def check_links(repository: Repository, document: Document) -> Iterator[Finding]:
    for line, target in links(document):
        path, anchor = target_of(document, target)
        if not repository.has(path):
            yield line, f"the link {target} leads to no file"
        elif anchor and (not path.endswith(".md") or anchor not in anchors(read_document(repository, path))):
            yield line, f"the link {target} leads to no heading"
        else:
            yield line, FINE


def named_crates(repository: Repository, document: Document, line: int) -> list[str]:
    """The crates in which a path such as src/lib.rt is looked for: those that headings or the document's name say, else all."""
    crates = repository.crates()
    said = " ".join([*enclosing(document, line), "mf_" + pathlib.PurePosixPath(document.path).stem.lower()])
    return [crate for crate in crates if re.search(rf"\b{crate}\b", said)] or crates


def is_named_well(repository: Repository, document: Document, line: int, word: str) -> bool:
    path = ANY_NAME.sub("*", word)
    places = [path, f"crates/{path}"]
    if path.startswith(IN_A_CRATE):
        places += [f"crates/{crate}/{path}" for crate in named_crates(repository, document, line)]
    return any(map(repository.has, places))


def check_names(repository: Repository, document: Document) -> Iterator[Finding]:
    """Words in backquotes that name files. Folders named out are made, so what is in them is not looked for, and so are saved files."""
    saved = {block.value("save") for block in document.blocks}
    for line, span in code_spans(document):
        for word in (word.strip(",;:()") for word in span.split()):
            is_name = "/" in word and word.endswith(SOURCE) and NAME.fullmatch(word) and "://" not in word
            if is_name and word not in saved and "out" not in word.split("/") and not is_named_well(repository, document, line, word):
                yield line, f"{word} is no file or folder of the repository"


def check_code(repository: Repository, document: Document) -> Iterator[Finding]:
    """Words in backquotes that stand in no source. What else a span says, as the words of a command, is not looked at."""
    sources = repository.sources
    for line, span in code_spans(document):
        word = span.removesuffix("()")
        if not NAMED.fullmatch(word):
            continue
        owner, _, name = word.rpartition("::")
        known = sources.of_type[owner] if owner in sources.of_type else sources.words
        yield line, FINE if name in known else f"{word} is named in no source"


def check_clauses(repository: Repository, document: Document) -> Iterator[Finding]:
    """Clauses of functions that are named, and clauses in parentheses, of the functions that their paragraph names."""
    clauses, ghosts = repository.sources.clauses, repository.sources.ghosts
    known = set().union(*clauses.values())
    text, begin = document.text(), 0
    for paragraph in APART.split(text):
        begin = text.index(paragraph, begin)
        called = [name for name in re.findall(r"`([\w:]+)`", paragraph) if clauses.get(name)]
        cited = [(found, [it for it in re.findall(r"[\w:]+", found[2]) if it in clauses]) for found in CITED_OF.finditer(paragraph)]
        cited += [(found, called) for found in CITED.finditer(paragraph)]
        for found, functions in cited:
            names = re.findall(r"`(\w+)`", found[1])
            if found.re is CITED:
                names = [name for name in names if name in known and name not in clauses and name not in ghosts]
            having = set().union(*(clauses[name] for name in functions))
            for name in names if functions else ():
                line = line_of(text, begin + found.start())
                yield line, FINE if name in having else f"{name} is no clause of {', '.join(sorted(set(functions)))}"


def check_cells(repository: Repository, document: Document) -> Iterator[Finding]:
    """Cells of tables, without what their links lead to."""
    for number, line in enumerate(document.prose, 1):
        if line.startswith("|") and document.path != CALLS:
            longest = max(map(len, cells_of(re.sub(r"\]\([^()]*\)", "]", line))))
            if longest > MAX_CELL:
                yield number, f"a cell has {longest} characters, and may have {MAX_CELL}"


def check_words(repository: Repository, document: Document) -> Iterator[Finding]:
    """Numbers of refusals outside of their table, and placeholders."""
    text = document.text()
    for found in REFUSAL_NUMBER.finditer(text) if document.path != LANGUAGE else ():
        number = " ".join(found[0].split())
        yield line_of(text, found.start()), f"only {LANGUAGE} has the numbers of refusals, and not: {number}"
    for number, line in enumerate(document.lines, 1):
        for found in PLACEHOLDER.finditer(line):
            yield number, f"the placeholder {found[0]} is left"


def check_dates(repository: Repository, document: Document) -> Iterator[Finding]:
    """The date at the end of each decision."""
    text, begin = document.text(), 0
    for paragraph in APART.split(text) if document.path == DECISIONS else ():
        begin = text.index(paragraph, begin)
        if paragraph.startswith("- "):
            yield line_of(text, begin), FINE if DATE.search(paragraph) else "the decision has no date"


def check_minutes(repository: Repository, document: Document) -> Iterator[Finding]:
    """Numbers of minutes: each is one that was measured, in whole minutes, and they stand in two documents only."""
    rows = repository.read(TIMES).splitlines()[1:] if TIMES in repository.files else []
    measured = {str(round(float(row.split("\t")[2]))) for row in rows}
    text = document.text()
    for found in MINUTES.finditer(text):
        line = line_of(text, found.start())
        if document.path not in (README, CONTRIBUTING):
            yield line, f"only {README} and {CONTRIBUTING} have numbers of minutes"
        else:
            yield line, FINE if found[1] in measured else f"{TIMES} has no {found[1]} minutes"


# Tables of results.


def cells_of(line: str) -> list[str]:
    return [cell.strip() for cell in line.strip().strip("|").split("|")]


def value_of(cell: str) -> str:
    """What a cell says, without backquotes, links and the commas in numbers."""
    return re.sub(r"`|\[|\]\([^()]*\)|(?<=\d),(?=\d{3})", "", cell)


def tables_of(document: Document) -> Iterator[tuple[str, int, list[str], list[list[str]]]]:
    """The tables that quote results: the file, the line of the first row, the columns, and the cells of the rows."""
    for number, line in enumerate(document.prose):
        if marker := RESULTS.fullmatch(line):
            end = number + 1
            while end < len(document.prose) and document.prose[end].startswith("|"):
                end += 1
            head, _, *rows = [cells_of(row) for row in document.prose[number + 1 : end]] or [[], []]
            yield marker[1], number + 4, head, rows


def results_of(repository: Repository, path: str) -> list[dict[str, str]]:
    """The rows of a file of results."""
    head, *rows = repository.read(path).splitlines() if path in repository.files else [""]
    return [dict(zip(head.split("\t"), row.split("\t"))) for row in rows]


def check_tables(repository: Repository, document: Document) -> Iterator[Finding]:
    for path, first, head, rows in tables_of(document):
        results = results_of(repository, path)
        if not results or not rows or head[0] not in results[0]:
            yield first - 3, f"{path} has no such table"
            continue
        shared = [column for column in head if column in results[0]]
        known = {tuple(value_of(result[column]) for column in shared) for result in results}
        for number, row in enumerate(rows, first):
            said = dict(zip(head, map(value_of, row)))
            yield number, FINE if tuple(said.get(column) for column in shared) in known else f"{path} has no such row"


def write_tables(repository: Repository, document: Document) -> None:
    """Writes what has changed in the results into the tables that quote them, where one row of results has the first cell."""
    lines = list(document.lines)
    for path, first, head, rows in tables_of(document):
        results = results_of(repository, path)
        for number, row in enumerate(rows, first - 1):
            fitting = [result for result in results if value_of(result.get(head[0], "")) == value_of(row[0])]
            if len(fitting) == 1:
                cells = [fitting[0].get(column, cell) for column, cell in zip(head, row)]
                cells = [old if value_of(new) == value_of(old) else new for new, old in zip(cells, row)]
                lines[number] = f"| {' | '.join(cells)} |"
    (repository.root / document.path).write_text("\n".join(lines), encoding="utf-8")


# Quotations.


def place_of(wanted: list[str], lines: list[str], start: int = 0) -> Iterator[int]:
    """Where these lines follow one another in others, from a line on."""
    for place in range(start, len(lines) - len(wanted) + 1):
        if lines[place : place + len(wanted)] == wanted:
            yield place


def parts_of(lines: list[str]) -> list[list[str]]:
    """The lines between those that are left out."""
    parts: list[list[str]] = [[]]
    for line in lines:
        if line == "..":
            parts.append([])
        else:
            parts[-1].append(line)
    return [part for part in parts if part]


def are_quoted(parts: list[list[str]], lines: list[str], end: int | None = None) -> bool:
    """Whether the parts are in these lines, in order. No head of a function is passed over but to another one."""
    if not parts:
        return True
    for place in place_of(parts[0], lines, end or 0):
        if end is not None and not HEAD.match(parts[0][0]) and any(map(HEAD.match, lines[end:place])):
            return False
        if are_quoted(parts[1:], lines, place + len(parts[0])):
            return True
    return False


def check_quotation(repository: Repository, block: Block) -> Finding:
    name = block.value("file")
    path = next((path for path in (name, f"crates/{name}") if path in repository.files), None)
    if path is None:
        return block.line, f"{name} is no file of the repository"
    quoted, lines = block.lines, repository.read(path).splitlines()
    if block.kind() != "mfp":
        quoted, lines = [line.strip() for line in quoted], [line.strip() for line in lines]
    parts = parts_of(quoted) if block.kind() == "contract" else [quoted]
    if any(quoted) and are_quoted(parts, lines):
        return block.line, FINE
    known = {*lines, *([".."] if block.kind() == "contract" else [])}
    absent = next((number for number, line in enumerate(quoted, 1) if line not in known), 0)
    if absent:
        return block.line + absent, f"{path} has no such line"
    return block.line, f"{path} has these lines, but not in this order and next to each other"


def check_script(repository: Repository, block: Block) -> Iterator[Finding]:
    """Each line of a block is not refused."""
    for number, line in enumerate(block.lines, block.line + 1):
        words = [str(repository.root / PROGRAM)]
        ran = subprocess.run(words, input=line, capture_output=True, text=True, check=False, timeout=repository.limit)
        printed = ran.stdout + ran.stderr
        if ran.returncode != 0 or "refused" in printed:
            yield number, f"the program prints: {' '.join(printed.split())}"


# Commands.


@dataclasses.dataclass(frozen=True)
class Command:
    """A command with its line, and what it prints."""

    line: int
    text: str
    expected: list[str]
    # The line of the first line that it prints.
    below: int


class Sandbox:
    """A copy of the repository in which the commands of a document run. It is made when the first of them does."""

    def __init__(self, repository: Repository, folder: pathlib.Path) -> None:
        self.repository, self.folder = repository, folder / "repository"

    def place(self) -> pathlib.Path:
        if not self.folder.exists():
            for path in sorted({*self.repository.folders, *(str(pathlib.PurePosixPath(it).parent) for it in PROGRAMS)}):
                (self.folder / path).mkdir(parents=True, exist_ok=True)
            for path in sorted(self.repository.files):
                shutil.copy(self.repository.root / path, self.folder / path, follow_symlinks=False)
            # The programs are the newest files, so `mfpic` and `mfview` do not build them.
            for program in PROGRAMS:
                shutil.copy(self.repository.root / program, self.folder / program)
                os.utime(self.folder / program)
        return self.folder

    def save(self, name: str, lines: list[str]) -> None:
        (self.place() / name).parent.mkdir(parents=True, exist_ok=True)
        (self.place() / name).write_text("".join(f"{line}\n" for line in lines), encoding="utf-8")

    def run(self, command: str) -> tuple[list[str], int] | None:
        """The lines that a command prints to both outputs, and its exit status, or none where it takes too long."""
        started = subprocess.Popen(
            ["bash", "-c", command],
            cwd=self.place(),
            env={**os.environ, "LC_ALL": "C.UTF-8"},
            stdin=subprocess.DEVNULL,
            stdout=subprocess.PIPE,
            stderr=subprocess.STDOUT,
            start_new_session=True,
        )
        try:
            printed = started.communicate(timeout=self.repository.limit)[0]
        except subprocess.TimeoutExpired:
            os.killpg(started.pid, signal.SIGKILL)
            started.communicate()
            return None
        lines = printed.decode(errors="replace").split("\n")
        return lines[:-1] if lines[-1] == "" else lines, started.returncode


def commands_of(block: Block) -> Iterator[Command]:
    """The commands of a block. One whose line ends in a backslash goes on in the next line."""
    number = 0
    while number < len(block.lines):
        start, text = number, block.lines[number].removeprefix("$ ")
        while text.endswith("\\") and number + 1 < len(block.lines):
            number += 1
            text += "\n" + block.lines[number].removeprefix("> ")
        number += 1
        below = number
        while number < len(block.lines) and not block.lines[number].startswith("$ "):
            number += 1
        yield Command(block.line + 1 + start, text, block.lines[below:number], block.line + 1 + below)


def compare(command: Command, printed: list[str]) -> Finding:
    """Compares what a command prints with what is shown, of which each line may fit in several places."""
    places = {0}
    for number, line in enumerate(command.expected):
        if line == "..":
            places = set(range(min(places), len(printed) + 1))
            continue
        pattern = re.compile(".*".join(map(re.escape, GAP.split(line))))
        fitting = {place + 1 for place in places if place < len(printed) and pattern.fullmatch(printed[place])}
        if not fitting:
            return command.below + number, f"the command prints {lines_at(printed, places)} here"
        places = fitting
    if len(printed) not in places:
        return command.line, f"the command also prints {printed[max(places)]!r} below what is shown"
    return command.line, FINE


def lines_at(printed: list[str], places: set[int]) -> str:
    """What is printed in these places."""
    if len(places) > 1:
        return "no such line"
    return repr(printed[min(places)]) if min(places) < len(printed) else "nothing more"


def missing(names: Iterable[str]) -> str | None:
    """The first of these programs, or files of TeX, that is not installed."""
    return next((name for name in names if not (is_found_by_tex(name) if "." in name else shutil.which(name))), None)


def is_found_by_tex(name: str) -> bool:
    finder = shutil.which("kpsewhich")
    return finder is not None and subprocess.run([finder, name], capture_output=True, check=False).returncode == 0


def check_commands(sandbox: Sandbox, document: Document, block: Block) -> Iterator[Finding]:
    place = f"{document.path}:{block.line}"
    if reason := block.value("skip"):
        print(f"{place}: not run: {reason}")
        return
    if absent := missing(value for name, value in block.attributes() if name == "needs"):
        print(f"{place}: not run: {absent} is not installed")
        return
    if not block.lines or not block.lines[0].startswith("$ "):
        yield block.line, "the block does not begin with a command"
        return
    commands = list(commands_of(block))
    for command in commands:
        ran, status = sandbox.run(command.text), int(block.value("status") or 0) if command is commands[-1] else 0
        if ran is None:
            yield command.line, f"the command takes more than {sandbox.repository.limit} seconds"
        elif ran[1] != status:
            yield command.line, f"the command exits with status {ran[1]}, and not {status}; it prints {ran[0][-1:]}"
        else:
            yield compare(command, ran[0])


# Blocks and documents.


def wrong_info(block: Block) -> str:
    """What is wrong with what a block says of itself, if anything is."""
    kind, attributes = block.kind(), block.attributes()
    if kind not in ATTRIBUTES:
        return f"the block says {block.info or 'nothing'}, which is not known"
    for name, value in attributes:
        if name not in ATTRIBUTES[kind] or not value:
            return f"the block says {name}={value}, which is not known of {kind}"
    names = [name for name, _ in attributes]
    if len(names) > 1 and set(names) - {"needs", "status"} or names.count("status") > 1:
        return f"the block says too much: {block.info}"
    if kind in QUOTES and not names:
        return f"the block does not say of which file it is: {block.info}"
    if not REASON.fullmatch(block.value("skip") or "none"):
        return f"the reason is not in words that are joined by hyphens: {block.info}"
    if not (block.value("status") or "0").isdecimal():
        return f"the status is no number: {block.info}"
    if {"", ".."} & set((block.value("save") or "-").split("/")):
        return f"a file is saved in the repository: {block.info}"
    return FINE


def check_block(sandbox: Sandbox, document: Document, block: Block) -> Iterator[Finding]:
    wrong = wrong_info(block)
    if wrong:
        yield block.line, wrong
    elif name := block.value("save"):
        sandbox.save(name, block.lines)
    elif block.value("file"):
        yield check_quotation(sandbox.repository, block)
    elif block.kind() == "console":
        yield from check_commands(sandbox, document, block)
    elif block.kind() == "mfp":
        refused = list(check_script(sandbox.repository, block))
        yield from refused or [(block.line, FINE)]


def check_document(repository: Repository, document: Document) -> Iterator[Finding]:
    yield from document.faults
    with tempfile.TemporaryDirectory() as folder:
        sandbox = Sandbox(repository, pathlib.Path(folder))
        for block in document.blocks:
            if repository.runs or block.value("file"):
                yield from check_block(sandbox, document, block)
    checks = [check_links, check_names, check_cells, check_words, check_dates, check_minutes, check_tables]
    if document.path not in (CALLS, CHANGELOG):
        checks += [check_code, check_clauses]
    for check in checks:
        yield from check(repository, document)


# The repository.


def lost_documents(repository: Repository) -> list[str]:
    """The documents to which no links lead from README.md."""
    left, found = set(repository.documents()) - {README}, [README]
    while found:
        document = read_document(repository, found.pop())
        reached = {target_of(document, target)[0] for _, target in links(document)} & left
        left -= reached
        found += sorted(reached)
    return sorted(left)


def old_paths(repository: Repository) -> Iterator[tuple[str, Finding]]:
    for path in sorted(repository.files):
        try:
            text = repository.read(path)
        except UnicodeDecodeError:
            continue
        for found in OLD_PATH.finditer(text):
            yield path, (line_of(text, found.start()), f"{found[0]} is where the document was before")


def check_repository(repository: Repository) -> Iterator[tuple[str, Finding]]:
    """What is wrong with the documents taken together, each with its file."""
    if README not in repository.files:
        yield README, (1, "the file is missing")
        return
    for path, most in MAX_LINES.items():
        count = len(repository.read(path).splitlines()) if path in repository.files else 0
        if count > most:
            yield path, (count, f"the file has more than {most} lines")
    for path in lost_documents(repository):
        yield path, (1, "no link leads here from README.md, nor from a document that it leads to")
    yield from old_paths(repository)


def findings(repository: Repository, named: list[str]) -> Iterator[tuple[str, Finding]]:
    """All that is found, each with its file: of the documents that are named, or else of all and of the repository."""
    for path in named or repository.documents():
        for finding in check_document(repository, read_document(repository, path)):
            yield path, finding
    if not named:
        yield from check_repository(repository)


# The self-test.

KIND = "file=mf_kind/src/lib.rt"
# A repository without a fault. The program refuses lines with an x.
SCRIPT = "a := nullpicture\n% second\n\nshow a\n"
SOURCE_FILE = """impl Kind {
    /// One.
    pub fn one(&self) -> u8
        ensures first { result ≡ 1 }
        ensures second { result ≢ 2 }
    {
        1
    }

    fn two() -> u8
        ensures third { result ≡ 2 }
    {
        2
    }
}
"""
PRETENDED = """#!/bin/bash
while read -r line || [ -n "$line" ]; do
    [[ $line != *x* ]] || echo "refused Syntax 1"
done
"""
SOUND = {
    "README.md": "# Title\n\n[A document](docs/A.md), [speed](bench/README.md#how-it-is-measured).\n",
    "docs/A.md": "# A\n\nSee [B](user/B.md).\n",
    "docs/user/B.md": "# B\n\n## `mf_kind`: one\n\n## Twice\n\n## Twice\n",
    "bench/README.md": "# Speed\n\n## How *it* is measured\n",
    "results/times.tsv": "run\tpart\tminutes\nbuild\twhole\t12.6\n",
    "examples/a.mfp": SCRIPT,
    "crates/mf_kind/src/lib.rt": SOURCE_FILE,
    "crates/mf_other/src/only.rt": "",
    "mfpic": "#!/bin/bash\nexec crates/mfpic/out/mfpic\n",
    **dict.fromkeys(PROGRAMS, PRETENDED),
}


# The head of a table of results, with a column of its own.
QUOTES_TIMES = "<!-- results/times.tsv -->\n| run | minutes | processors |\n|---|---|---|\n"


def block_of(info: str, *lines: str) -> str:
    return "\n".join([f"```{info}", *lines, "```", ""])


CLAUSES = ("ensures first { result ≡ 1 }", "ensures second { result ≢ 2 }", "ensures third { result ≡ 2 }")
ONE, TWO = "pub fn one(&self) -> u8", "fn two() -> u8"
# What may stand at the end of README.md, and how many commands, quotations and links it has.
RIGHT = {
    "a command": (1, block_of("console", "$ echo a", "a")),
    "both outputs": (1, block_of("console", "$ echo a; echo b >&2", "a", "b")),
    "lines left out": (2, block_of("console", "$ seq 5", "1", "..", "4", "5", "$ seq 3", "..")),
    "text left out": (1, block_of("console", "$ echo abc; echo 'a....b'", "a..c", "a....b")),
    "a file of another command": (2, block_of("console", "$ echo a > new") + block_of("console", "$ cat new", "a")),
    "a command of two lines": (1, block_of("console", "$ echo a \\", "    b", "a b")),
    "the program": (1, block_of("console", "$ ./mfpic < examples/a.mfp")),
    "a saved script": (1, block_of("mfp save=own", "x") + block_of("console", "$ ./mfpic < own", "refused Syntax 1")),
    "a saved script in a folder": (1, block_of("mfp save=own/a.mfp", "a") + block_of("console", "$ ./mfpic < own/a.mfp") + "`own/a.mfp`\n"),
    "a saved text": (1, block_of("text save=own", "x") + block_of("console", "$ cat own", "x")),
    "a program that is missing": (0, block_of("console needs=bash needs=no-such-program", "$ echo a", "b")),
    "a program that is there": (1, block_of("console needs=bash", "$ echo a", "a")),
    "a skipped command": (0, block_of("console skip=takes-long", "$ echo a", "b")),
    "a script": (1, block_of("mfp", "a := nullpicture", "", "% a comment")),
    "a file": (1, block_of("mfp file=examples/a.mfp", *SCRIPT.splitlines())),
    "lines of a file": (1, block_of("mfp file=examples/a.mfp", "", "show a")),
    "lines of a source": (1, block_of(f"rust {KIND}", "{", "    1", "}")),
    "a contract": (1, block_of(f"contract {KIND}", ONE, "..", CLAUSES[1], "..", TWO, f"    {CLAUSES[2]}")),
    "a text": (0, block_of("text", "anything")),
    "a link": (2, "[B](docs/user/B.md#mf_kind-one) and [again](docs/user/B.md#twice-1)\n"),
    "no link": (0, "`[a](b.md)`, [web](https://example.org/b.md)\n"),
    "names": (0, "`crates/mf_kind/`, `mf_kind/src/lib.rt`, `src/only.rt`, `crates/NAME/src/*.rt`, `a / 2`, `out/a.md`\n"),
    "a name in a section": (1, "## `mf_kind`\n\n`src/lib.rt`\n"),
    "a list": (0, "- One\n\n    and more of it\n"),
    "a status": (2, block_of("console status=3", "$ true", "$ exit 3")),
    "clauses": (4, "`first` and `second` of `Kind::one`\n\n`two` (`third`), `one`\n"),
    "results": (3, f"{QUOTES_TIMES}| `build` | [12.6](docs/A.md) | 4 |\n| build | 12.6 | 5 |\n"),
    "minutes": (1, "13 minutes\n"),
}
# The same with a fault, its line below the first one, and words of what is said of it.
WRONG = {
    "another output": (2, "prints 'a' here", block_of("console", "$ echo a", "b")),
    "less output": (3, "prints nothing more here", block_of("console", "$ echo a", "a", "b")),
    "more output": (1, "also prints 'b'", block_of("console", "$ echo a; echo b", "a")),
    "another order": (5, "prints no such line here", block_of("console", "$ seq 4", "..", "2", "..", "1")),
    "dots that are no gap": (2, "prints 'a--b' here", block_of("console", "$ echo a--b", "a...b")),
    "a slow command": (1, "takes more than 1 second", block_of("console", "$ sleep 9")),
    "no command": (0, "does not begin with a command", block_of("console", "echo a")),
    "no info": (0, "says nothing", block_of("", "a")),
    "another info": (0, "says python", block_of("python", "a")),
    "another attribute": (0, "says file=a", block_of("console file=a", "$ true")),
    "two attributes": (0, "says too much", block_of("mfp file=examples/a.mfp save=b", "show a")),
    "a quotation of nothing": (0, "does not say of which file", block_of("rust", "a")),
    "no reason": (0, "says skip=,", block_of("console skip=", "$ true")),
    "a reason with commas": (0, "joined by hyphens", block_of("console skip=a,b", "$ true")),
    "a file elsewhere": (0, "in the repository", block_of("mfp save=../a", "show a")),
    "a refused line": (2, "prints: refused Syntax 1", block_of("mfp", "show a", "show x")),
    "no such file": (0, "is no file", block_of("mfp file=examples/b.mfp", "show a")),
    "another line": (2, "has no such line", block_of("mfp file=examples/a.mfp", "% second", "% third")),
    "another indentation": (1, "has no such line", block_of("mfp file=examples/a.mfp", "  show a")),
    "lines apart": (0, "but not in this order", block_of("mfp file=examples/a.mfp", "% second", "show a")),
    "an empty quotation": (0, "but not in this order", block_of("mfp file=examples/a.mfp")),
    "a source with gaps": (2, "has no such line", block_of(f"rust {KIND}", "{", "..", "}")),
    "a clause less": (0, "but not in this order", block_of(f"contract {KIND}", ONE, CLAUSES[1])),
    "another function's clause": (0, "but not in this order", block_of(f"contract {KIND}", ONE, "..", CLAUSES[2])),
    "another clause": (2, "has no such line", block_of(f"contract {KIND}", ONE, "ensures first { result ≡ 2 }")),
    "no end": (0, "has no end", "```text\na\n"),
    "an indented block": (1, "indented and not fenced", "\n    echo a\n"),
    "a broken link": (0, "leads to no file", "[a](docs/NONE.md)\n"),
    "a link in two lines": (0, "leads to no file", "[a\nb](docs/NONE.md)\n"),
    "a link out of the repository": (0, "leads to no file", "[a](../README.md)\n"),
    "a link with a title": (0, "leads to no file", '[a](docs/NONE.md "A title")\n'),
    "a link by reference": (0, "leads to no file", "[a]: docs/NONE.md\n"),
    "no such heading": (0, "leads to no heading", "[a](docs/A.md#b)\n"),
    "no such heading here": (0, "leads to no heading", "[a](#b)\n"),
    "no such name": (0, "no file or folder", "`tests/none.py --all`\n"),
    "a file as a folder": (0, "no file or folder", "`examples/a.mfp/`\n"),
    "a name of another crate": (2, "no file or folder", "## `mf_kind`\n\n`src/only.rt`\n"),
    "a refusal's number": (0, "numbers of refusals", "`WeightTooLarge` (12)\n"),
    "a refusal's number in two lines": (0, "numbers of refusals", "`Backtracks i`\n(5)\n"),
    "a refusal by number": (0, "numbers of refusals", "refusal 12\n"),
    "a placeholder": (0, "placeholder @GATE_TIME@", "@GATE_TIME@ minutes\n"),
    "another status": (1, "exits with status 1, and not 0", block_of("console", "$ false", "$ true")),
    "no status": (1, "exits with status 0, and not 3", block_of("console status=3", "$ true")),
    "a status in words": (0, "is no number", block_of("console status=none", "$ true")),
    "no such call": (0, "Kind::three is named in no source", "`Kind::three`\n"),
    "no such word": (0, "no_such_word is named in no source", "`no_such_word`\n"),
    "no such clause": (1, "fourth is no clause of Kind::one", "One\n`first` and `fourth` of `Kind::one`\n"),
    "a clause of another call": (0, "third is no clause of Kind::one", "`Kind::one` (`third`)\n"),
    "a long cell": (2, "a cell has 151 characters", f"| a |\n|---|\n| {'a' * 151} |\n"),
    "another count": (3, "results/times.tsv has no such row", f"{QUOTES_TIMES}| build | 12.7 | 4 |\n"),
    "no results": (0, "has no such table", QUOTES_TIMES.replace("times", "none") + "| build | 12.6 | 4 |\n"),
    "minutes that nobody measured": (0, "has no 12 minutes", "12\nminutes\n"),
}
# Files that make the documents wrong when taken together, with the place of the fault and words of it.
WRONG_FILES = {
    "an unlinked document": ({"docs/user/LOST.md": "# Lost\n"}, "docs/user/LOST.md:1: ", "no link leads here"),
    "documents that link each other": (
        {"docs/C.md": "[D](D.md)\n", "docs/D.md": "[C](C.md)\n"},
        "docs/C.md:1: ",
        "no link leads here",
    ),
    "a long README": ({"README.md": SOUND["README.md"] + 150 * "a\n"}, "README.md:153: ", "more than 150 lines"),
    "an old path": ({"tests/a.py": f"\n# docs/{OLD[0]}.md\n"}, "tests/a.py:2: ", "was before"),
    "an old path in a folder": ({"tests/a.py": f"\n# docs/work/{'DECISIONS'}.md\n"}, "tests/a.py:2: ", "was before"),
    "minutes elsewhere": ({"docs/A.md": SOUND["docs/A.md"] + "13 minutes\n"}, "docs/A.md:4: ", "numbers of minutes"),
    "a decision without a date": (
        {"docs/A.md": "[D](DECISIONS.md) [B](user/B.md)\n", DECISIONS: "- One (2026-12-01)\n- Two\n"},
        "docs/DECISIONS.md:2: ",
        "has no date",
    ),
    "no README": ({"README.md": None}, "README.md:1: ", "is missing"),
}


def found_in(files: Mapping[str, str | None]) -> tuple[int, list[str]]:
    """What is found in a repository of these files: how much passes, and the faults."""
    with tempfile.TemporaryDirectory() as folder:
        root = pathlib.Path(folder)
        for path, text in files.items():
            if text is not None:
                (root / path).parent.mkdir(parents=True, exist_ok=True)
                (root / path).write_text(text, encoding="utf-8")
        for path in ("mfpic", *PROGRAMS):
            (root / path).chmod(0o755)
        return tally(findings(open_repository(root, limit=1), []), lambda fault: None)


def at_the_end(text: str) -> dict[str, str]:
    return {**SOUND, "README.md": f"{SOUND['README.md']}\n{text}"}


def self_test() -> Iterator[tuple[str, str]]:
    """Each trial by name, with what is wrong with it, which is nothing where it is as it must be."""
    own, faults = found_in(SOUND)
    yield "the repository without a fault", "; ".join(faults)
    first = SOUND["README.md"].count("\n") + 2
    for name, (count, text) in RIGHT.items():
        passed, faults = found_in(at_the_end(text))
        yield name, "; ".join(faults) if faults else FINE if passed == own + count else f"{passed - own} passed"
    for name, (line, words, text) in WRONG.items():
        yield name, difference(f"README.md:{first + line}: ", words, found_in(at_the_end(text))[1])
    for name, (files, place, words) in WRONG_FILES.items():
        yield name, difference(place, words, found_in({**SOUND, **files})[1])


def difference(place: str, words: str, faults: list[str]) -> str:
    """What is wrong where the first fault is not this one."""
    is_found = faults and faults[0].startswith(place) and words in faults[0]
    return FINE if is_found else f"the faults are {faults}, and not at {place}{words}"


# Running.


def tally(found: Iterable[tuple[str, Finding]], report: Callable[[str], None]) -> tuple[int, list[str]]:
    """How much passes, and the faults, each of which is reported when it is found."""
    passed, faults = 0, []
    for path, (line, what) in found:
        if what == FINE:
            passed += 1
        else:
            faults.append(f"{path}:{line}: {what}")
            report(faults[-1])
    return passed, faults


def main() -> int:
    words = sys.argv[1:]
    if words == ["--self-test"]:
        # What is not run is no matter here.
        with contextlib.redirect_stdout(io.StringIO()):
            trials = list(self_test())
        wrong = [f"{name}: {what}" for name, what in trials if what]
        print("".join(f"{line}\n" for line in wrong), end="")
        print(f"{len(trials) - len(wrong)} passed, {len(wrong)} failed")
        return int(bool(wrong))
    reads, writes = words[:1] == ["--read"], words[:1] == ["--write"]
    words = words[reads or writes :]
    for program in () if reads or writes else PROGRAMS:
        if not os.access(ROOT / program, os.X_OK):
            print(f"{program} is missing: `./{pathlib.PurePosixPath(program).name} < /dev/null` builds it", file=sys.stderr)
            return 1
    repository = open_repository(ROOT, runs=not reads)
    named = [os.path.relpath(pathlib.Path(word).resolve(), ROOT) for word in words]
    if unknown := sorted(set(named) - set(repository.documents())):
        print(f"{unknown[0]} is not a document", file=sys.stderr)
        return 2
    if writes:
        for path in named or repository.documents():
            write_tables(repository, read_document(repository, path))
        return 0
    passed, faults = tally(findings(repository, named), lambda fault: print(fault, flush=True))
    print(f"{passed} passed, {len(faults)} failed")
    return int(bool(faults))


if __name__ == "__main__":
    sys.exit(main())
