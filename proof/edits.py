"""A tool of proof: edits of a crate's files, and the functions that they change. (`wrong_bodies.py` uses it.)

An edit is a file with a line `file: src/lib.rt`, followed by pairs of lines `old: TEXT` and `new: TEXT`. A TEXT is one line, and
the old one must be in that file exactly once when the pairs before it have been applied. This is the form that the toolchain
reads. A line `why: TEXT`, which the toolchain ignores, says in an edit of must-fail which clause is false for it, and in one of
wrong why it is not refused, or cannot be judged.
"""

import dataclasses
import difflib
import re
from collections.abc import Mapping
from pathlib import Path

FUNCTION = re.compile(r"( *)(?:pub(?:\([\w:]+\))? )?(?:(?:const|unsafe|final) )*fn (\w+)")
BLOCK = re.compile(r"(?:pub(?:\([\w:]+\))? )?(?:unsafe )?(impl|trait)\b(.*)")
ITEM = re.compile(r"(?:pub(?:\([\w:]+\))? )?(?:const|static|struct|enum|type) (\w+)")


class UnfitEdit(Exception):
    """An edit cannot be applied."""


@dataclasses.dataclass(frozen=True, order=True)
class Function:
    """A function of a crate: its file, the block that it is in, and its name. The block is a type, or a type and a trait, or
    nothing."""

    file: str
    holder: str
    name: str

    @property
    def module(self) -> str:
        """The path of the file's module below the crate."""
        return self.file.removeprefix("src/").removesuffix(".rt").replace("/", "::")

    def __str__(self) -> str:
        return "::".join(part for part in (self.module, self.holder, self.name) if part)


@dataclasses.dataclass(frozen=True)
class Edit:
    """An edit: its pairs of texts, each with its file, and what its line `why:` says, if it has one."""

    label: str
    pairs: tuple[tuple[str, str, str], ...]
    why: str

    @property
    def must_fail(self) -> bool:
        """Whether it is one of must-fail, where the line `why:` names a clause."""
        return self.label.startswith("must-fail/")

    @property
    def excuse(self) -> str:
        """Why it is not refused, or cannot be judged, if that is known. An edit of must-fail has no excuse."""
        return "" if self.must_fail else self.why

    def apply(self, texts: Mapping[str, str]) -> dict[str, str]:
        """The files that it changes, by their path, with their new texts."""
        changed: dict[str, str] = {}
        if not self.pairs:
            raise UnfitEdit("it has no file with a pair of an old and a new text")
        for file, old, new in self.pairs:
            text = changed.get(file, texts.get(file, ""))
            if text.count(old) != 1:
                raise UnfitEdit(f"an old text is in {file} {text.count(old)} times, and not once")
            changed[file] = text.replace(old, new)
        return changed


def read_edit(path: Path) -> Edit:
    """The edit in a file."""
    file, old, why, pairs = "", "", "", []
    for line in path.read_text(encoding="utf-8").split("\n"):
        key, _, text = line.partition(":")
        text = text.removeprefix(" ")
        if key == "file":
            file = text.strip()
        elif key == "why":
            why = text.strip()
        elif key == "old":
            old = text
        elif key == "new" and file and old:
            pairs.append((file, old, text))
            old = ""
    return Edit(f"{path.parent.name}/{path.name}", tuple(pairs), why)


def texts_of(crate: Path) -> dict[str, str]:
    """The texts of a crate's source files, by their path in the crate."""
    files = sorted(crate.glob("src/**/*.rt"))
    return {str(file.relative_to(crate)): file.read_text(encoding="utf-8") for file in files}


def without_parameters(name: str) -> str:
    """The last word of the path of a type or a trait, without what is in angle brackets."""
    return re.sub(r"<.*", "", name).strip().lstrip("&").rpartition("::")[2]


def with_crate(name: str) -> str:
    """The last word of a type's path, after the word before it if there is one, as the prover writes `ClapError`."""
    before = re.sub(r"<.*", "", name).strip().lstrip("&").split("::")[:-1]
    return "".join(word.capitalize() for word in before[-1:]) + without_parameters(name)


def holder_of(head: str) -> str:
    """What the prover calls an `impl` block, by the text after that word: a type, or a type and a trait."""
    depth = 0
    for i, char in enumerate(head):
        depth += {"<": 1, ">": -1}.get(char, 0)
        if depth == 0:
            head = head[i + (char == ">") :] if head.startswith("<") else head
            break
    trait, is_trait, kind = head.partition("{")[0].partition(" where ")[0].rpartition(" for ")
    arguments = re.search(r"<(.*)>", trait)
    names = [without_parameters(trait), *map(with_crate, arguments[1].split(",") if arguments else [])] if is_trait else []
    return without_parameters(kind) + "".join(names)


def end_of(lines: list[str], start: int, indent: str) -> int:
    """The last line of the function that starts at this line, in the layout of `rt fmt`."""
    if lines[start].endswith("}"):
        return start
    ends = (f"{indent}}}", f"{indent}{{}}")
    return next((i for i in range(start, len(lines)) if lines[i] in ends), len(lines) - 1)


def split(file: str, text: str) -> tuple[dict[Function, str], list[str]]:
    """The functions of a file with their texts, and the lines outside of all functions. A function that a trait declares does not
    count."""
    found: dict[Function, str] = {}
    others, lines, holder, kind, at = [], text.split("\n"), "", "", 0
    while at < len(lines):
        line = lines[at]
        block, function = BLOCK.match(line), FUNCTION.match(line)
        if block and not line.endswith("{}"):
            kind, holder = block[1], holder_of(block[2].strip())
        elif line == "}":
            kind, holder = "", ""
        if function and kind != "trait":
            end = end_of(lines, at, function[1])
            found[Function(file, holder, function[2])] = "\n".join(lines[at : end + 1])
            at = end
        else:
            others.append(line)
        at += 1
    return found, others


def changed_items(before: list[str], after: list[str]) -> set[str]:
    """The names of the constants and types that differ."""
    names: set[str] = set()
    for kind, start, end, _, _ in difflib.SequenceMatcher(None, before, after, False).get_opcodes():
        for at in range(start, max(end, start + 1)) if kind != "equal" else ():
            above = [found[1] for found in map(ITEM.match, before[: at + 1]) if found]
            names.update(above[-1:])
    return names


def changed_by(edit: Edit, texts: Mapping[str, str]) -> tuple[set[Function], set[Function]]:
    """The functions that an edit changes, and all that it may concern. A function that names a constant or a type which the edit
    changes is concerned, and counts as changed if the edit changes no function."""
    changed: set[Function] = set()
    names: set[str] = set()
    for file, text in edit.apply(texts).items():
        (before, others), (after, others_after) = split(file, texts[file]), split(file, text)
        changed |= {key for key in {*before, *after} if before.get(key) != after.get(key)}
        names |= changed_items(others, others_after)
    named = re.compile(rf"\b(?:{'|'.join(names)})\b") if names else None
    every = (pair for file, text in texts.items() for pair in split(file, text)[0].items())
    naming = {key for key, text in every if named and named.search(text)}
    return changed or naming, changed | naming
