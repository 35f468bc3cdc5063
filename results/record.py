#!/usr/bin/env python3
"""Keeps what runs counted or measured, in the tables of this folder: of each run the latest, with the toolchain, the commit and the date.

    results/record.py TABLE COMMAND [WORD..]

The command runs as it would alone. If it succeeds, TABLE.tsv gets a row: its name with its options, and the last line of its output, if
that begins with a number, such as `27 passed, 0 failed`. `./check --record` runs each part of the gate in this way, for gate.tsv; runs.tsv has
runs by hand. Scripts that measure more have an option --record of their own, and call `write`. What `rt plant` counts is written into
planted.tsv by hand. A `-` is what was not kept. tests/documents.py compares the tables in documents with these.
"""

import datetime
import re
import subprocess
import sys
from collections.abc import Iterable, Mapping
from pathlib import Path

FOLDER = Path(__file__).resolve().parent
COUNT = re.compile(r"[1-9][\d,]* [a-z]")


def said(*command: str) -> str:
    """The first word that a command prints."""
    return subprocess.run(command, cwd=FOLDER, check=True, stdout=subprocess.PIPE, encoding="utf-8").stdout.split()[0]


def circumstances() -> dict[str, str]:
    """With what a run was made that has just ended. The commit ends in `+` where its sources were changed."""
    changed = subprocess.run(["git", "diff", "--quiet", "HEAD", "--", ".", ":!results", ":!*.md"], cwd=FOLDER.parent, check=False).returncode
    commit = said("git", "rev-parse", "--short", "HEAD") + "+" * bool(changed)
    today = datetime.datetime.now(datetime.timezone.utc).strftime("%Y-%m-%d")
    return {"toolchain": said("rt", "version"), "commit": commit, "date": today}


def write(table: str, rows: Iterable[Mapping[str, object]]) -> None:
    """Writes rows, of a column's name and its value each. They replace those with the same value in the first column."""
    path = FOLDER / f"{table}.tsv"
    head, *lines = path.read_text(encoding="utf-8").splitlines()
    made = ["\t".join(str(row.get(column, "-")) for column in head.split("\t")) for row in rows]
    names = {line.partition("\t")[0] for line in made}
    place = next((number for number, line in enumerate(lines) if line.partition("\t")[0] in names), len(lines))
    kept = [[line for line in part if line.partition("\t")[0] not in names] for part in (lines[:place], lines[place:])]
    path.write_text("\n".join([head, *kept[0], *made, *kept[1], ""]), encoding="utf-8")


class Table:
    """A table that is printed as Markdown, row by row, and written to NAME.tsv if that is wanted."""

    def __init__(self, name: str, columns: list[str], is_recorded: bool) -> None:
        self.name, self.columns = name, columns
        self.made_with = circumstances() if is_recorded else None
        print(f"| {' | '.join(columns)} |\n{'|---' * len(columns)}|")

    def add(self, *cells: str) -> None:
        print(f"| {' | '.join(cells)} |", flush=True)
        if self.made_with:
            write(self.name, [dict(zip(self.columns, cells)) | self.made_with])


def main() -> int:
    """Runs a command, and writes the row of its run."""
    if len(sys.argv) < 3:
        sys.exit(__doc__)
    table, *words = sys.argv[1:]
    last = ""
    with subprocess.Popen(words, stdout=subprocess.PIPE, stderr=subprocess.STDOUT, encoding="utf-8", errors="replace") as ran:
        for line in ran.stdout or ():
            sys.stdout.write(line)
            sys.stdout.flush()
            last = line.strip()
    if ran.returncode == 0 and COUNT.match(last):
        name = " ".join([words[0], *(word for word in words[1:] if word.startswith("--") or words[0] == "rt")])
        write(table, [{"run": name, "counts": last, **circumstances()}])
    return ran.returncode


if __name__ == "__main__":
    sys.exit(main())
