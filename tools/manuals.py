#!/usr/bin/env python3
"""Makes the manual pages and the completions for bash of the programs and the tools, for `install.sh`.

    tools/manuals.py FOLDER

FOLDER/man1 gets a page for each, and FOLDER/completions a file for mfpic and for mfview. The options and the statuses of the programs are
those of the tables of docs/user/PROGRAM.md and docs/user/VIEW.md. What a tool says of itself stands at the head of its file.
"""

import ast
import pathlib
import re
import sys
from collections.abc import Iterator

ROOT = pathlib.Path(__file__).resolve().parent.parent
TOOLS = ("gf2mfp", "gf2pl", "gfdiff", "gfwords", "mf2mfp", "mfcheck")
# The page of each program, what it does, and how it is called.
PROGRAMS = {
    "mfpic": ("PROGRAM", "performs a script that fills, culls and ships pictures", "mfpic [--viewers 0..16] [--gf FILE] < SCRIPT"),
    "mfview": ("VIEW", "performs a script and draws its picture", "mfview [OPTION..] < SCRIPT\nmfview --check [SCRIPT..]"),
}
# Words of options whose values are files or folders.
FILES = {"FILE", "FOLDER"}


def tables_of(page: str, heading: str) -> Iterator[list[str]]:
    """The rows of the first table below a heading, without its head."""
    below = page.split(f"\n## {heading}\n", 1)[1]
    table = re.search(r"(?:^\|.*\n)+", below, re.M)[0].splitlines()[2:]
    for row in table:
        yield [cell.strip().replace("\0", "|") for cell in row.strip("|").replace("\\|", "\0").split("|")]


def plain(text: str) -> str:
    """A text of Markdown as one of a manual page: links without their targets, and code in bold."""
    text = re.sub(r"\[([^\]]*)\]\([^)]*\)", r"\1", text).replace("\\", "\\e").replace("-", "\\-")
    return re.sub(r"`([^`]*)`", r"\\fB\1\\fR", text)


def lines_of(paragraphs: str) -> Iterator[str]:
    """Paragraphs as a manual page has them. Those that are indented are examples."""
    for paragraph in re.split(r"\n\s*\n", paragraphs.strip("\n")):
        if paragraph.startswith("    "):
            yield ".PP\n.nf\n" + "\n".join(plain(f"\\&{line.strip()}").replace("\\e&", "\\&") for line in paragraph.splitlines()) + "\n.fi"
        else:
            yield ".PP\n" + plain(paragraph).replace("\n.", "\n\\&.")


def page_of(name: str, what: str, synopsis: str, sections: dict[str, list[str]]) -> str:
    """A manual page."""
    lines = [f'.TH {name.upper()} 1 "" "Wonchhip"', ".SH NAME", f"{name} \\- {plain(what)}", ".SH SYNOPSIS", ".nf", plain(synopsis), ".fi"]
    for heading, content in sections.items():
        lines += [f".SH {heading}", *content]
    return "\n".join([*lines, ""])


def program_page(name: str) -> str:
    """The page of a program."""
    document, what, synopsis = PROGRAMS[name]
    page = (ROOT / f"docs/user/{document}.md").read_text(encoding="utf-8")
    page = page.replace("the script `./mfview`", "`mfview`").replace("`./mfview`", "`mfview`")
    options = [f".TP\n{plain(row[0])}\n{plain(row[1])}{f' (without it: {plain(row[2])})' if row[2:] and row[2] else ''}" for row in tables_of(page, "Options")]
    statuses = [f".TP\n{row[0]}\n{plain(row[1])}: {plain(row[2])}" for row in tables_of(page, "Statuses")]
    if name == "mfview":
        options += [".TP\n\\fB\\-\\-check\\fR\nas the first word: draws nothing, and says which lines of scripts are refused (mfcheck(1))"]
    about = [".PP\nThe language of scripts, what is drawn and what is written are described in docs/user of the repository of Wonchhip."]
    return page_of(name, what, synopsis, {"OPTIONS": options, "EXIT STATUS AND MESSAGES": statuses, "MORE": about})


def tool_page(name: str) -> str:
    """The page of a tool."""
    told = ast.get_docstring(ast.parse((ROOT / f"tools/{name}.py").read_text(encoding="utf-8")))
    told = re.sub(r"tools/(\w+)\.py", r"\1", told).replace("input tools/", "input PREFIX/lib/wonchhip/tools/")
    first, _, rest = told.replace("./mfpic", "mfpic").partition("\n\n")
    synopsis, _, description = rest.partition("\n\n")
    what = first[0].lower() + first[1:].rstrip(".").replace("\n", " ")
    return page_of(name, what, re.sub(r"(?m)^ +", "", synopsis), {"DESCRIPTION": list(lines_of(description))})


def completion_of(name: str) -> str:
    """What bash completes of a program's words."""
    page = (ROOT / f"docs/user/{PROGRAMS[name][0]}.md").read_text(encoding="utf-8")
    options = [part.split() for row in tables_of(page, "Options") for part in re.findall(r"`(--[^`]*)`", row[0])]
    options += [["--check"]] if name == "mfview" else []
    files = "|".join(option[0] for option in options if FILES.intersection(option[1:]))
    words = " ".join(option[0] for option in options)
    return (
        f"_{name}() {{\n    local word=${{COMP_WORDS[COMP_CWORD]}} before=${{COMP_WORDS[COMP_CWORD-1]}}\n    COMPREPLY=()\n    case $before in\n"
        f'        {files}) mapfile -t COMPREPLY < <(compgen -f -- "$word") ;;\n        *) [[ $word != -* ]] || COMPREPLY=($(compgen -W "{words}" -- "$word")) ;;\n    esac\n}}\n'
        f"complete -o default -o filenames -F _{name} {name}\n"
    )


def main() -> int:
    if len(sys.argv) != 2:
        print(__doc__, file=sys.stderr)
        return 2
    folder = pathlib.Path(sys.argv[1])
    for part in ("man1", "completions"):
        (folder / part).mkdir(parents=True, exist_ok=True)
    for name in PROGRAMS:
        (folder / f"man1/{name}.1").write_text(program_page(name), encoding="utf-8")
        (folder / f"completions/{name}").write_text(completion_of(name), encoding="utf-8")
    for name in TOOLS:
        (folder / f"man1/{name}.1").write_text(tool_page(name), encoding="utf-8")
    return 0


if __name__ == "__main__":
    sys.exit(main())
