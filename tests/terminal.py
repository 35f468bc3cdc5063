#!/usr/bin/env python3
"""Draws scripts with `mfview` in a real terminal, and looks at what the terminal shows.

    tests/terminal.py [PROGRAM]

PROGRAM is by default crates/mfview/out/mfview. The terminal is one of tmux, whose server runs for this script alone. Then

- the frame of the last picture must stay on the screen, the same as `--frames` writes it, and the prompt must come back below it;
- while a script is typed slowly, the frames must be those of its published pictures, and their revisions must rise;
- a terminal that becomes smaller in the middle must not end the program;
- an interrupt must end it, and leave the terminal as it was: its settings, its echo and its colors.

It is run by hand, and needs Debian's tmux. The last line counts the checks that passed.
"""

import contextlib
import os
import pathlib
import re
import shutil
import subprocess
import sys
import tempfile
import time
from collections.abc import Callable, Iterator

ROOT = pathlib.Path(__file__).resolve().parent.parent
EXAMPLES = ["rectangle", "watched", "font"]
COLUMNS, ROWS = 80, 24
SMALLER = 60, 15
# How long the terminal may take to show something, in seconds.
PATIENCE = 20
INTERRUPTED = 130
# The prompt is the number of the command, and the status of the command before.
PROMPT = re.compile(r"(\d+) \[(\d+)\]")
LAST_LINE = re.compile(r"(columns -?\d+\.\.-?\d+  rows -?\d+\.\.-?\d+|blank)  scale \d+")
REVISION = re.compile(r"revision (\d+)  totalweight -?\d+")
# A select graphic rendition, and the colors that a tile has by the shade of its cell.
RENDITION = re.compile(r"\x1b\[([\d;]*)m")
DARK, NEGATIVE = {238, 25, 16}, 208
# A script that is typed slowly: a contour that overlaps those before, and a publish, for each column.
TYPED = [f"addto currentpicture contour (0,0)--({2 * size},0)--({2 * size},{size})--(0,{size})--cycle" for size in range(1, 9)]


class Failure(Exception):
    """The terminal does not show what it should. The text says how."""


class Terminal:
    """A terminal of tmux with a shell in it, whose folder is that of the repository."""

    def __init__(self, socket: str) -> None:
        self.socket = socket
        self.begin()

    def begin(self) -> None:
        """Starts the shell."""
        shell = ["env", r"PS1=\# [$?] ", "bash", "--noprofile", "--norc", "--noediting"]
        size = ["-x", str(COLUMNS), "-y", str(ROWS)]
        self.tmux("-f", "/dev/null", "new-session", "-d", *size, "-c", str(ROOT), *shell)
        self.wait(lambda: self.prompt() is not None, "a prompt")

    def tmux(self, *words: str) -> str:
        """Has tmux do this, and returns what it writes."""
        return subprocess.run(["tmux", "-S", self.socket, *words], check=True, stdout=subprocess.PIPE, encoding="utf-8").stdout

    def lines(self) -> list[str]:
        """The lines of the screen from the top, without spaces at their ends and blank lines at the end."""
        return [line.rstrip() for line in self.tmux("capture-pane", "-p").rstrip().splitlines()]

    def colored(self) -> list[str]:
        """The same with control codes for colors."""
        return self.tmux("capture-pane", "-p", "-e").rstrip().splitlines()

    def prompt(self) -> tuple[int, int] | None:
        """The number and the status of the prompt, where the last line is a prompt."""
        lines = self.lines()
        found = PROMPT.fullmatch(lines[-1]) if lines else None
        return (int(found[1]), int(found[2])) if found else None

    def type(self, text: str) -> None:
        """Types a line."""
        self.tmux("send-keys", "-l", text)
        self.tmux("send-keys", "Enter")

    def wait(self, holds: Callable[[], bool], what: str) -> None:
        """Waits until this holds."""
        end = time.monotonic() + PATIENCE
        while not holds():
            if time.monotonic() > end:
                shown = "\n".join(self.lines())
                raise Failure(f"the terminal shows no {what}, but\n{shown}")
            time.sleep(0.02)

    def number(self) -> int:
        """The number of the prompt that is shown."""
        found = self.prompt()
        if found is None:
            raise Failure("the terminal shows no prompt")
        return found[0]

    def status_after(self, number: int) -> int:
        """Waits for the prompt after that with this number, and returns its status."""
        self.wait(lambda: (self.prompt() or (0, 0))[0] > number, "prompt")
        return (self.prompt() or (0, 0))[1]

    def run(self, command: str) -> int:
        """Runs a command until the prompt comes back, and returns its status."""
        number = self.number()
        self.type(command)
        return self.status_after(number)

    def settings(self, folder: pathlib.Path) -> str:
        """What `stty` says of the terminal."""
        self.run(f"stty -a > {folder}/settings")
        return (folder / "settings").read_text(encoding="utf-8")


@contextlib.contextmanager
def open_terminal(folder: pathlib.Path) -> Iterator[Terminal]:
    """A terminal, which is closed at the end."""
    terminal = Terminal(str(folder / "socket"))
    try:
        yield terminal
    finally:
        terminal.tmux("kill-server")


def expect(holds: bool, what: str) -> None:
    if not holds:
        raise Failure(what)


def frames_of(program: str, script: str, folder: pathlib.Path, columns: int = COLUMNS, rows: int = ROWS) -> list[list[str]]:
    """The frames that `--frames` writes for a script, without spaces at the ends of lines."""
    words = [program, "--frames", "--columns", str(columns), "--rows", str(rows), "--transcript", str(folder / "transcript")]
    ran = subprocess.run(words, cwd=ROOT, input=script, stdout=subprocess.PIPE, check=True, encoding="utf-8")
    frames: list[list[str]] = [[]]
    for line in ran.stdout.splitlines():
        frames[-1].append(line.rstrip())
        if LAST_LINE.fullmatch(line):
            frames.append([])
    return frames[:-1]


def plain_tile(character: str, upper: int | None, lower: int | None) -> str:
    """A tile in plain style that has these colors in the terminal: its cells are dark or not."""
    if character != "▀":
        return character
    if upper in DARK or lower in DARK:
        return {(True, False): "▀", (False, True): "▄", (True, True): "█"}[upper in DARK, lower in DARK]
    return "░" if NEGATIVE in (upper, lower) else " "


def plain_line(line: str, colors: list[int | None]) -> str:
    """A line of the screen in plain style. `colors` has the color of the characters and of the ground: tmux tells only where they
    change, also from one line to the next."""
    text, place = "", 0
    while place < len(line):
        if code := RENDITION.match(line, place):
            place = code.end()
            numbers = [int(number or 0) for number in code[1].split(";")]
            while numbers:
                number = numbers.pop(0)
                if number in (38, 48):
                    colors[number == 48] = numbers[1]
                    numbers = numbers[2:]
                elif number in (0, 39, 49):
                    colors[:] = [None if number in (0, 39) else colors[0], None if number in (0, 49) else colors[1]]
            continue
        text += plain_tile(line[place], *colors)
        place += 1
    return text.rstrip()


def shown_frame(terminal: Terminal) -> list[str]:
    """The frame on the screen in plain style, without the blank lines above it."""
    colors: list[int | None] = [None, None]
    lines = [plain_line(line, colors) for line in terminal.colored()]
    ends = [place for place, line in enumerate(lines) if LAST_LINE.fullmatch(line)]
    expect(bool(ends), "the terminal shows no frame")
    frame = lines[: ends[-1] + 1]
    while frame and (not frame[0] or PROMPT.match(frame[0])):
        frame = frame[1:]
    return frame


def revision_shown(terminal: Terminal) -> int | None:
    """The revision of the frame on the screen."""
    found = [REVISION.fullmatch(line) for line in terminal.lines()]
    revisions = [int(match[1]) for match in found if match]
    return revisions[-1] if revisions else None


def check_example(terminal: Terminal, program: str, folder: pathlib.Path, name: str) -> None:
    """The last frame of a script stays on the screen, and the prompt comes back on the line below it."""
    script = ROOT / f"examples/{name}.mfp"
    status = terminal.run(f"{program} --transcript {folder}/transcript < {script}")
    expect(status == 0, f"the status is {status}")
    last = frames_of(program, script.read_text(encoding="utf-8"), folder)[-1]
    shown = shown_frame(terminal)
    expect(shown == last, "the terminal shows\n" + "\n".join(shown) + "\nand not\n" + "\n".join(last))
    below = LAST_LINE.fullmatch(terminal.lines()[-2]) is not None and terminal.prompt() is not None
    expect(below, "there is no prompt on the line below the frame")


@contextlib.contextmanager
def typing(terminal: Terminal, program: str, folder: pathlib.Path) -> Iterator[tuple[int, Callable[[str], None]]]:
    """Starts the program on a script that is typed. Gives the number of the prompt before, and what types a line of the script.
    The script ends where the context does."""
    pipe = folder / "pipe"
    os.mkfifo(pipe)
    number = terminal.number()
    # Opened for reading as well, so that opening it waits for nobody.
    script = os.open(pipe, os.O_RDWR)
    try:
        terminal.type(f"{program} --transcript {folder}/transcript < {pipe}")
        yield number, lambda line: None if os.write(script, f"{line}\n".encode()) else None
    finally:
        os.close(script)
        pipe.unlink()


def draw_typed(terminal: Terminal, typed: list[str], line: Callable[[str], None]) -> None:
    """Types lines of a script, each with a publish, and waits for the frame of each."""
    for text in typed:
        before = revision_shown(terminal) or 0
        line(text)
        line("publish")
        terminal.wait(lambda before=before: (revision_shown(terminal) or 0) > before, f"revision after {before}")


def check_typed(terminal: Terminal, program: str, folder: pathlib.Path) -> None:
    """Each publish of a script that is typed slowly is drawn while the script goes on."""
    with typing(terminal, program, folder) as (number, line):
        for count in range(1, len(TYPED) + 1):
            draw_typed(terminal, TYPED[count - 1 : count], line)
            # The script so far ends here, so that its last picture is the one that is shown.
            last = frames_of(program, "".join(f"{text}\npublish\n" for text in TYPED[:count]), folder)[-1]
            expect(shown_frame(terminal) == last, f"after {count} publishes the terminal shows another frame")
    status = terminal.status_after(number)
    expect(status == 0, f"the status is {status}")


def check_resize(terminal: Terminal, program: str, folder: pathlib.Path) -> None:
    """The program goes on in a terminal that becomes smaller, and the prompt comes back."""
    with typing(terminal, program, folder) as (number, line):
        draw_typed(terminal, TYPED[:2], line)
        terminal.tmux("resize-window", "-x", str(SMALLER[0]), "-y", str(SMALLER[1]))
        draw_typed(terminal, TYPED[2:4], line)
    status = terminal.status_after(number)
    expect(status == 0, f"the status is {status}")
    script = ROOT / "examples/watched.mfp"
    terminal.run(f"{program} --transcript {folder}/transcript < {script}")
    last = frames_of(program, script.read_text(encoding="utf-8"), folder, *SMALLER)[-1]
    expect(shown_frame(terminal) == last, "the next script is not drawn in the new size")
    terminal.tmux("resize-window", "-x", str(COLUMNS), "-y", str(ROWS))
    terminal.run("true")


def check_interrupt(terminal: Terminal, program: str, folder: pathlib.Path) -> None:
    """An interrupt ends the program, and leaves the terminal as it was."""
    before = terminal.settings(folder)
    with typing(terminal, program, folder) as (number, line):
        draw_typed(terminal, TYPED[:3], line)
        terminal.tmux("send-keys", "C-c")
        status = terminal.status_after(number)
    expect(status == INTERRUPTED, f"the status is {status}")
    expect(terminal.settings(folder) == before, "the settings of the terminal have changed")
    terminal.run("clear")
    terminal.run("echo seen")
    expect(any(line.endswith("echo seen") for line in terminal.lines()), "what is typed is not shown")
    expect(not any(RENDITION.search(line) for line in terminal.colored()), "colors are left behind")


def main() -> int:
    program = sys.argv[1] if len(sys.argv) > 1 else str(ROOT / "crates/mfview/out/mfview")
    if not shutil.which(program):
        sys.exit(f"there is no program {program}: `./mfview < /dev/null` builds it")
    checks: list[tuple[str, Callable[[Terminal, pathlib.Path], None]]] = [
        (name, lambda terminal, folder, name=name: check_example(terminal, program, folder, name)) for name in EXAMPLES
    ]
    for check in (check_typed, check_resize, check_interrupt):
        checks.append((check.__name__, lambda terminal, folder, check=check: check(terminal, program, folder)))
    wrong = 0
    for name, check in checks:
        with tempfile.TemporaryDirectory() as path, open_terminal(pathlib.Path(path)) as terminal:
            try:
                check(terminal, pathlib.Path(path))
            except (Failure, subprocess.CalledProcessError) as failure:
                wrong += 1
                print(f"{name}: {failure}", flush=True)
    print(f"{len(checks) - wrong} passed, {wrong} failed")
    return int(wrong > 0)


if __name__ == "__main__":
    sys.exit(main())
