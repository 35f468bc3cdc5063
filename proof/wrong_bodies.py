#!/usr/bin/env python3
"""A tool of proof: tries the wrong bodies of crates, many in one check. The prover must refuse each of them.

    proof/wrong_bodies.py [--jobs N] [--record] [CRATE..]

A wrong body is an edit, crates/NAME/must-fail/*.edit (which `rt ci` tries, too, one at a time) or crates/NAME/wrong/*.edit.
The wrong bodies of these crates, or of all crates, are tried, N crates at a time. By default N is the number of processors, but
at most one for each 4 GB of free memory. The toolchain's command `rt` must be on the path. This script is run by hand.

A crate is copied to a temporary folder and proved there as it is. Then it is proved with a batch of edits applied, starting from
what that first proof has kept, batch after batch. The edits of a batch change different functions, and only those functions are
proved. Nothing in the repository is written, except out/ of the crates that these crates use, which are built first.

A body is refused if the prover finds a goal of the function itself that it cannot prove. That the function calls another one that
is not proved says nothing. If the only reason is that a file of proofs/ uses a name that the edit has removed, the body is not
judged, because a right body might be refused for the same reason. Each batch has a control, from crates/NAME/wrong/*.right: an
edit that writes a right body in another way. If the control is not proved, the batch says nothing, and is tried again in halves.

An answer, in a file of proofs/, is written for the right body, so it may refuse another right one. A body that only an answer
refuses is tried once more without the answers of the functions that it changes, and so are these functions as they are. Then a
goal that only the wrong body leaves open, or for which the prover finds values only there, is what refuses it.

Every body that is proved, not judged, or refused by an answer alone is printed, with the line `why:` of its edit if it has one.
In wrong/ that line says why the body is not refused, or cannot be judged; in must-fail/ it names the clause that is false for it.
The last line counts all bodies. The exit status is 1 if a body of must-fail, or one of wrong without such a line, is proved or
not judged. With --record the counts of each crate go into results/wrong_bodies.tsv.
"""

import argparse
import collections
import concurrent.futures
import dataclasses
import os
import re
import shutil
import sys
import tempfile
import time
from collections.abc import Iterable
from pathlib import Path

from edited_crate import NO_CONTROL, SAID, Room, newly_open, own_reasons, problem_of
from edits import Edit, Function, UnfitEdit, changed_by, read_edit, texts_of
from prover import ROOT, Failure, Prover, libraries_of_crates, prove_in_order

sys.path.append(str(ROOT / "results"))
from record import circumstances, write  # noqa: E402

# The most memory that one check takes, in bytes.
MEMORY = 4_000_000_000
REFUSED, PROVED, NOT_JUDGED = "refused", "proved", "not judged"
# What the prover says if only a function that is called is not proved.
OF_ANOTHER = re.compile(r"it calls|it passes|a call of")
# What it says of a goal of a function for which it expects an answer, since the edit has made a goal that it does not find.
UNPROVED = re.compile(r"`search` did not prove `(\S+)`")


@dataclasses.dataclass
class Body:
    """A body: its edit, the functions that it changes and those that it concerns, the verdict with its reason, an error about a name
    that is gone, and the goals that it leaves open where the answers are dropped."""

    edit: Edit
    changed: set[Function] = dataclasses.field(default_factory=set)
    concerned: set[Function] = dataclasses.field(default_factory=set)
    verdict: str = ""
    told: str = ""
    gone: str = ""
    bare: list[str] = dataclasses.field(default_factory=list)

    def judge(self, verdict: str, told: str) -> None:
        self.verdict, self.told = verdict, short_text(told)

    def meets_answer(self) -> bool:
        """Whether an answer that does not fit is all that refused it at first."""
        return self.verdict == REFUSED and self.told.startswith("proofs/")


def short_text(text: str) -> str:
    """A line of the prover, or its first part if it is very long."""
    return text if len(text) <= 240 else f"{text[:240]}.."


def bodies_of(crate: str, pattern: str) -> list[Body]:
    """The bodies that these edits of a crate make. A body whose edit cannot be applied is already judged."""
    folder = ROOT / "crates" / crate
    texts, bodies = texts_of(folder), []
    for path in sorted(folder.glob(pattern)):
        body = Body(read_edit(path))
        try:
            body.changed, body.concerned = changed_by(body.edit, texts)
            if not body.changed:
                body.judge(NOT_JUDGED, "it changes no function")
        except UnfitEdit as unfit:
            body.judge(NOT_JUDGED, f"it cannot be applied: {unfit}")
        bodies.append(body)
    return bodies


def texts_with(bodies: Iterable[Body], texts: dict[str, str]) -> dict[str, str]:
    """The texts of a crate with the edits of these bodies."""
    for body in bodies:
        texts = {**texts, **body.edit.apply(texts)}
    return texts


def fits(body: Body, batch: list[Body], texts: dict[str, str]) -> bool:
    """Whether a body and those of a batch concern different functions, and their edits apply together."""
    if any(body.concerned & other.concerned for other in batch):
        return False
    try:
        return bool(texts_with([*batch, body], texts))
    except UnfitEdit:
        return False


def in_batches(bodies: list[Body], texts: dict[str, str]) -> list[list[Body]]:
    """The bodies in batches, as few as possible and of about the same size."""
    often = collections.Counter(function for body in bodies for function in body.changed)
    batches: list[list[Body]] = [[] for _ in range(max(often.values(), default=0))]
    for body in sorted(bodies, key=lambda body: -max(often[it] for it in body.changed)):
        fitting = [batch for batch in batches if fits(body, batch, texts)]
        if not fitting:
            batches.append([])
        min(fitting or batches[-1:], key=len).append(body)
    return [batch for batch in batches if batch]


def judge(body: Body, room: Room, said: str) -> None:
    """Judges a body by what a check says, unless it says only that a function which the body calls is not proved."""
    symbols = room.symbols_of(body.changed)
    lines = {symbol: words for symbol, words in SAID.findall(said) if symbol in symbols}
    fallen = {symbol: words for symbol, words in lines.items() if not words.startswith("proved")}
    reasons = [own_reasons(symbol, said) for symbol in fallen]
    goals, gone = ([it for pair in reasons for it in pair[i]] for i in (0, 1))
    goals += [goal for words in fallen.values() for goal in UNPROVED.findall(words)]
    if not lines:
        body.judge(NOT_JUDGED, f"the check has no line for {', '.join(map(str, sorted(body.changed)))}")
    elif goals:
        body.judge(REFUSED, goals[0])
        body.gone = short_text(gone[0]) if gone else ""
    elif not fallen:
        body.judge(PROVED, ", ".join(sorted(lines)))
    elif any(OF_ANOTHER.search(words) for words in fallen.values()):
        return
    elif gone:
        body.judge(NOT_JUDGED, f"only a file of proofs that uses a name which is gone refuses it: {gone[0]}")
    else:
        body.judge(NOT_JUDGED, "; ".join(f"{symbol}: {words}" for symbol, words in fallen.items()))


def waits(control: list[Body], room: Room, said: str) -> bool:
    """Whether a control is not proved only since it calls a function that is not proved."""
    words, symbols = dict(SAID.findall(said)), [symbol for body in control for symbol in room.symbols_of(body.changed)]
    return bool(symbols) and all(OF_ANOTHER.search(words.get(symbol, "")) for symbol in symbols)


def try_batch(batch: list[Body], controls: list[Body], room: Room) -> None:
    """Tries a batch, in halves if the check says nothing about all of it, and judges what it can. A body alone is tried beside each
    control, since one may call the function that the body changes. If each of them does, the body is judged all the same."""
    fitting = [it for it in controls if fits(it, batch, room.texts)]
    control = fitting[:1]
    changed = set().union(*(body.changed for body in [*batch, *control]))
    said = room.check(texts_with([*batch, *control], room.texts), room.symbols_of(changed))
    problem = problem_of(said, room.symbols_of(control[0].changed) if control else [])
    if problem and len(batch) > 1:
        try_batch(batch[: len(batch) // 2], controls, room)
        try_batch(batch[len(batch) // 2 :], controls, room)
        return
    if problem and len(fitting) > 1:
        try_batch(batch, fitting[1:], room)
        return
    for body in batch:
        if problem and not (problem == NO_CONTROL and waits(control, room, said)):
            body.judge(NOT_JUDGED, problem)
        else:
            judge(body, room, said)


def try_without_answers(batch: list[Body], room: Room) -> None:
    """Tries bodies that an answer has refused once more, without the answers of the functions that they change."""
    symbols = room.symbols_of(set().union(*(body.changed for body in batch)))
    with room.without_answers(symbols):
        right = room.check(room.texts, symbols)
        wrong = room.check(texts_with(batch, room.texts), symbols)
    for body in batch:
        body.bare = [goal for symbol in room.symbols_of(body.changed) for goal in newly_open(symbol, right, wrong)]


def is_proved(control: Body, room: Room) -> bool:
    """Whether a control is proved when no other edit is applied."""
    symbols = room.symbols_of(control.changed)
    return not problem_of(room.check(texts_with([control], room.texts), symbols), symbols)


@dataclasses.dataclass
class Trial:
    """The wrong bodies of a crate with their verdicts, and how many batches and seconds they took."""

    bodies: list[Body]
    batches: int = 0
    seconds: float = 0

    def counts(self) -> str:
        """The counts in words."""
        count = collections.Counter(body.verdict for body in self.bodies)
        why = collections.Counter(body.verdict for body in self.bodies if body.edit.excuse)
        bare, alone = (sum(body.meets_answer() and bool(body.bare) == it for body in self.bodies) for it in (True, False))
        gone = sum(bool(body.gone) for body in self.bodies)
        misfit = f"{bare} once answers were dropped, {alone} by an answer alone, {gone} with answers to goals that are gone"
        said = [f"{count[REFUSED]} refused ({misfit})"]
        said += [f"{count[verdict]} {verdict} ({why[verdict]} with a reason)" for verdict in (PROVED, NOT_JUDGED)]
        return f"{len(self.bodies)} wrong bodies: {', '.join(said)}, {self.batches} batches, {self.seconds / 60:.1f} minutes"

    def record(self, crate: str) -> None:
        """Writes the counts into the table of results."""
        count = collections.Counter(body.verdict for body in self.bodies)
        misfits = [body for body in self.bodies if body.meets_answer()]
        row = {"crate": crate, "bodies": len(self.bodies), "refused": count[REFUSED], "first by an answer": len(misfits)}
        row |= {"by an answer alone": sum(not body.bare for body in misfits), "proved or not judged": count[PROVED] + count[NOT_JUDGED]}
        write("wrong_bodies", [row | circumstances()])

    def lacks_reasons(self) -> bool:
        """Whether a body is proved or not judged without a reason."""
        return any(body.verdict != REFUSED and not body.edit.excuse for body in self.bodies)


def tell_batch(crate: str, batch: list[Body], trial: Trial) -> None:
    """Prints the verdicts of a batch on standard error, so that they are not lost where a run is cut off."""
    judged = [body for body in batch if body.verdict]
    lines = [f"{crate}/{body.edit.label}: {body.verdict}: {body.told}\n" for body in judged]
    count = sum(bool(body.verdict) for body in trial.bodies)
    print(f"{''.join(lines)}{crate}: {count} of {len(trial.bodies)} judged", file=sys.stderr, flush=True)


def trial_of(crate: str) -> Trial:
    """Tries the wrong bodies of a crate. A body that calls another one of its batch is tried again if nothing else was said about
    it."""
    started = time.monotonic()
    trial = Trial(bodies_of(crate, "must-fail/*.edit") + bodies_of(crate, "wrong/*.edit"))
    controls = bodies_of(crate, "wrong/*.right")
    left = [body for body in trial.bodies if not body.verdict]
    why = "a function that it calls is not proved"
    with tempfile.TemporaryDirectory(prefix="wrong-bodies-") as folder:
        room = Room(crate, Path(folder))
        if not re.search(r"^logic=proved", room.prove(), re.M):
            left, why = [], "the crate itself is not proved"
        elif not all(is_proved(control, room) for control in controls):
            left, why = [], "a control is not proved, even alone"
        count = len(left) + 1
        while len(left) < count:
            count = len(left)
            for batch in in_batches(left, room.texts):
                try_batch(batch, controls, room)
                tell_batch(crate, batch, trial)
            left = [body for body in left if not body.verdict]
        for batch in in_batches([body for body in trial.bodies if body.meets_answer()], room.texts):
            try_without_answers(batch, room)
    for body in trial.bodies:
        if not body.verdict:
            body.judge(NOT_JUDGED, why)
    trial.batches, trial.seconds = room.checks - 1 - len(controls), time.monotonic() - started
    return trial


def print_trial(crate: str, trial: Trial) -> None:
    """Prints the bodies of a crate that are not refused, or are refused although their edits give a reason, and the counts."""
    for body in trial.bodies:
        label = f"{crate}/{body.edit.label}"
        if body.verdict != REFUSED:
            print(f"{label}: {body.verdict}: {body.told}")
            print(f"  why: {body.edit.why}" if body.edit.why else "  it gives no reason")
        elif body.edit.excuse:
            print(f"{label}: refused, although it gives a reason why it is not: {body.edit.excuse}")
        elif body.meets_answer() and not body.bare:
            print(f"{label}: refused by an answer alone: {body.told}")
        elif body.gone:
            print(f"{label}: refused, for {body.told}, but also because of {body.gone}")
    print(f"{crate}: {trial.counts()}", flush=True)


def build_below(names: list[str]) -> None:
    """Builds the libraries that these crates use, if they have changed."""
    try:
        prover = Prover()
        below = {it for name in names for it in prover.below(name)}
        for name in prove_in_order(prover, [it for it in prover.libraries if it in below]):
            print(f"{name}: built", file=sys.stderr, flush=True)
    except Failure as failure:
        sys.exit(f"a crate that others use is not proved: {failure}")


def checks_at_once() -> int:
    """How many checks may run at a time."""
    free = re.search(r"MemAvailable:\s+(\d+)", Path("/proc/meminfo").read_text(encoding="ascii"))
    return max(1, min(len(os.sched_getaffinity(0)), int(free[1]) * 1024 // MEMORY if free else 1))


def main() -> None:
    parser = argparse.ArgumentParser(description=__doc__, formatter_class=argparse.RawDescriptionHelpFormatter)
    parser.add_argument("--jobs", type=int, default=checks_at_once(), help="how many crates are tried at a time")
    parser.add_argument("--record", action="store_true", help="write the counts into results/wrong_bodies.tsv")
    parser.add_argument("crates", nargs="*", metavar="CRATE")
    given = parser.parse_args()
    having = [name for name in libraries_of_crates() if any((ROOT / "crates" / name / it).is_dir() for it in ("must-fail", "wrong"))]
    unknown = [name for name in given.crates if name not in having]
    if unknown or not shutil.which("rt"):
        parser.error(f"no wrong bodies in {', '.join(unknown)}" if unknown else "there is no command rt on the path")
    started, names = time.monotonic(), given.crates or having
    build_below(names)
    # The crates with the most bodies come first, so that the last ones are done at about the same time.
    names.sort(key=lambda name: -len([*(ROOT / "crates" / name).glob("*/*.edit")]))
    whole = Trial([])
    with concurrent.futures.ThreadPoolExecutor(given.jobs) as pool:
        trials = {pool.submit(trial_of, name): name for name in names}
        for done in concurrent.futures.as_completed(trials):
            print_trial(trials[done], done.result())
            if given.record:
                done.result().record(trials[done])
            whole.bodies += done.result().bodies
            whole.batches += done.result().batches
    whole.seconds = time.monotonic() - started
    print(whole.counts())
    sys.exit(whole.lacks_reasons())


if __name__ == "__main__":
    main()
