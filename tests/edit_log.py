"""The log of tried edits, bench/edits/log.txt, and the table of docs/TESTING.md that is made of it.

The log has for each edit a line `VERDICT: CRATE/FOLDER/NAME.edit, N s`, and after it, indented, a line for each thing that the
prover said against it, with the function at its end if it is said of a place in a source.
"""

from __future__ import annotations

import os
import re
from collections.abc import Iterable, Mapping
from pathlib import Path
from typing import NamedTuple

from checks import TOP
from edit_files import edited

LOG, PAGE = TOP / "bench/edits/log.txt", TOP / "docs/TESTING.md"
HEAD = re.compile(r"([A-Z a-z]+): ([\w/-]+\.edit), (\d+) s")
COLUMNS = "| Wrong body | Crate | Edit | Refused by |\n|---|---|---|---|\n"
# A place, with or without its line; then a goal, or what isn't proved with the goal's name at the end.
ERROR = re.compile(r"(?:by a limit of the prover: )?(\S+?)(?::\d+:\d+)?: error: `([^`]+)`")
UNPROVED = re.compile(r"(?:by a limit of the prover: )?(\S+?):\d+:\d+: it is not proved that (.*) \(`([^`]+)`\)")
# Goals of functions that call one another begin with the function's name; their proofs are in one folder, whose name begins with `+`.
ENSURED = re.compile(r"(?:(\w+)-)?(returns\b.*)")
ASKED = re.compile(r"what `([^`]+)` requires")
# The file of the place with which a line begins.
FILE = re.compile(r"(?m)^(?:by a limit of the prover: )?((?:src|specs|proofs)/[^\s:]+\.(?:rt|antt))")
# The function of a place in a source, which tests/edits adds.
OWNER = re.compile(r"; in `(\w+)`$")
# A goal of safety: that a sum fits, that an index is in range. It says nothing of what a function means.
BOUND = re.compile(r"(?:overflow_|slice_bounds|cast|unreachable-|(?:index|slice)(?:_mut)?-(?:.*-)?requires)")
# A goal of a loop, in which the branch may stand after it.
KEPT = re.compile(r"-(?:preserved|init)\b")
MEANING = 3  # goals of this rank or a lower one are about what a function promises or a call requires, or about a law
NOTHING = "not shown"
GATE = "the gate"  # which tries the edits of must-fail in each run


class Tried(NamedTuple):
    """What a try of an edit came to: `refused`, or else; all that was said against it; and how long it took."""

    verdict: str
    said: list[str]
    seconds: float


class Goal(NamedTuple):
    """What wasn't proved. rank: the lower, the more it says of the contract; words: its name, and where it is."""

    rank: int
    words: str


def block_of(edit: str, tried: Tried) -> str:
    """The lines of an edit in the log."""
    return f"{tried.verdict}: {edit}, {tried.seconds:.0f} s\n" + "".join(f"    {it}\n" for it in tried.said)


def read_log(text: str) -> dict[str, Tried]:
    """What the log has of each edit."""
    log: dict[str, Tried] = {}
    said: list[str] = []
    for line in text.splitlines():
        head = HEAD.fullmatch(line)
        if head:
            said = []
            log[head[2]] = Tried(head[1], said, float(head[3]))
        elif line.startswith("    ") and log:
            said.append(line[4:])
        else:
            raise ValueError(f"a line of the log is of no edit: {line!r}")
    return log


def add_to_log(file: Path, tried: Mapping[str, Tried], there: Iterable[str]) -> None:
    """Puts these edits into the log, in place of what it had of them, and takes out those that are no longer there."""
    kept = read_log(file.read_text(encoding="utf-8")) if file.exists() else {}
    log = {edit: one for edit, one in {**kept, **tried}.items() if edit in {*there}}
    half = file.with_name(f"{file.name}.half")
    half.write_text("".join(block_of(edit, log[edit]) for edit in sorted(log)), encoding="utf-8")
    os.replace(half, file)


def name_of(edit: Path) -> str:
    """The name of an edit's file in the log."""
    return str(edit.relative_to(TOP / "crates"))


def all_edits() -> list[str]:
    """All edits of the tree, as the log names them."""
    return [name_of(it) for row in ("must-fail", "edits") for it in sorted(TOP.glob(f"crates/*/{row}/*.edit"))]


def place_of(file: str) -> str:
    """The function whose proof a file is of, or else the file."""
    parts = file.split("/")
    return f"`{parts[-2]}`" if parts[-1] in ("Answers.antt", "Invariants.antt") and len(parts) > 2 else f"`{file}`"


def goal_of(said: str) -> Goal | None:
    """What one thing that the prover said is about; None where it names no goal."""
    unproved, owner = UNPROVED.match(said), OWNER.search(said)
    found = unproved or ERROR.match(said)
    if not found:
        return None
    place = f"`{owner[1]}`" if owner else place_of(found[1])
    return goal_at(place, unproved[3], unproved[2]) if unproved else goal_at(place, found[2], "")


def goal_at(place: str, goal: str, words: str) -> Goal:
    """The goal of this name at a place, of which the prover may have said in words what it is."""
    ensured = ENSURED.fullmatch(goal) if words or place.startswith("`+") else None
    if ensured and ensured[1]:
        place, goal = f"`{ensured[1]}`", ensured[2]
    start, clause = goal.split("-", 1)[0], goal.partition("-clause-")[2]
    if BOUND.match(goal):
        return Goal(MEANING + 2, f"the bound `{goal}` in {place}")
    called = ASKED.match(words) or re.match(r"(.+?)(?:-\w+)*?-requires\b", goal)
    if called:
        return Goal(2, f"what `{called[1]}` requires{f', clause `{clause}`,' * bool(clause)} in {place}")
    if start.startswith("returns"):
        return Goal(0, f"clause `{clause}` of {place}") if clause else Goal(1, f"what {place} ensures")
    if start.startswith("invariant_of"):
        return Goal(MEANING + 1, f"the invariant in {place}")
    if start == "loop" or KEPT.search(goal):
        return Goal(MEANING + 1, f"a loop's invariant in {place}")
    is_law = place.endswith(".antt`")
    return Goal(MEANING if is_law else MEANING + 1, f"goal `{goal}` in {place}")


def best_goal(tried: Tried) -> Goal:
    """The goal that says most of the contract, among those at which an edit was refused."""
    return min((goal for goal in map(goal_of, tried.said) if goal), key=lambda one: one.rank, default=Goal(MEANING + 3, NOTHING))


def shows_its_meaning(tried: Tried) -> bool:
    """Whether an edit was refused, and what the prover said names what a function ensures, what a call requires, or a law.

    An invariant is a step of a proof, which could be another for the same contract: it shows nothing, and a bound neither.
    """
    return tried.verdict == "refused" and best_goal(tried).rank <= MEANING


def is_of_now(edit: str, tried: Tried) -> bool:
    """Whether the log names a function that the edit changes now, if it changes one, and only files that are there."""
    path = TOP / "crates" / edit
    folder, said = path.parent.parent, "\n".join(tried.said)
    names = {it.name for it in edited(path, folder).functions if it.name}
    are_there = all((folder / it).exists() for it in FILE.findall(said))
    return are_there and (not names or any(re.search(rf"\b{it}\b", said) for it in names))


def refused_by(tried: Tried) -> str:
    return best_goal(tried).words if tried.verdict == "refused" else tried.verdict.lower()


def edits_of_row(crates: str, edits: str, there: Iterable[str]) -> list[str]:
    """The edits that the cells of a row name: each crate has its edit, or one of both is there once."""
    owners, names = re.findall(r"`(\w+)`", crates), re.findall(r"`(\w+)`", edits)
    count = max(len(owners), len(names))
    if len(owners) not in (1, count) or len(names) not in (1, count):
        raise ValueError(f"{crates} have other edits than {edits}")
    pairs = zip(owners * count if len(owners) == 1 else owners, names * count if len(names) == 1 else names)
    found = []
    for crate, name in pairs:
        own = [it for it in there if re.fullmatch(rf"{crate}/(must-fail|edits)/{name}\.edit", it)]
        if len(own) != 1:
            raise ValueError(f"{crate} has {len(own)} edits {name}")
        found += own
    return found


def cell_of(edit: str, log: Mapping[str, Tried]) -> str:
    """What refused an edit, as the table has it."""
    if edit in log:
        return refused_by(log[edit])
    return GATE if "/must-fail/" in edit else "not in the log"


def summary(log: Mapping[str, Tried], there: list[str]) -> str:
    """How many edits there are, and of how many the log shows by what they were refused."""
    known = [log[it] for it in there if it in log]
    ranks = [best_goal(one).rank for one in known if one.verdict == "refused"]
    meaning, none = sum(map(shows_its_meaning, known)), sum(it > MEANING + 2 for it in ranks)
    return (
        f"Of the {len(there)} edits the log has {len(known)}, of which {len(ranks)} were refused: {meaning} by a clause or a law that the "
        f"prover names, {len(ranks) - meaning - none} only by an invariant or a bound, and {none} without a goal.\n"
    )


def with_table(page: str, log: Mapping[str, Tried], there: list[str]) -> str:
    """The page with the last column of its table, and the sentence after it, as the log has them."""
    before, columns, after = page.partition(COLUMNS)
    if not columns:
        raise ValueError("the page has no table of wrong bodies")
    rows, end, rest = after.partition("\n\n")
    lines = []
    for row in rows.split("\n"):
        body, crates, edits = [cell.strip() for cell in row.strip("|").split("|")][:3]
        cell = "; ".join(cell_of(it, log) for it in edits_of_row(crates, edits, there))
        lines.append(f"| {body} | {crates} | {edits} | {cell} |")
    if rest.startswith("Of the "):
        rest = rest.partition("\n\n")[2]
    return before + columns + "\n".join(lines) + end + summary(log, there) + "\n" + rest
