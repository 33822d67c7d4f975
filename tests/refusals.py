"""Reads what the prover says against a wrong change of the code, and what rt says of the gate's edits."""

from __future__ import annotations

import re

from edit_files import BadEdit

# The prover's words for a text that it can't read, in whatever file: a name that the changed code no longer has, or no text of the
# language. No contract was tried there. rt cuts long lines, so that the beginnings have to do.
VANISHED = re.compile(
    r"`goal\.[^`]*`: module `|: record `[^`]*(?:$|`\s+has no)|can be named from here|is not in scope(?! here, so what is shown)|has no field"
    r"|is no name|operand is missing|expected the end|cannot continue"
)
# A file of invariants has no proof: an error there says that a variable of a loop is gone, or has another type.
INVARIANTS = re.compile(r"\S+/Invariants\.antt:")
# An error has lines after the first one, which begin with blanks.
ERROR = re.compile(r"(?m)^(?:\./)?(\S+?:\d+:\d+: error: .*(?:\n[ \t]+.*)*)")
# A goal that the prover was to find an answer for itself.
GOAL = re.compile(r"(?m)^note: (?:\./)?(\S+?:\d+:\d+: it is not proved that .*)")
# A goal whose answer the prover sought for itself, and broke off.
SEARCH = re.compile(
    r"(?m)^note: what antt said of a `search` in the proof that rattle made: (?:\./)?(\S+?:\d+:\d+: error: .*(?:\n[ \t]+.*)*)"
)
# A function that the prover looked no further into, nor into those that call it.
UNCOVERED = re.compile(r"(?m)^fn \S+: no proof: .*the borrow checker does not cover this function.*")
OF_RT = re.compile(r"(?m)^rt: must-fail (\S+\.edit): (.*)$")


def joined(text: str) -> str:
    return " ".join(text.split())


def vanished(said: list[str]) -> str:
    """The first of these errors that is about a text which the prover can't read, if one is."""
    return next((it for it in said if VANISHED.search(it) or INVARIANTS.match(it)), "")


def said_against(status: int, text: str) -> list[str]:
    """All errors and unproved goals by which the prover refuses a crate, whole and each once; none if it is proved.

    Raises BadEdit if it didn't come to a verdict.
    """
    if status == 0:
        return []
    errors = [joined(it) for it in ERROR.findall(text)]
    said = [*dict.fromkeys(errors + [joined(it) for row in (GOAL, SEARCH) for it in row.findall(text)])]
    last = text.rstrip("\n").rpartition("\n")[2]
    uncovered = UNCOVERED.search(text)
    if uncovered:
        raise BadEdit(f"no clause was tried: {uncovered[0]}")
    if status == 1 and last.startswith("logic=not-proved"):
        return said or [last]
    if status == 3:
        return [f"by a limit of the prover: {it}" for it in said or [last]]
    raise BadEdit(f"the prover, which ended with status {status}, came to no verdict: {(errors or [last])[0]}")


def shown(said: list[str]) -> list[str]:
    """What was said against an edit. Raises BadEdit if the prover couldn't read something."""
    gone = vanished([it for it in said if ": error: " in it])
    if gone:
        raise BadEdit(f"it is refused for a name that is gone: {gone}")
    return said


def refusal(status: int, text: str) -> list[str]:
    """What the prover says against a crate with one edit, and nothing if it is proved.

    Raises BadEdit if it couldn't read something, or didn't come to a verdict.
    """
    return shown(said_against(status, text))


def of_rt(log: str) -> dict[str, str]:
    """What rt says of each of the gate's edits, by the edit, as CRATE/NAME.edit."""
    return {edit: joined(said) for edit, said in OF_RT.findall(log)}
