"""Reads edits, small wrong changes of a crate: a line `file: PATH`, and then pairs of lines `old: TEXT` and `new: TEXT`."""

from __future__ import annotations

import re
from collections.abc import Mapping
from pathlib import Path
from typing import NamedTuple

# The head of a function, with its attributes, in lines of their own. The prover says of a function that it is at its first attribute.
HEAD = re.compile(r"(?m)^(?: *#\[.*\]\n)* *(?:pub(?:\([^)]*\))? )?(?:const )?fn (\w+)")
# A line of what the prover says begins with its place.
PLACE = re.compile(r"(?:by a limit of the prover: )?(\S+?):(\d+):\d+: ")


class BadEdit(Exception):
    """An edit that can't be applied, or whose refusal shows nothing."""


class Function(NamedTuple):
    """A function of a crate. name: empty for what stands before a file's first function, or is no source."""

    file: str
    name: str


class Edited(NamedTuple):
    """Files as edits change them, by their paths in the crate's folder, and the functions that they change there."""

    texts: dict[str, str]
    functions: frozenset[Function]


def function_at(text: str, at: int) -> str:
    """The name of the last function whose head is at this place of a source or before it."""
    return next((it[1] for it in reversed([*HEAD.finditer(text)]) if it.start() <= at), "")


def edited(edit: Path, folder: Path, before: Mapping[str, str] | None = None) -> Edited:
    """What an edit makes of a crate, in which earlier edits may have made these files."""
    path, old, texts, functions = "", "", {**(before or {})}, set()
    for line in edit.read_text(encoding="utf-8").split("\n"):
        key, _, text = line.partition(":")
        text = text.removeprefix(" ")
        if key == "file":
            path = text.strip()
        elif key == "old":
            old = text
        elif key == "new":
            if path not in texts:
                texts[path] = (folder / path).read_text(encoding="utf-8")
            times = texts[path].count(old) if old else 0
            if times != 1:
                raise BadEdit(f"{path} has the text {old!r} {times} times")
            functions.add(Function(path, function_at(texts[path], texts[path].index(old))))
            texts[path] = texts[path].replace(old, text)
    if not functions:
        raise BadEdit("it changes nothing")
    return Edited(texts, frozenset(functions))


def all_edited(edits: list[Path], folder: Path) -> dict[str, str]:
    """The files that these edits change together."""
    texts: dict[str, str] = {}
    for edit in edits:
        texts = edited(edit, folder, texts).texts
    return texts


def groups_of(edits: list[Path], folder: Path) -> list[list[Path]]:
    """The edits in groups that one check can try: no two of a group change the same function. What isn't in a function, or can't
    be applied, is by itself.

    A function is proved by the contracts of others, never by their bodies, so that no edit of a group changes what is said of
    another.
    """
    groups: list[tuple[list[Path], set[Function]]] = []
    for edit in edits:
        try:
            functions = edited(edit, folder).functions
        except (BadEdit, OSError):
            functions = frozenset({Function("", "")})
        apart = not all(it.name for it in functions)
        for group, taken in [] if apart else groups:
            if all(it.name for it in taken) and not functions & taken and can_join(edit, group, folder):
                group.append(edit)
                taken |= functions
                break
        else:
            groups.append(([edit], {*functions}))
    return [group for group, _ in groups]


def can_join(edit: Path, group: list[Path], folder: Path) -> bool:
    """Whether the edit's texts still stand once after those of the group."""
    try:
        edited(edit, folder, all_edited(group, folder))
    except BadEdit:
        return False
    return True


def function_on(text: str, line: int) -> str:
    """The name of the last function whose head is on this line of a source or before it."""
    return function_at(text, len("".join(text.splitlines(keepends=True)[:line])) - 1)


def is_about(said: str, function: Function, texts: Mapping[str, str]) -> bool:
    """Whether what the prover said of a crate with these files is about the function: its body, or a file of its proof."""
    place = PLACE.match(said)
    if not place:
        return False
    path, line = place[1], int(place[2])
    if path == function.file:
        return function_on(texts[path], line) == function.name
    module = function.file.removeprefix("src/").removesuffix(".rt")
    return path.startswith(f"proofs/{module}/") and path.split("/")[-2].removeprefix("+") == function.name


def with_function(said: str, texts: Mapping[str, str], folder: Path) -> str:
    """What the prover said of a crate with these files, and after it the function, if it is about a place in a source."""
    place = PLACE.match(said)
    source = folder / place[1] if place and place[1].startswith("src/") else None
    if not place or not source or not source.is_file():
        return said
    text = texts[place[1]] if place[1] in texts else source.read_text(encoding="utf-8")
    name = function_on(text, int(place[2]))
    return f"{said}; in `{name}`" if name else said
