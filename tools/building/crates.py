"""The crates that the programs stand on, as crates.txt lists them, and what each is made from."""

from __future__ import annotations

import hashlib
import re
from dataclasses import dataclass
from graphlib import CycleError, TopologicalSorter
from pathlib import Path
from typing import Dict, Iterator, List, Tuple

SOURCES = ("src", "specs", "proofs")


class Unreadable(Exception):
    """A file of the repository doesn't say what it should."""


@dataclass(frozen=True)
class Crate:
    """A line of crates.txt: the crate, the repository's crates that it names and the toolchain's libraries."""

    name: str
    folder: Path
    crates: Tuple[str, ...]
    libraries: Tuple[str, ...]

    @property
    def is_program(self) -> bool:
        return (self.folder / "src/main.rt").is_file()

    @property
    def root(self) -> str:
        return "src/main.rt" if self.is_program else "src/lib.rt"

    @property
    def program(self) -> Path:
        """The program of a crate that is one."""
        return self.folder / "out" / self.name

    @property
    def command(self) -> str:
        """The name of the program of a crate that is one: names of crates have no `-`."""
        return self.name.replace("_", "-")

    def sources(self) -> Iterator[Path]:
        for part in SOURCES:
            yield from sorted(it for it in (self.folder / part).rglob("*") if it.is_file())

    def size(self) -> int:
        return sum(it.stat().st_size for it in self.sources())


def read_crates(top: Path) -> Dict[str, Crate]:
    """Returns the crates of crates.txt, whose lines are NAME: LIBRARY .., by name."""
    lines = {}
    for number, text in enumerate((top / "crates.txt").read_text(encoding="utf-8").splitlines(), 1):
        text = text.partition("#")[0].strip()
        if text and not re.fullmatch(r"\w+ *:[\w ]*", text):
            raise Unreadable(f"crates.txt: line {number} isn't NAME: LIBRARY ..")
        if text:
            name, _, uses = text.partition(":")
            lines[name.strip()] = uses.split()
    return {
        name: Crate(
            name,
            top / "crates" / name,
            tuple(it for it in uses if it in lines),
            tuple(it for it in uses if it not in lines),
        )
        for name, uses in lines.items()
    }


def programs_of(crates: Dict[str, Crate]) -> List[Crate]:
    """Returns the crates that are programs, as crates.txt lists them."""
    return [it for it in crates.values() if it.is_program]


def in_order(crates: Dict[str, Crate]) -> List[Crate]:
    """Returns all crates, each after those that it names."""
    try:
        return [crates[it] for it in TopologicalSorter({it.name: it.crates for it in crates.values()}).static_order()]
    except CycleError as error:
        raise Unreadable(f"crates.txt: {error.args[1][0]} depends on itself") from error


def with_those_below(name: str, order: List[Crate]) -> List[Crate]:
    """Returns the crate of this name and all that it stands on, as they are in order, each after those that it names."""
    found = {name}
    for crate in reversed(order):
        if crate.name in found:
            found.update(crate.crates)
    return [it for it in order if it.name in found]


def needed(crates: Dict[str, Crate], *names: str) -> List[Crate]:
    """Returns the crates of these names and all that they stand on, each after those that it names."""
    for name in names:
        if name not in crates:
            raise Unreadable(f"crates.txt: there is no line for {name}")
    order = in_order(crates)
    found = {it.name for name in names for it in with_those_below(name, order)}
    return [it for it in order if it.name in found]


def sum_of(file: Path) -> str:
    return hashlib.sha256(file.read_bytes()).hexdigest() if file.is_file() else "none"


def digest(crate: Crate, below: Dict[str, str], toolchain: str) -> str:
    """Returns a sum of all that the crate's proof is made from: the toolchain, its line, its files, the crates below."""
    total = hashlib.sha256(repr((toolchain, crate.name, crate.crates, crate.libraries)).encode())
    for file in crate.sources():
        total.update(f"{file.relative_to(crate.folder)} {sum_of(file)}\n".encode("utf-8", "surrogateescape"))
    total.update(" ".join(below[it] for it in crate.crates).encode())
    return total.hexdigest()


def digests(order: List[Crate], toolchain: str) -> Dict[str, str]:
    """Returns each crate's sum, of crates that come lowest first."""
    sums: Dict[str, str] = {}
    for crate in order:
        sums[crate.name] = digest(crate, sums, toolchain)
    return sums
