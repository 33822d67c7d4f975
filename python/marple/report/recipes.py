"""The cookbook's queries over a trace: their texts, their tables, and what their marks say."""

import re
import warnings
from collections.abc import Iterable, Iterator, Mapping
from dataclasses import dataclass
from pathlib import Path
from typing import Optional

from marple.commands import run
from marple.faults import InputError
from marple.finals import KeysLeftOut
from marple.places import CHECKOUT
from marple.program import Program
from marple.tables import Mark, Table

BUNDLED = Path(__file__).resolve().parent / "cookbook"
FLOW = ("srcip", "dstip", "srcport", "dstport", "proto")
WIDTH = re.compile(r"\bbin = t(?:in|out) / ([0-9]+)")

Key = tuple[int, ...]
Row = Mapping[str, int]


@dataclass(frozen=True)
class Recipe:
    """A query of the cookbook with its answer over a trace. name: its file without `.query`; text: the file."""

    name: str
    text: str
    table: Table

    @property
    def file(self) -> str:
        return f"{self.name}.query"

    @property
    def about(self) -> str:
        """The comment at the beginning of the file."""
        lines = []
        for line in self.text.splitlines():
            if not line.startswith("#"):
                break
            lines.append(line.removeprefix("#").strip())
        return " ".join(lines)

    @property
    def width(self) -> int:
        """How many nanoseconds a bin has, of a query that has bins of time."""
        found = WIDTH.search(self.text)
        if found is None:
            raise ValueError(f"{self.file} has no bins of time")
        return int(found[1])

    @property
    def mark(self) -> str:
        """What the table's rows hold for, in a word: that of the worst row, or whether a final has all keys."""
        if self.table.kind == "final":
            return "all keys" if self.table.left_out == 0 else "keys left out"
        return str(self._worst) if len(self.table) else "no rows"

    @property
    def _worst(self) -> Mark:
        return Mark(max(self.table.words("mark")))

    @property
    def mark_words(self) -> str:
        """What the table's rows hold for, in a sentence."""
        if self.table.kind == "final":
            return words_of_final(self.table.left_out)
        rows = counted(len(self.table), "row")
        if not len(self.table) or self._worst == Mark.EXACT:
            return f"{rows}, each exact"
        if self._worst == Mark.VALID:
            return f"{rows}, each valid"
        return f"{rows}; {counted(len(self.table.keys_not_covered()), 'key')} with invalid rows left out of this page"

    def rows(self) -> Iterator[Row]:
        """The rows that cover all packets of their key, as words by the names of columns."""
        columns = [self.table.words(name) for name in self.table.columns]
        for words in zip(*columns):
            row = dict(zip(self.table.columns, words))
            if self.table.kind == "final" or row["mark"] in (Mark.EXACT, Mark.VALID):
                yield row

    def by_flow(self) -> dict[Key, Row]:
        """The rows by their flows, of a table that has one for each."""
        return {flow_of(row): row for row in self.rows()}


def words_of_final(left_out: Optional[int]) -> str:
    if left_out is None:
        return "a final: it isn't known whether keys were left out"
    if left_out == 0:
        return "a final: no keys were left out"
    return f"a final: {counted(left_out, 'key')} left out, whose rows don't cover all their packets"


def counted(number: int, noun: str) -> str:
    return f"{number:,} {noun}" + ("" if number == 1 else "s")


def flow_of(row: Row) -> Key:
    return tuple(row[name] for name in FLOW)


def query_text(name: str) -> str:
    """The text of a query of the cookbook, in a wheel or in the checkout. Raises InputError."""
    bundled = BUNDLED / f"{name}.query"
    path = bundled if bundled.is_file() else CHECKOUT / "examples" / "cookbook" / f"{name}.query"
    try:
        return path.read_text(encoding="utf-8")
    except OSError as fault:
        raise InputError(f"cannot read the query {path}: {fault.strerror}") from fault


def run_recipes(names: Iterable[str], trace: Path, program: Optional[Program] = None) -> dict[str, Recipe]:
    """The answers of these queries over the trace, by their names. Raises what `marple.run` raises.

    Each query has one table. How many keys a final lacks is told on the page, so that no warning is given.
    """
    answers = {}
    for name in names:
        text = query_text(name)
        with warnings.catch_warnings():
            warnings.simplefilter("ignore", KeysLeftOut)
            (table,) = run(text.encode(), trace, program=program).values()
        answers[name] = Recipe(name, text, table)
    return answers
