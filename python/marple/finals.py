"""From which finals keys were left out: a final has only the keys whose rows cover all packets."""

import warnings
from collections.abc import Callable, Mapping
from dataclasses import dataclass, replace
from typing import Optional

from marple.facts import Fact, keys_of, tables_of
from marple.tables import Answer, Table, Tables, View


class KeysLeftOut(UserWarning):
    """A final lacks keys of the groupbys that it is made from."""


@dataclass(frozen=True)
class Asking:
    """How a query is asked, so that its finals can say what they lack.

    text: the query, or the query that prints the tables `more` too; keys: the names of the keys of each final;
    sources: the groupbys that each printed final is made from; linear: those of them that leave nothing out.
    """

    text: bytes
    keys: Mapping[str, tuple[str, ...]]
    sources: Mapping[str, frozenset[str]]
    linear: frozenset[str] = frozenset()
    more: tuple[str, ...] = ()

    def without_more(self) -> "Asking":
        return replace(self, more=())

    def answer(self, whole: Answer) -> Answer:
        """The answer without the tables that weren't asked for, with the number of keys that each final lacks.

        Warns of KeysLeftOut.
        """
        views = [View(view.packets, self._told(view)) for view in whole.views]
        answer = Answer(self._told(whole), views)
        for table in answer.values():
            if table.left_out:
                warnings.warn(_words(table, self.sources[table.name]), KeysLeftOut, stacklevel=4)
        return answer

    def _told(self, tables: Tables) -> list[Table]:
        lacking = _Lacking(tables, self.linear)
        return [
            table.lacking(lacking.of(self.sources[table.name])) if table.name in self.sources else table
            for table in tables.values()
            if table.name not in self.more
        ]


def _words(table: Table, sources: frozenset[str]) -> str:
    keys = "1 key" if table.left_out == 1 else f"{table.left_out} keys"
    return (
        f"the final {table.name} lacks {keys} of {' and '.join(sorted(sources))}, whose rows don't cover all their packets: "
        "with more buckets or ways fewer keys leave the cache"
    )


class _Lacking:
    """The keys of groupbys that finals leave out, each table looked through once."""

    def __init__(self, tables: Tables, linear: frozenset[str]):
        self.tables, self.linear = tables, linear
        self.known: dict[str, frozenset[bytes]] = {}

    def of(self, sources: frozenset[str]) -> Optional[int]:
        """How many keys of these groupbys; None where one of them isn't there."""
        if any(name not in self.tables and name not in self.linear for name in sources):
            return None
        return len(frozenset().union(*(self._keys(name) for name in sources)))

    def _keys(self, name: str) -> frozenset[bytes]:
        if name in self.linear or name not in self.tables:
            return frozenset()
        if name not in self.known:
            self.known[name] = self.tables[name].keys_not_covered()
        return self.known[name]


def asking(text: bytes, facts: Callable[[], Fact]) -> Asking:
    """How to ask this query. `facts` gives its facts, or raises why there are none."""
    if b"final" not in text:
        return Asking(text, {}, {})
    known = facts()
    if known["fault"] is not None:  # what asks the query says why it is refused
        return Asking(text, {}, {})
    classes = {one["name"]: one["class"] for one in known["groupbys"]}
    tables, printed = tables_of(known), known["prints"]
    keys = {one["name"]: keys_of(one) for one in known["finals"]}
    sources = {name: _sources(tables, name) for name in printed if name in keys}
    unprinted = sorted(frozenset().union(*sources.values()) - set(printed))
    if not unprinted:
        return Asking(text, keys, sources)
    more = tuple(name for name in unprinted if classes[name] == "other")
    prints = b"".join(b"\nprint %s;" % name.encode() for name in more)
    linear = frozenset(name for name in unprinted if classes[name] == "linear")
    return Asking(text + prints + (b"\n" if more else b""), keys, sources, linear, more)


def _sources(tables: Mapping[str, Fact], name: str) -> frozenset[str]:
    """The groupbys of streams that a table is made from: itself, if it isn't made from tables."""
    inputs = tables[name].get("inputs", ())
    return frozenset().union(*(_sources(tables, one) for one in inputs)) if inputs else frozenset({name})
