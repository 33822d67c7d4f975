"""Which fields a trace may be split by, so that the parts' tables are those of the whole; or why there are none."""

from collections.abc import Sequence
from dataclasses import dataclass
from typing import NoReturn

from marple.commands import plan
from marple.facts import Fact, facts_of, keys_of, tables_of
from marple.parts.refusals import FieldNeeded, FieldRefused, FinalGroupby, FinalOfTop
from marple.plans import FIELDS
from marple.program import Program


@dataclass(frozen=True)
class Join:
    """How a printed table is put together from those of the parts.

    keys: how many columns are its keys; best: of a `top`, the column and the number of rows; starts: where states add,
    those of the state variables.
    """

    name: str
    keys: int
    best: tuple[str, int] | None = None
    starts: tuple[int, ...] | None = None


@dataclass(frozen=True)
class Choice:
    """by: the fields whose numbers decide the part, or none if the packets may go to any part; joins: of the tables; reads:
    the fields that the query reads; splits: whether marple-tools splits by these fields if it is given the query.
    """

    by: tuple[str, ...]
    joins: tuple[Join, ...]
    reason: str
    reads: tuple[str, ...]
    splits: bool = False

    def splitting(self, query: bytes) -> list[bytes]:
        """The texts by which marple-tools may split: the query, or another one that reads the same fields; if it reads none,
        one for each field that a trace may have.
        """
        if self.splits:
            return [query]
        if not self.reads:
            return [_splitting((name,), ()) for name in FIELDS]
        keys = self.by or self.reads[:1]
        return [_splitting(keys, [name for name in self.reads if name not in keys])]


def _splitting(keys: Sequence[str], others: Sequence[str]) -> bytes:
    """A query that has these keys and reads these other fields too."""
    text = f"def part([], [{', '.join(others)}]) {{ }}\nr = groupby(pktstream, [{', '.join(keys)}], part);\nprint r;\n"
    return text.encode()


def choose(query: bytes, by: str | Sequence[str] | None, program: Program | None = None) -> Choice:
    """Chooses how the query may run in parts, by all fields that allow it or by those that are asked for: a str is one.

    Raises QueryRefused, and PartsRefused where the query can't run in parts.
    """
    if by is not None:
        by = (by,) if isinstance(by, str) else tuple(by)
    plan(query, program=program)
    facts = facts_of(query, program=program)
    parts, refused = facts["parts"], facts["parts"]["refused"]
    if refused and refused["kind"] in ("final groupby", "final of top"):
        _refuse_final(facts, refused)
    if by is not None:
        _refuse_fields(by, facts)
        return _by_fields(facts, by, "as asked for")
    if parts["by"]:
        return _by_fields(facts, tuple(parts["by"]), "keys of every groupby that is printed or read")
    if refused:
        raise FieldNeeded(_field_needed(facts))
    joins = tuple(Join(one["name"], len(one["keys"]), starts=_starts(facts, one)) for one in _printed(facts))
    return Choice((), joins, "no field is a key of every groupby, and all states add", tuple(facts["reads"]))


def _printed(facts: Fact) -> list[Fact]:
    tables = tables_of(facts)
    return [tables[name] for name in facts["prints"]]


def _by_fields(facts: Fact, by: tuple[str, ...], reason: str) -> Choice:
    joins = tuple(Join(one["name"], len(keys_of(one)), best=_best(one)) for one in _printed(facts))
    # marple-tools splits by keys of all groupbys
    splits = set(by) == set(facts["parts"]["by"]) and all(one["needed"] for one in facts["groupbys"])
    return Choice(by, joins, reason, tuple(facts["reads"]), splits)


def _fold_of(facts: Fact, groupby: Fact) -> Fact:
    return next(fold for fold in facts["folds"] if fold["name"] == groupby["fold"])


def _best(table: Fact) -> tuple[str, int] | None:
    """Column and number of a `top`."""
    best = table.get("best")
    return (best["column"], best["rows"]) if best else None


def _starts(facts: Fact, groupby: Fact) -> tuple[int, ...]:
    """The starts of the state variables of a groupby."""
    return tuple(_fold_of(facts, groupby)["initial"])


def _needed(facts: Fact) -> list[Fact]:
    """The groupbys that the printed tables are made from."""
    return [one for one in facts["groupbys"] if one["needed"]]


def _fields_of(groupby: Fact) -> list[str]:
    """The keys of a groupby that are fields of the packet."""
    return [key["name"] for key in groupby["keys"] if key["field"]]


def _refuse_final(facts: Fact, refused: Fact) -> NoReturn:
    """Refuses a final that parts don't give: it would have to see rows of several parts."""
    final = next(one for one in facts["finals"] if one["start"] == refused["start"])
    if refused["kind"] == "final groupby":
        raise FinalGroupby(
            f"{final['name']} groups rows of a table, which may be of several parts: print {final['inputs'][0]}, and group "
            "its rows where they are put together"
        )
    tops = [one["name"] for one in facts["finals"] if one["operator"] == "top"]
    top = next(name for name in final["inputs"] if name in tops)
    raise FinalOfTop(
        f"{final['name']} is made from {top}, which has the best rows of the whole and not of a part: "
        f"print {top}, and do what {final['name']} does with its rows"
    )


def _refuse_fields(by: tuple[str, ...], facts: Fact) -> None:
    fields = facts["fields"]
    if not by or len(set(by)) != len(by):
        raise FieldRefused("the fields to split by are named once each")
    for name in by:
        if name not in fields:
            raise FieldRefused(f"{name} is no field of a packet: the fields are {', '.join(fields)}")
        if name not in facts["parts"]["by"]:
            lacking = [one["name"] for one in _needed(facts) if name not in _fields_of(one)]
            why = f"it isn't a key of {', '.join(lacking)}" if lacking else "a map makes a column of that name"
            raise FieldRefused(f"the packets of a key don't stay together by {name}: {why}")


def _field_needed(facts: Fact) -> str:
    """What would make parts possible."""
    needed = _needed(facts)
    own = {one["name"]: _fields_of(one) for one in needed}
    shared = max(("srcip", *facts["fields"]), key=lambda name: sum(name in names for names in own.values()))
    lacking = ", ".join(name for name, names in own.items() if shared not in names)
    text = f"no field of the packet is a key of every groupby that is printed or read: group {lacking} by {shared} too"
    others = ", ".join(one["name"] for one in needed if not _fold_of(facts, one)["additive"])
    if not others:
        return f"{text}, or print no final (the folds add, so that without finals it may run over any pieces)"
    form = "x = x + e, where e and the conditions read no state"
    return f"{text}, or make the fold of {others} additive ({form}) and print no final"
