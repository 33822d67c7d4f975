"""What people write who know other languages, and how it is written here: by the fault and the text around it."""

import re
from dataclasses import dataclass
from typing import Callable, Optional, Union

from query_help.hints import address_hint

NEAR = 2000  # bytes of the text before and after the place that are looked at
NANOSECONDS = {"ns": 1, "us": 10**3, "ms": 10**6, "s": 10**9, "sec": 10**9, "min": 60 * 10**9, "h": 3600 * 10**9}
PROTOCOLS = {"icmp": 1, "tcp": 6, "udp": 17, "sctp": 132}
# What stands for a fold elsewhere, and what a fold is here.
AGGREGATES = {
    "count": "`def count([c], []) { c = c + 1; }` makes one that counts.",
    "sum": "`def total([sum], [pkt_len]) { sum = sum + pkt_len; }` makes one that sums the column `pkt_len`.",
    "max": "`def greatest([m], [qsize]) { m = max(m, qsize); }` makes one for the greatest of the column `qsize`.",
    "min": "to keep a least value, keep the greatest of `infinity - qsize`, by `m = max(m, infinity - qsize);`.",
}
MEANS = "keep the sum and the number of packets in one, and divide afterwards by `examples/cookbook/quads --add`."
OTHERS = "`docs/cookbook` has folds to copy."
AGGREGATE = r"(?P<name>avg|average|mean|count|sum|total|max|min|median|percentile|stddev|variance|first|last|distinct)"

Groups = dict[str, str]


@dataclass(frozen=True)
class Habit:
    """How something is written elsewhere: its fault here, what stands before the place and at it, and what is said.

    The words are a text with the names of groups in braces, or made of the groups.
    """

    fault: str
    before: str
    here: str
    words: Union[str, Callable[[Groups], str]]

    def said(self, before: str, here: str) -> Optional[str]:
        """What is said where the texts before the place and from it on are as here."""
        one = re.search(f"(?:{self.before})\\Z", before, re.IGNORECASE)
        two = re.match(self.here, here, re.IGNORECASE)
        if one is None or two is None:
            return None
        groups = {**one.groupdict(), **two.groupdict()}
        return self.words.format(**groups) if isinstance(self.words, str) else self.words(groups)


def aggregate_words(groups: Groups) -> str:
    name = groups["name"].lower()
    is_mean = name in ("avg", "average", "mean")
    how = AGGREGATES.get({"total": "sum"}.get(name, name)) or (MEANS if is_mean else OTHERS)
    there_is = "" if name in ("max", "min") else f"; there is no `{groups['name']}`"
    return f"A groupby names a fold, which a `def` before it makes{there_is}: {how}"


def unit_words(groups: Groups) -> str:
    number = int(groups["number"]) * NANOSECONDS[groups["unit"].lower()]
    written = groups["number"] + groups["unit"]
    return f"Numbers have no unit: in a trace that counts nanoseconds, as those of captures do, {written} is {number}."


def number_words(groups: Groups) -> str:
    written = groups["number"] + groups["rest"]
    if groups["rest"][0] in "xX":
        value = int(written, 16)
    elif groups["rest"][0] in "eE":
        value = int(groups["number"]) * 10 ** int(groups["rest"][1:])
    else:
        value = int(written.replace("_", ""))
    return f"Numbers are written in digits: {written} is {value}."


def protocol_words(groups: Groups) -> str:
    name = groups["protocol"]
    return f"`proto` is a number: {name} is {PROTOCOLS[name.lower()]}."


def address_words(groups: Groups) -> str:
    return address_hint(groups["address"], 0) or NO_TEXTS


PROTOCOL = f"(?P<protocol>{'|'.join(PROTOCOLS)})"
UNIT = r"(?P<unit>ns|us|ms|sec|s|min|h)\b(?!\s*[=(])"
COMMENT = "A comment begins with `#`, and goes to the end of the line; `/` divides, and rounds down."
NO_TEXTS = "There are no texts: protocols, ports and addresses are numbers."
NO_SQL = ("This isn't SQL: a query makes streams of `pktstream`, groups them by a fold, and prints tables: "
          "`def count([c], []) {{ c = c + 1; }} r = groupby(pktstream, [srcip], count); print r;`")
HABITS = (
    Habit("UnexpectedToken", r"\bdef\s+(?P<name>\w+)\b[\s\S]*\bgroupby\s*\([^;]*,\s*(?P=name)\s*", r"\(",
          "A groupby names its fold, whose arguments are the columns of their names: write `{name}` without brackets."),
    Habit("UnexpectedToken", AGGREGATE + r"\s*", r"\(", aggregate_words),
    Habit("UnexpectedToken", r"=\s*|\bgroupby\s*\([^;]*,\s*", AGGREGATE + r"\s*\(", aggregate_words),
    Habit("UnknownName", r"\bgroupby\s*\([^;]*,\s*", AGGREGATE + r"\s*\)", aggregate_words),
    Habit("UnexpectedToken", r"\b(?:filter|if)\s*\([^;{}]*", r"=(?!=)",
          "`=` gives a name to what is after it; `==` compares."),
    Habit("UnexpectedToken", "", r"and\b(?!\s*=)", "Write `&&` for `and`."),
    Habit("UnexpectedToken", "", r"or\b(?!\s*=)", "Write `||` for `or`."),
    Habit("UnexpectedToken", r"\bnot\s+", "", "Write `!` for `not`, and what it is of in brackets: `!(proto == 6)`."),
    Habit("UnexpectedToken", r"(?:^|[;}])\s*(?:select|with)\s+", "", NO_SQL),
    Habit("UnexpectedToken", r"=\s*", r"(?:select|with)\b", NO_SQL),
    Habit("UnexpectedToken", r"=\s*", r"\w+\s+where\b", "What keeps some packets is a filter: `x = filter(pktstream, proto == 6);`."),
    Habit("UnexpectedToken", r"\bprint\s+(?P<table>\w+)\s+", r"(?:where|having|limit|order|sort)\b",
          "A final keeps some rows of a table: `final few = filter({table}, ..);`, or those that are greatest in a column: "
          "`final most = top({table}, column, 10);`. `print few;` comes after it."),
    Habit("UnexpectedToken", r"\bgroupby\s+", AGGREGATE + r"\s*\(", aggregate_words),
    Habit("UnexpectedToken", r"\bgroupby\s*\([^;]*\[\s*", r"\]",
          "A groupby has a key: for one row over all packets make a column that is the same everywhere, "
          "`everything = map(pktstream, [all = 0]);`, and take `[all]`."),
    Habit("UnexpectedToken", r"\bmap\s*\([^;]*\[\s*", r"\]", "A map makes a column: `[name = expression]`."),
    Habit("UnexpectedToken", r"(?:^|[\s;}])(?P<name>\w+)\s*=\s*", r"(?P<operator>top|join)\b",
          "`{operator}` makes a table after the last packet: write `final {name} = {operator}(..);`."),
    Habit("UnknownName", "", r"inf(?:inite)?\b", "A query writes `infinity`; `inf` stands in traces."),
    Habit("BadByte", r"//[^\n]*", "", COMMENT),
    Habit("BadByte", r"(?<![\w.])\d+", r"\.\d+(?![\w.])",
          "Numbers are whole: take a smaller unit, or multiply, as `2 * x > y` for `x > 0.5 * y`."),
    Habit("BadByte", r"(?<!\w)(?P<number>\d+)", UNIT, unit_words),
    Habit("UnexpectedToken", r"(?<!\w)(?P<number>\d+)\s+", UNIT, unit_words),
    Habit("BadByte", r"(?<!\w)(?P<number>\d+)", r"(?P<rest>x[0-9a-f]+|e\d{1,2}|(?:_\d+)+)\b", number_words),
    Habit("BadByte", "", rf"[\"']{PROTOCOL}[\"']", protocol_words),
    Habit("BadByte", "", r"[\"'](?P<address>[\d./]+)[\"']", address_words),
    Habit("BadByte", "", r"[\"']", NO_TEXTS),
    Habit("UnknownName", "", rf"{PROTOCOL}\b", protocol_words),
    Habit("UnexpectedToken", r"(?P<name>\w+)\s*", r"(?P<sign>[+-])(?P=sign)", "Write `{name} = {name} {sign} 1;`."),
    Habit("UnexpectedToken", "", r"(?P<sign>[+-])(?P=sign)\s*(?P<name>\w+)", "Write `{name} = {name} {sign} 1;`."),
    Habit("UnexpectedToken", r"(?P<name>\w+)\s*", r"(?P<sign>[-+*/%&|^]|<<|>>)=",
          "Write `{name} = {name} {sign} ..;`."),
    Habit("UnexpectedToken", "", r"/[/*]", COMMENT),
    Habit("UnexpectedToken", "/", r"/", COMMENT),
    Habit("UnexpectedToken", "", r"-\s*\w", "Numbers have no sign, and `0 - 1` is 2^64-1: "
          "for a difference take `max(a, b) - min(a, b)`, or keep what is added and what is taken away by themselves."),
)


def meant(fault: str, text: str, place: int) -> Optional[str]:
    """How what stands at the place is written here, where it is written so elsewhere."""
    before, here = text[max(0, place - NEAR):place], text[place:place + NEAR]
    found = (habit.said(before, here) for habit in HABITS if habit.fault == fault)
    return next((words for words in found if words), None)
