"""Which places in a fold's body are shown where it isn't linear, additive or monotone: those nearest to what was meant."""

from collections.abc import Iterable
from dataclasses import dataclass

from query_help.facts import Fact

# The operators that one of the two forms allows: sums and products, or maxima and saturating sums.
FORMS = {"sums": ("+", "-", "*"), "maxima": ("max", "sadd")}


@dataclass(frozen=True)
class Cause:
    """What spoils a variable, the byte where it stands, and the variable that it reads there.

    What spoils is an operator, or a condition: "greatest" or "least" where it only keeps that of the variable and a
    value in the variable, else "if".
    """

    op: str
    start: int
    reads: str


def cause_of(fact: Fact) -> Cause:
    return Cause(fact["operator"] or fact["keeps"] or "if", fact["start"], fact["reads"] or "")


def distinct(causes: Iterable[Cause]) -> list[Cause]:
    return sorted(set(causes), key=lambda cause: cause.start)


def mixes(cause: Cause, form: str) -> bool:
    """Is the cause an operator that the other form would allow?"""
    return any(cause.op in operators for name, operators in FORMS.items() if name != form)


def why_other(fold: Fact) -> list[Cause]:
    """What keeps the fold from being linear, in the order of the text; none where it is linear.

    Where nothing but the other form's operators spoils either reading, the fold mixes sums and maxima: then the causes
    are one of each, with the op "forms".
    """
    readings = {form: [cause_of(fact) for fact in fold["spoilt"][form]] for form in FORMS}
    if fold["class"] == "linear" or not all(readings.values()):
        return []
    own = {form: [cause for cause in causes if not mixes(cause, form)] for form, causes in readings.items()}
    if not any(own.values()):
        firsts = [distinct(causes)[0] for causes in readings.values()]
        return distinct(Cause("forms", cause.start, cause.reads) for cause in firsts)
    # The reading with fewer spoilt variables is nearer to what was meant.
    form = min((form for form in FORMS if own[form]), key=lambda form: len(readings[form]))
    return distinct(own[form])


def why_not_monotone(fold: Fact) -> list[Cause]:
    return distinct(cause_of(fact) for fact in fold["spoilt"]["monotone"])


def why_not_additive(fold: Fact) -> list[Cause]:
    """The first statement that isn't `x = x + e` or `x = x - e`, or has the state in e or in a condition around it."""
    fact = fold["spoilt"]["additive"]
    return [cause_of(fact)] if fact else []
