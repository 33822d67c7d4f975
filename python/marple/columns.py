"""The columns of a DataFrame as the text of a trace, and why the program refuses one of their values."""

import csv
import io
import math
from collections.abc import Callable, Sequence
from dataclasses import dataclass
from datetime import datetime, timezone
from decimal import Decimal
from ipaddress import IPv4Address
from numbers import Integral, Rational, Real
from typing import Any, Union

from marple.faults import TraceRefused

Cell = Union[str, int]
EXACT = 2**53  # from here on not every whole number is a float of 64 bits
FLOATS = {2: 2**11, 4: 2**24, 8: EXACT}  # the same of floats by their bytes
DROPPED = "tout"  # the field that may have no value
EPOCH = datetime(1970, 1, 1, tzinfo=timezone.utc)


@dataclass(frozen=True)
class Column:
    """A column of a DataFrame.

    type: what the library calls the type of its values; cells: what stands for them in a trace; value: the value of a
    row, from 0, or None; exact: from which number on its floats aren't exact.
    """

    name: str
    type: str
    cells: Sequence[Cell]
    value: Callable[[int], object]
    exact: int = EXACT


def text_of(columns: Sequence[Column]) -> bytes:
    """The trace of these columns: their names, and a record for each row, as the module csv writes them.

    Raises TraceRefused where two columns have one name.
    """
    names = [column.name for column in columns]
    twice = next((name for name in names if names.count(name) > 1), None)
    if twice is not None:
        raise TraceRefused("FieldTwice", None, twice, why=f"two columns of the DataFrame have the name {twice!r}")
    out = io.StringIO(newline="")
    # The module quotes what stands in its line end, and a lone CR ends a record too.
    writer = csv.writer(out, lineterminator="\r\n" if _has_return(columns) else "\n")
    writer.writerow(names)
    writer.writerows(zip(*(column.cells for column in columns), strict=True))
    return out.getvalue().encode("utf-8", "replace")


def _has_return(columns: Sequence[Column]) -> bool:
    texts = [column.name for column in columns]
    for column in columns:
        texts += [cell for cell in column.cells if isinstance(cell, str)] if column.type not in NUMERIC else []
    return any("\r" in text for text in texts)


NUMERIC = frozenset(f"{kind}{bits}" for kind in ("int", "uint", "float") for bits in (8, 16, 32, 64))


def is_missing(value: Any) -> bool:
    """Whether a value stands for none: None, a number or a time that is none, and the NA of pandas."""
    kind = type(value).__name__
    if value is None or kind in ("NAType", "NaTType"):
        return True
    if isinstance(value, Decimal):
        return value.is_nan()
    return (isinstance(value, Real) or kind == "datetime64") and bool(value != value)


def is_boolean(value: object) -> bool:
    """Whether it is one, of Python or of numpy."""
    return type(value).__name__ in ("bool", "bool_")


def is_whole(value: object) -> bool:
    """Whether its type has whole numbers only; numpy's durations count as such for Python, and aren't here."""
    return isinstance(value, Integral) and not is_boolean(value) and type(value).__name__ != "timedelta64"


def cell_of(name: str, value: Any, exact: int = EXACT) -> Cell:
    """What stands for a value in a trace. Of a type that has no numbers it is what the program refuses, whatever its text is."""
    if isinstance(value, str) or type(value) is int:
        return value
    if is_missing(value):
        return missing_cell(name)
    if is_whole(value):
        return int(value)
    if isinstance(value, (Real, Decimal)) and not isinstance(value, Integral):
        return float_cell(value, exact_of(value, exact))
    if isinstance(value, datetime) and value.tzinfo is not None:
        return nanoseconds(value)
    return str(value) if isinstance(value, IPv4Address) else f"{type(value).__name__}: {value}"


def missing_cell(name: str) -> str:
    """A dropped packet has no time at which it left the queue."""
    return "inf" if name.strip(" \t") == DROPPED else ""


def exact_of(value: object, exact: int = EXACT) -> int:
    """From which number on a number that needn't be whole isn't exact: a float of its size, or of a column's."""
    return 2**64 if isinstance(value, (Rational, Decimal)) else min(exact, FLOATS.get(getattr(value, "itemsize", 8), EXACT))


def float_cell(value: Any, exact: int = EXACT) -> Cell:
    """A whole number that is exact, `inf`, or else the value with its point or exponent, which is no number of a trace."""
    if value == math.inf:
        return "inf"
    return int(value) if 0 <= value < exact and value % 1 == 0 else repr(value)


def nanoseconds(time: datetime) -> int:
    """The nanoseconds since 1970 of a time that has a zone."""
    own = getattr(time, "value", None)  # of pandas.Timestamp, which has more digits than a datetime
    if isinstance(own, int):
        return own
    since = time - EPOCH
    return ((since.days * 86400 + since.seconds) * 10**6 + since.microseconds) * 1000


def explained(refused: TraceRefused, columns: Sequence[Column]) -> TraceRefused:
    """The refusal of a trace that was made of these columns, with the value that was refused."""
    if refused.fault == "FieldMissing":
        why = f"the columns of the DataFrame are {', '.join(repr(column.name) for column in columns)}"
        return TraceRefused(refused.fault, refused.record, refused.field, refused.path, why)
    column = next((one for one in columns if one.name.strip(" \t") == refused.field), None)
    if column is None or refused.record is None or refused.fault != "BadNumber":
        return refused
    place = f"column {column.name!r} ({column.type}), row {refused.record}"
    why = f"{place}: {_fault_of(column, column.value(refused.record - 1))}"
    return TraceRefused(refused.fault, refused.record, refused.field, refused.path, why)


def _fault_of(column: Column, value: Any) -> str:
    """What keeps the value of a column from being a number of a trace."""
    if is_missing(value):
        return "there is no value, which only `tout` may lack"
    if is_boolean(value):
        return f"{value} is a boolean"
    if isinstance(value, datetime):
        return f"{value} " + ("is before 1970" if value.tzinfo else "has no time zone: Series.dt.tz_localize gives it one")
    if is_whole(value):
        return f"{value} is negative" if value < 0 else f"{value} is 2^64 or more"
    if isinstance(value, (Real, Decimal)) and not isinstance(value, Integral):
        return _fault_of_float(column, value)
    return f"{value!r} is no number"


def _fault_of_float(column: Column, value: Any) -> str:
    if value == math.inf:
        return "inf stands for a dropped packet, in `tout` only"
    if value < 0:
        return f"{value} is negative"
    if value >= 2**64 or value % 1 != 0:
        return f"{value} is 2^64 or more" if value >= 2**64 else f"{value} has a fraction"
    exact = exact_of(value, column.exact)
    return (
        f"{value} is a float of 2^{exact.bit_length() - 1} or more, whose last digits are lost: read the column as text, "
        f"by dtype={{{column.name!r}: str}}"
    )
