"""Reads DataFrames by the interchange protocol, which polars, Arrow and others have (`__dataframe__`)."""

import ctypes
from collections.abc import Sequence
from itertools import chain
from typing import Any

from marple.columns import EXACT, FLOATS, Column, cell_of, missing_cell
from marple.plans import FIELDS

INT, UINT, FLOAT, BOOL, STRING, DATETIME, CATEGORICAL = 0, 1, 2, 20, 21, 22, 23
NAMES = {INT: "int", UINT: "uint", FLOAT: "float", BOOL: "bool", STRING: "string", DATETIME: "datetime"}
NAMES[CATEGORICAL] = "category"
NEVER, NAN, SENTINEL, BITS, BYTES = range(5)  # how a column says which values are missing
CODES = {(INT, 8): "b", (INT, 16): "h", (INT, 32): "i", (INT, 64): "q", (UINT, 8): "B", (UINT, 16): "H", (UINT, 32): "I"}
CODES |= {(UINT, 64): "Q", (FLOAT, 32): "f", (FLOAT, 64): "d"}
UNITS = {"s": 10**9, "m": 10**6, "u": 1000, "n": 1}  # of times, in nanoseconds


def interchange_columns(frame: Any) -> list[Column]:
    """The columns of a DataFrame that has the protocol; without those that are no fields and that the protocol can't give, as
    lists and decimals.
    """
    whole, columns = frame.__dataframe__(), []
    chunks = list(whole.get_chunks())
    for at, name in enumerate(map(str, whole.column_names())):
        try:
            columns.append(_column(name, [chunk.get_column(at) for chunk in chunks]))
        except Exception:  # each library has its own
            if name.strip(" \t") in FIELDS:
                raise
    return columns


def _column(name: str, pieces: Sequence[Any]) -> Column:
    kind, bits, form, _ = pieces[0].dtype if pieces else (STRING, 8, "u", "=")
    own, wide, *_ = pieces[0].describe_categorical["categories"].dtype if kind == CATEGORICAL else (kind, bits)
    exact = FLOATS.get(wide // 8, EXACT) if own == FLOAT else EXACT
    values = list(chain.from_iterable(map(_values, pieces)))
    missing = missing_cell(name)
    cells = [missing if value is None else cell_of(name, value, exact) for value in values]
    shown = f"{NAMES.get(kind, kind)}{bits if kind in (INT, UINT, FLOAT) else ''}"
    if kind == DATETIME and ":" in form and not form.endswith(":"):
        shown = f"{shown}, {form.partition(':')[2]}"
    return Column(name, shown, cells, values.__getitem__, exact)


def _values(piece: Any) -> list[Any]:
    """The values of a piece of a column, None where there is none."""
    kind, bits, form, _ = piece.dtype
    size = piece.size() if callable(piece.size) else piece.size
    buffers = piece.get_buffers()
    if kind == STRING:
        values: list[Any] = _strings(buffers, piece.offset, size)
    elif kind == CATEGORICAL:
        return _categories(piece, buffers, size)
    elif kind == BOOL and bits == 1:
        values = [bool(bit) for bit in _bits(_bytes(buffers["data"][0]), piece.offset, size)]
    elif kind == BOOL:
        values = list(map(bool, _bytes(buffers["data"][0])[piece.offset : piece.offset + size]))
    else:
        values = _numbers(buffers["data"], INT if kind == DATETIME else kind, piece.offset, size)
    values = _without_missing(piece, buffers, values)
    return _times(values, form) if kind == DATETIME else values


def _bytes(buffer: Any) -> bytes:
    return ctypes.string_at(buffer.ptr, buffer.bufsize) if buffer.bufsize else b""


def _numbers(data: Any, kind: int, offset: int, size: int) -> list[Any]:
    buffer, (_, bits, _, _) = data
    if (kind, bits) not in CODES:
        raise TypeError(f"numbers of {bits} bits can't be read from a DataFrame: cast the column first")
    return memoryview(_bytes(buffer)).cast(CODES[kind, bits])[offset : offset + size].tolist()


def _strings(buffers: Any, offset: int, size: int) -> list[Any]:
    text = _bytes(buffers["data"][0])
    places = _numbers(buffers["offsets"], INT, offset, size + 1) if size else [0]
    return [text[start:end].decode("utf-8", "replace") for start, end in zip(places, places[1:])]


def _bits(content: bytes, offset: int, size: int) -> list[int]:
    return [content[at >> 3] >> (at & 7) & 1 for at in range(offset, offset + size)]


def _categories(piece: Any, buffers: Any, size: int) -> list[Any]:
    """The categories' values by their numbers, of which a negative one is none."""
    kind = buffers["data"][1][0]
    codes = _without_missing(piece, buffers, _numbers(buffers["data"], kind, piece.offset, size))
    categories = _values(piece.describe_categorical["categories"])
    return [None if code is None or code < 0 else categories[code] for code in codes]


def _without_missing(piece: Any, buffers: Any, values: list[Any]) -> list[Any]:
    """The values, with None where the column says that there is none."""
    how, mark = piece.describe_null
    if how == NEVER:
        return values
    if how == NAN:
        return [None if value != value else value for value in values]
    if how == SENTINEL:
        return [None if value == mark else value for value in values]
    if buffers.get("validity") is None:
        return values
    content = _bytes(buffers["validity"][0])
    flags: Sequence[int] = content[piece.offset : piece.offset + len(values)]
    if how == BITS:
        flags = _bits(content, piece.offset, len(values))
    return [None if flag == mark else value for value, flag in zip(values, flags)]


def _times(values: list[Any], form: str) -> list[Any]:
    """Times that have a zone in nanoseconds since 1970; others as what is refused, since nobody knows when they were."""
    unit, _, zone = form[2:].partition(":")
    if zone:
        return [None if value is None else value * UNITS[unit] for value in values]
    return [None if value is None else f"{value} without a time zone" for value in values]
