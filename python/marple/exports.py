"""Tables for other libraries, as files, and as they are shown."""

import html as escaping
import importlib
import os
from collections.abc import Callable, Sequence
from typing import IO, Any, Optional, Union

from marple.tables import Mark, Table

Path = Union[str, "os.PathLike[str]"]
ADDRESSES = ("srcip", "dstip")
SHOWN = 10  # rows
MARK_NAMES = [str(mark) for mark in Mark]


def _module(name: str, what: str, where: str) -> Any:
    """A module that need not be there. Raises ImportError with what to install."""
    try:
        return importlib.import_module(name)
    except ImportError as missing:
        raise ImportError(f"{what} need {name}: {where}") from missing


def address(word: int) -> str:
    """An IPv4 address as people write it; a greater number as it is."""
    if word >> 32:
        return str(word)
    return f"{word >> 24}.{word >> 16 & 255}.{word >> 8 & 255}.{word & 255}"


def _addresses(words: Sequence[int]) -> list[str]:
    known = {word: address(word) for word in set(words)}
    return [known[word] for word in words]


def _is_epoch(table: Table, at: int) -> bool:
    return table.form.has_epoch and table.form.mark is not None and at == table.form.mark + 1


def to_pandas(table: Table, addresses: bool = False) -> Any:
    """See Table.to_pandas."""
    pandas = _module("pandas", "DataFrames", "install python3-pandas (Debian), or pip install pandas")
    numpy = _module("numpy", "DataFrames", "install python3-numpy (Debian), or pip install numpy")
    keys = len(table.keys or ())
    index = _index(pandas, numpy, table, keys, addresses) if keys else pandas.RangeIndex(len(table))
    columns = [_pandas_column(pandas, numpy, table, at, addresses) for at in range(keys, len(table.columns))]
    frame = pandas.DataFrame(dict(enumerate(columns)), index=index, copy=True)
    frame.columns = list(table.columns[keys:])  # of which two may have one name
    return frame


def _pandas_column(pandas: Any, numpy: Any, table: Table, at: int, addresses: bool) -> Any:
    """A column as the array that pandas has for it."""
    words = numpy.frombuffer(table.arrays[at], dtype=numpy.uint64)
    if at == table.form.mark:
        return pandas.Categorical.from_codes(words.astype("int8"), MARK_NAMES)
    if _is_epoch(table, at):
        marks = numpy.frombuffer(table.arrays[at - 1], dtype=numpy.uint64)
        return pandas.arrays.IntegerArray(words.copy(), marks == Mark.EXACT)
    return _readable(numpy, table, at, words, addresses)


def _readable(numpy: Any, table: Table, at: int, words: Any, addresses: bool) -> Any:
    """Words of a column, as texts if they are addresses that are asked for so."""
    is_text = addresses and table.columns[at] in ADDRESSES
    return numpy.array(_addresses(words.tolist()), dtype=object) if is_text else words


def _index(pandas: Any, numpy: Any, table: Table, keys: int, addresses: bool) -> Any:
    """The index of the keys. For several keys it is put together here: pandas would look for the values by hashing."""
    columns = [numpy.frombuffer(words, dtype=numpy.uint64) for words in table.arrays[:keys]]
    if keys == 1:
        return pandas.Index(_readable(numpy, table, 0, columns[0], addresses), name=table.columns[0])
    pairs = [_levels(numpy, column) for column in columns]
    levels = [_readable(numpy, table, at, level, addresses) for at, (level, _) in enumerate(pairs)]
    return pandas.MultiIndex(levels, [codes for _, codes in pairs], names=table.keys, verify_integrity=False)


def _levels(numpy: Any, column: Any) -> tuple[Any, Any]:
    """The values of a column in ascending order, and for each row the number of its value."""
    if len(column):
        if (column[1:] >= column[:-1]).all():
            begins = numpy.concatenate(([True], column[1:] != column[:-1]))
            return column[begins], numpy.cumsum(begins) - 1
        if column.max() < 1 << 20:
            small = column.astype(numpy.int64)
            there = numpy.bincount(small) > 0
            return numpy.flatnonzero(there).astype(numpy.uint64), (numpy.cumsum(there) - 1)[small]
    values, codes = numpy.unique(column, return_inverse=True)
    return values, codes


def to_arrow(table: Table, addresses: bool = False) -> Any:
    """See Table.to_arrow."""
    arrow = _module("pyarrow", "tables of Arrow", "pip install pyarrow")
    columns = []
    for at, name in enumerate(table.columns):
        words = table.arrays[at]
        if at == table.form.mark:
            codes = arrow.array(words.tolist(), type=arrow.int8())
            columns.append(arrow.DictionaryArray.from_arrays(codes, arrow.array(MARK_NAMES)))
        elif _is_epoch(table, at):
            marks = table.arrays[at - 1]
            shown = [None if mark == Mark.EXACT else word for mark, word in zip(marks, words)]
            columns.append(arrow.array(shown, type=arrow.uint64()))
        elif addresses and name in ADDRESSES:
            columns.append(arrow.array(_addresses(words), type=arrow.string()))
        else:
            columns.append(arrow.Array.from_buffers(arrow.uint64(), len(words), [None, arrow.py_buffer(words)]))
    return arrow.Table.from_arrays(columns, names=list(table.columns))


def to_parquet(table: Table, path: Path, addresses: bool = False) -> None:
    """See Table.to_parquet."""
    made = to_arrow(table, addresses)
    importlib.import_module("pyarrow.parquet").write_table(made, os.fspath(path))


def to_csv(table: Table, file: Union[None, Path, IO[str]] = None, addresses: bool = False) -> Optional[str]:
    """See Table.to_csv."""
    if file is None:
        parts: list[str] = []
        _write(table, parts.append, addresses)
        return "".join(parts)
    if isinstance(file, (str, os.PathLike)):
        with open(file, "w", encoding="ascii", newline="") as opened:
            _write(table, opened.write, addresses)
    else:
        _write(table, file.write, addresses)
    return None


def _write(table: Table, write: Callable[[str], object], addresses: bool) -> None:
    write(",".join(table.columns) + "\n")
    places = [at for at, name in enumerate(table.columns) if addresses and name in ADDRESSES]
    for piece in table.pieces():
        rows = piece.body.bytes().replace(b",exact,*,", b",exact,,") if table.form.has_epoch else piece.body.bytes()
        text = rows.decode("ascii")
        write(_with_addresses(text, places) if places else text)


def _with_addresses(rows: str, places: list[int]) -> str:
    lines = []
    for line in rows.splitlines():
        cells = line.split(",")
        for at in places:
            cells[at] = address(int(cells[at]))
        lines.append(",".join(cells) + "\n")
    return "".join(lines)


def _first(table: Table) -> tuple[list[list[str]], int]:
    """The first rows as texts, and how many there are in all."""
    text = next(iter(table.body.pieces(4096)), b"").decode("ascii", "replace")
    rows = [line.split(",") for line in text.splitlines()[:SHOWN]]
    for at, name in enumerate(table.columns):
        for row in rows:
            row[at] = address(int(row[at])) if name in ADDRESSES and row[at].isdigit() else row[at]
    return rows, len(table)


def _title(table: Table) -> str:
    rows = f"{len(table)} row" + ("" if len(table) == 1 else "s")
    depth = f", depth {table.depth}" if table.depth else ""
    lacks = f", {table.left_out} keys left out" if table.left_out else ""
    return f"table {table.name}: {table.kind}{depth}, {rows}{lacks}"


def shown(table: Table) -> str:
    """The kind of the table, and its first rows, with addresses as people write them."""
    rows, count = _first(table)
    lines = [list(table.columns), *rows]
    widths = [max(len(line[at]) for line in lines) for at in range(len(table.columns))]
    text = ["  ".join(cell.rjust(width) for cell, width in zip(line, widths)) for line in lines]
    return "\n".join([_title(table), *text, *(["..."] if count > len(rows) else [])])


def html(table: Table) -> str:
    """The same as HTML, for notebooks."""
    rows, count = _first(table)
    head = "".join(f"<th>{escaping.escape(name)}</th>" for name in table.columns)
    body = "".join("<tr>" + "".join(f"<td>{escaping.escape(cell)}</td>" for cell in row) + "</tr>" for row in rows)
    more = f"<p>{count - len(rows)} more rows</p>" if count > len(rows) else ""
    caption = escaping.escape(_title(table))
    return f"<table><caption>{caption}</caption><thead><tr>{head}</tr></thead><tbody>{body}</tbody></table>{more}"
