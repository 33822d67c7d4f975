"""The tables that the program writes, read and written exactly."""

import enum
import mmap
import os
import re
from array import array
from collections.abc import Iterator, Mapping, Sequence
from dataclasses import dataclass, replace
from functools import cached_property
from typing import IO, Any, Optional, Union

from marple.tabletext import MOST, PIECE, Body, Form, TableFault

__all__ = ["Answer", "Mark", "Table", "TableFault", "Tables", "View", "read_tables", "tables_of_file"]


class Mark(enum.IntEnum):
    """What a row of a groupby holds for: see docs/FORMATS.md."""

    EXACT = 0
    VALID = 1
    INVALID = 2
    WITHIN = 3

    def __str__(self) -> str:
        return self.name.lower()


NUMBER = re.compile(r"0|[1-9][0-9]{0,19}")
Keys = Mapping[str, tuple[str, ...]]


@dataclass(frozen=True)
class Table:
    """A printed table, whose rows are kept as they were printed, and parsed by column where they are asked for.

    name; kind: `linear` or `other`, the class of the groupby's fold, `bounds` or `final`; depth: of the fold, None for
    a final; epochs: over all keys, None for a final; keys: the names of the key columns, None for a final whose query
    isn't known; columns: the names of all columns; body: the rows as bytes; left_out: of a final how many keys of the
    groupbys that it is made from were left out, since their rows don't cover all their packets, None where that isn't
    known.
    """

    name: str
    kind: str
    depth: Optional[int]
    epochs: Optional[int]
    keys: Optional[tuple[str, ...]]
    columns: tuple[str, ...]
    body: Body
    left_out: Optional[int] = None

    @cached_property
    def form(self) -> Form:
        mark = None if self.kind == "final" else mark_of(self.columns)
        return Form(len(self.columns), mark, mark is not None and self.columns[mark + 1 : mark + 2] == ("epoch",))

    @cached_property
    def _count(self) -> int:
        return self.body.count()

    def __len__(self) -> int:
        """How many rows there are."""
        return self._count

    def __bool__(self) -> bool:
        return True

    @property
    def head(self) -> str:
        """The two lines above the rows."""
        first = f"{len(self)}" if self.kind == "final" else f"{self.depth} {self.epochs}"
        return f"table {self.name} {self.kind} {first}\n{','.join(self.columns)}\n"

    @property
    def text(self) -> str:
        """The table as the program writes it."""
        return self.head + self.body.bytes().decode("ascii")

    @cached_property
    def _fault(self) -> Optional[TableFault]:
        """What keeps the rows from being of the form, if anything does."""
        try:
            for piece in self.body.pieces():
                self.form.check(piece)
        except TableFault as fault:
            return fault
        return None

    def check(self) -> "Table":
        """The table itself, whose rows are looked through once. Raises TableFault where they aren't of the form."""
        if self._fault is not None:
            raise self._fault
        return self

    @cached_property
    def arrays(self) -> tuple["array[int]", ...]:
        """The words of each column, in order: of the mark its number, and of an epoch 0 where the table has `*`.

        Raises TableFault where the rows aren't of the form.
        """
        self.check()
        whole = tuple(array("Q") for _ in self.columns)
        for piece in self.body.pieces():
            for words, more in zip(whole, self.form.words(piece)):
                words.extend(more)
        return whole

    def words(self, name: str) -> "array[int]":
        """The words of one column as an array, which numpy, pandas and Arrow read without a copy. It is the table's own,
        and not to be changed. Raises KeyError.
        """
        return self.arrays[self._place(name)]

    def column(self, name: str) -> list[int]:
        """The words of one column, of the mark as Mark. Raises KeyError."""
        return self._shown(self._place(name))

    def _place(self, name: str) -> int:
        if name not in self.columns:
            raise KeyError(f"{self.name} has no column {name}: its columns are {', '.join(self.columns)}")
        return self.columns.index(name)

    def _shown(self, at: int) -> list[int]:
        words = self.arrays[at].tolist()
        return list(map(list(Mark).__getitem__, words)) if at == self.form.mark else words

    @cached_property
    def rows(self) -> Sequence[tuple[int, ...]]:
        """A tuple for each row, as long as `columns`. For many rows `words` takes a tenth of the memory."""
        return list(zip(*map(self._shown, range(len(self.columns)))))

    def pieces(self, size: int = PIECE) -> Iterator["Table"]:
        """The table in tables of some `size` bytes of rows each, in order, of which no more than one need be held."""
        for piece in self.body.pieces(size):
            yield replace(self, body=Body(piece, 0, len(piece))).check()

    def lacking(self, left_out: Optional[int]) -> "Table":
        """The same final, with the number of keys that it lacks."""
        return replace(self, left_out=left_out)

    def keys_not_covered(self) -> frozenset[bytes]:
        """Of a groupby the keys whose rows don't cover all their packets, as they are printed."""
        keys = rb"(?:[0-9]+,){%d}" % len(self.keys or ())
        found = re.compile(rb"^(" + keys + rb")(?:invalid|within),", re.MULTILINE)
        return frozenset(key for piece in self.body.pieces() for key in found.findall(piece))

    def frame(self, addresses: bool = False) -> Any:
        """As to_pandas."""
        return self.to_pandas(addresses)

    def to_pandas(self, addresses: bool = False) -> Any:
        """The table as a pandas.DataFrame: words as uint64, keys as index, marks as a category, and epochs as UInt64, NA
        where the table has `*`. addresses: whether `srcip` and `dstip` are texts as 10.0.0.1. Raises ImportError where
        pandas isn't there.
        """
        from marple.exports import to_pandas

        return to_pandas(self, addresses)

    def to_arrow(self, addresses: bool = False) -> Any:
        """The table as a pyarrow.Table, with the same types as to_pandas. Raises ImportError where pyarrow isn't there."""
        from marple.exports import to_arrow

        return to_arrow(self, addresses)

    def to_csv(self, file: "Union[None, str, os.PathLike[str], IO[str]]" = None, addresses: bool = False) -> Optional[str]:
        """Writes a heading with the columns, and the rows, an epoch empty where the table has `*`: to a path or an open
        file of text, or as a str where neither is given. Raises OSError.
        """
        from marple.exports import to_csv

        return to_csv(self, file, addresses)

    def to_parquet(self, path: "Union[str, os.PathLike[str]]", addresses: bool = False) -> None:
        """Writes to_arrow into a file. Raises ImportError where pyarrow isn't there, and OSError."""
        from marple.exports import to_parquet

        to_parquet(self, path, addresses)

    def __repr__(self) -> str:
        from marple.exports import shown

        return shown(self)

    def _repr_html_(self) -> str:
        from marple.exports import html

        return html(self)


def mark_of(columns: Sequence[str]) -> int:
    """Where the mark of a groupby's table stands: before `epoch` or `epochs`. Raises TableFault."""
    for at, pair in enumerate(zip(columns, columns[1:])):
        if pair in (("mark", "epoch"), ("mark", "epochs")):
            return at
    raise TableFault(f"{','.join(columns)} has no mark")


class Tables(Mapping[str, Table]):
    """Tables by their names, in the order in which they were printed."""

    def __init__(self, tables: Sequence[Table]):
        self._tables = {table.name: table for table in tables}
        if len(self._tables) != len(tables):
            raise TableFault("two tables have one name")

    def __getitem__(self, name: str) -> Table:
        if name not in self._tables:
            raise KeyError(f"there is no table {name}: the tables are {', '.join(self._tables)}")
        return self._tables[name]

    def __contains__(self, name: object) -> bool:
        return name in self._tables

    def __iter__(self) -> Iterator[str]:
        return iter(self._tables)

    def __len__(self) -> int:
        return len(self._tables)

    @property
    def text(self) -> str:
        """The tables as the program writes them."""
        return "".join(table.text for table in self.values())

    def to_csv(self, folder: "Union[str, os.PathLike[str]]", addresses: bool = False) -> None:
        """Writes each table into the folder, as NAME.csv. Raises OSError."""
        for table in self.values():
            table.to_csv(os.path.join(folder, f"{table.name}.csv"), addresses)

    def to_parquet(self, folder: "Union[str, os.PathLike[str]]", addresses: bool = False) -> None:
        """Writes each table into the folder, as NAME.parquet. Raises ImportError where pyarrow isn't there, and OSError."""
        for table in self.values():
            table.to_parquet(os.path.join(folder, f"{table.name}.parquet"), addresses)

    def __repr__(self) -> str:
        lines = [f"  {table.head.splitlines()[0]}, rows: {len(table)}" for table in self.values()]
        return "\n".join([f"{type(self).__name__}, tables: {len(self)}", *lines])

    def _repr_html_(self) -> str:
        from marple.exports import html

        return "".join(map(html, self.values()))


class View(Tables):
    """The tables over the first packets of a trace. packets: how many."""

    def __init__(self, packets: int, tables: Sequence[Table]):
        super().__init__(tables)
        self.packets = packets

    @property
    def text(self) -> str:
        return f"view {self.packets}\n" + super().text


class Answer(Tables):
    """The tables over a whole trace. views: those before its end, in order, where they were asked for."""

    def __init__(self, tables: Sequence[Table], views: Sequence[View] = ()):
        super().__init__(tables)
        self.views = tuple(views)

    @property
    def text(self) -> str:
        return "".join(view.text for view in self.views) + super().text


def read_tables(text: Union[str, bytes], keys: Optional[Keys] = None) -> Answer:
    """Reads what `run`, `net`, `enclose`, `run-plan` or `trial` writes. `keys` gives the key names of finals.

    Raises TableFault where the text isn't of this form; the answer's text is that text.
    """
    try:
        content = text.encode("ascii") if isinstance(text, str) else bytes(text)
    except UnicodeEncodeError as fault:
        raise TableFault("there are bytes other than ASCII") from fault
    answer = _answer(content, keys or {})
    for tables in (*answer.views, answer):
        for table in tables.values():
            table.check()
    return answer


def tables_of_file(path: "Union[str, os.PathLike[str]]", keys: Optional[Keys] = None) -> Answer:
    """The tables of a file of any size, of which only what is asked for is held: `Table.pieces` gives them in pieces.

    The file isn't changed as long as its tables are used; it may be deleted. Raises TableFault where it isn't of the
    form, of a row when it is read; and OSError.
    """
    with open(path, "rb") as file:
        if os.fstat(file.fileno()).st_size == 0:
            return _answer(b"", keys or {})
        return _answer(mmap.mmap(file.fileno(), 0, access=mmap.ACCESS_READ), keys or {})


def _answer(source: Union[bytes, mmap.mmap], keys: Keys) -> Answer:
    if len(source) and source[len(source) - 1 :] != b"\n":
        raise TableFault("the last line has no end")
    views: list[View] = []
    packets: Optional[int] = None
    tables: list[Table] = []
    at = 0
    while at < len(source):
        if source[at : at + 5] == b"view ":
            if packets is not None:
                views.append(View(packets, tables))
            line, at = _line(source, at)
            packets, tables = number_of(line[5:]), []
            continue
        table, at = _read_table(source, at, keys)
        tables.append(table)
    if packets is None:
        return Answer(tables)
    if not tables or len(tables) % 2:
        raise TableFault("the last view isn't followed by the tables of the whole")
    half = len(tables) // 2
    return Answer(tables[half:], [*views, View(packets, tables[:half])])


def _line(source: Union[bytes, mmap.mmap], at: int) -> tuple[str, int]:
    """The line that begins here, and where the next one does."""
    end = source.find(b"\n", at)
    if end < 0:
        raise TableFault("the text ends in the head of a table")
    return bytes(source[at:end]).decode("ascii", "replace"), end + 1


def _read_table(source: Union[bytes, mmap.mmap], at: int, keys: Keys) -> tuple[Table, int]:
    first, at = _line(source, at)
    words = first.split(" ")
    if words[0] != "table":
        raise TableFault(f"no table begins by {first!r}")
    line, start = _line(source, at)
    columns = tuple(line.split(","))
    ends = [found for mark in (b"\ntable ", b"\nview ") if (found := source.find(mark, start - 1)) >= 0]
    end = min(ends) + 1 if ends else len(source)
    body = Body(source, start, end)
    if len(words) == 4 and words[2] == "final":
        table = Table(words[1], "final", None, None, keys.get(words[1]), columns, body)
        if number_of(words[3]) != len(table):
            raise TableFault(f"{words[1]} has {len(table)} rows and not {words[3]}")
        return table, end
    if len(words) != 5 or words[2] not in ("linear", "other", "bounds"):
        raise TableFault(f"no table begins by {first!r}")
    names = columns[: mark_of(columns)]
    return Table(words[1], words[2], number_of(words[3]), number_of(words[4]), names, columns, body), end


def number_of(text: str) -> int:
    """The number of a table's cell."""
    if not NUMBER.fullmatch(text) or (value := int(text)) > MOST:
        raise TableFault(f"{text!r} is no number")
    return value
