"""The tables of the parts, put together in the order of their keys, without holding any of them as a whole."""

import heapq
from bisect import bisect_right
from collections.abc import Callable, Iterable, Iterator, Sequence
from functools import partial
from itertools import chain, groupby
from typing import IO

from marple.parts.choice import Join
from marple.parts.tasks import Ran
from marple.parts.work import written

ROWS = 1 << 24  # how many bytes of rows wait at most, of all parts together, where each may have a block
BLOCK = 1 << 12  # the least that is read of a part at once
MODULUS = 2**64
Key = int | tuple[int, ...]
KeyOf = Callable[[bytes], Key]


class PartTable:
    """A printed table of one part: its first two lines, and its rows, a block after the other."""

    def __init__(self, ran: Ran, number: int, block: int):
        self.path, self.block = ran.path, block
        with open(self.path, "rb") as file:
            file.seek(ran.tables[number])
            self.first, self.columns = file.readline(), file.readline()
            self.at = file.tell()
            self.end = ran.tables[number + 1] if number + 1 < len(ran.tables) else file.seek(0, 2)

    @property
    def count(self) -> int:
        """The number at the end of the first line: of epochs, or of a final's rows."""
        return int(self.first.split(b" ")[-1])

    def read(self) -> list[bytes]:
        """The next rows, with their line ends; none at the end."""
        with open(self.path, "rb") as file:
            file.seek(self.at)
            # readlines goes on until there are more bytes than its hint
            rows = file.readlines(min(self.block, self.end - self.at) - 1) if self.at < self.end else []
        self.at += sum(map(len, rows))
        return rows


def key_reader(keys: int) -> KeyOf:
    """A function from a row to its key."""
    if keys == 1:
        return lambda row: int(row.split(b",", 1)[0])
    return lambda row: tuple(map(int, row.split(b",", keys)[:keys]))


class _Waiting:
    """The rows of a part that were read, of which those from `at` on weren't given yet."""

    def __init__(self, table: PartTable):
        self.table, self.rows, self.at = table, table.read(), 0

    @property
    def is_last(self) -> bool:
        return self.table.at >= self.table.end

    def up_to(self, bound: Key | None, key_of: KeyOf) -> list[bytes]:
        """Gives the rows whose keys are not above the bound; all rows where there is no bound."""
        end = len(self.rows) if bound is None else bisect_right(self.rows, bound, self.at, key=key_of)
        given, self.at = self.rows[self.at : end], end
        if self.at == len(self.rows):
            self.rows, self.at = self.table.read(), 0
        return given


def merged(tables: Iterable[PartTable], key_of: KeyOf) -> Iterator[list[bytes]]:
    """The rows of all tables in ascending order of their keys, in lists; rows of one key stand in one list, but for those of
    one table, and in the order of their table.
    """
    waiting = [_Waiting(table) for table in tables]
    while waiting := [one for one in waiting if one.rows]:
        bound = min((key_of(one.rows[-1]) for one in waiting if not one.is_last), default=None)
        yield sorted(chain.from_iterable([one.up_to(bound, key_of) for one in waiting]), key=key_of)


def join_tables(joins: Sequence[Join], parts: Sequence[Ran], path: str) -> list[int]:
    """Writes the printed tables of the whole into a file. Where each of them begins."""
    starts, block = [], max(ROWS // len(parts), BLOCK)
    with written(path) as file:
        for number, join in enumerate(joins):
            starts.append(file.tell())
            _write_table(file, join, [PartTable(ran, number, block) for ran in parts])
    return starts


def _write_table(file: IO[bytes], join: Join, tables: list[PartTable]) -> None:
    words, columns = tables[0].first.split(b" "), tables[0].columns
    total, key_of = sum(table.count for table in tables), key_reader(join.keys)
    rows = merged(tables, key_of)
    if join.best:
        total = min(total, join.best[1])
        rows = iter([_best(join.best, key_of, columns, rows)])
    elif join.starts is not None:
        sum_of = partial(_sum, join.starts, join.keys)
        rows = ([sum_of(list(same)) for _, same in groupby(some, key_of)] for some in rows)
    file.write(b" ".join([*words[:-1], b"%d\n" % total]) + columns)
    for some in rows:
        file.writelines(some)


def _best(best: tuple[str, int], key_of: KeyOf, columns: bytes, rows: Iterator[list[bytes]]) -> list[bytes]:
    """The rows of the whole that are greatest in a column, among those of the parts; ties by the smaller key."""
    name, most = best
    at = columns.rstrip(b"\n").split(b",").index(name.encode())
    every = chain.from_iterable(rows)
    return sorted(heapq.nsmallest(most, every, key=lambda row: (-int(row.split(b",")[at]), key_of(row))), key=key_of)


def _sum(starts: tuple[int, ...], keys: int, rows: list[bytes]) -> bytes:
    """The row of a key from those of the parts: each state is its start and what the parts' states are above it, modulo
    2^64; epochs are summed.
    """
    head = rows[0].split(b",")[: keys + 2]
    epochs, *states = map(sum, zip(*(map(int, row.split(b",")[keys + 2 :]) for row in rows), strict=True))
    whole = [(state - (len(rows) - 1) * start) % MODULUS for state, start in zip(states, starts, strict=True)]
    return b",".join([*head, *(b"%d" % word for word in (epochs, *whole))]) + b"\n"
