"""The rows of a printed table as bytes: checked, and parsed once, by column."""

import mmap
import re
import sys
from array import array
from collections.abc import Iterator
from dataclasses import dataclass
from functools import cached_property
from typing import Any, Optional, Union

MARKS = (b"exact", b"valid", b"invalid", b"within")  # each at its number
MOST = 2**64 - 1
PIECE = 4 << 20
DIGITS = b"0123456789"
# A mark as a number in one pass over the rows: of its letters one or two stay, as digits; an epoch `*` is 0
_MARKS = bytes.maketrans(b"xvnw*\n", b"01230,")
_DROPPED = b"eactlidh"
_NUMBERS = {0: 0, 1: 1, 21: 2, 32: 3}
# The digits from 1 to 9 as one, and what separates cells as one
_SHAPES = bytes.maketrans(b"123456789,", b"111111111\n")
_AS_ONE = bytes.maketrans(DIGITS, b"0" * 10)
_LONG = re.compile(rb"[0-9]{20,}")


class TableFault(ValueError):
    """A text that isn't a table of marple's."""


@dataclass(frozen=True)
class Form:
    """What the rows of a table look like: how many cells, and where the mark and the epoch stand, if there are any."""

    cells: int
    mark: Optional[int]
    has_epoch: bool

    @cached_property
    def outlines(self) -> frozenset[bytes]:
        """What is left of a row without its digits: one of these."""
        if self.mark is None:
            return frozenset([b"," * (self.cells - 1)])
        before, after = b"," * self.mark, b"," * (self.cells - self.mark - 1)
        outlines = [before + mark + after for mark in MARKS]
        if self.has_epoch:
            outlines[0] = before + b"exact,*" + after[1:]
        return frozenset(outlines)

    def check(self, rows: bytes) -> None:
        """Raises TableFault where these aren't rows of the form."""
        outline = rows.translate(None, DIGITS)
        first, _, rest = outline.partition(b"\n")
        if rest != (first + b"\n") * outline.count(b"\n", len(first) + 1):
            lines = frozenset(outline.split(b"\n")[:-1]) if outline.endswith(b"\n") else frozenset([b"no line end"])
        else:
            lines = frozenset([first])
        if not lines <= self.outlines:
            raise TableFault(f"{self._line_of(rows, lines - self.outlines)!r} is no row")
        shape = b"\n" + rows.translate(_SHAPES)
        for odd, what in ((b"\n\n", "an empty cell"), (b"\n00", "a leading zero"), (b"\n01", "a leading zero")):
            if odd in shape:
                raise TableFault(f"a row has {what}")
        if b"0" * 20 in rows.translate(_AS_ONE):
            for word in _LONG.findall(rows):
                if int(word) > MOST:
                    raise TableFault(f"{word.decode()} is no word: the greatest is 2^64-1")

    def _line_of(self, rows: bytes, outlines: frozenset[bytes]) -> str:
        lines = (line for line in rows.split(b"\n") if line.translate(None, DIGITS) in outlines)
        return next(lines, b"a row without a line end").decode("ascii", "replace")

    def words(self, rows: bytes) -> list["array[int]"]:
        """The words of each column; a mark is its number, and an epoch that is `*` is 0."""
        text = rows.translate(_MARKS, _DROPPED)
        if not text:
            return [array("Q") for _ in range(self.cells)]
        numpy: Any = sys.modules.get("numpy")
        if numpy is not None and hasattr(numpy, "fromstring"):
            whole = numpy.fromstring(text, dtype=numpy.uint64, sep=",").reshape(-1, self.cells)
            columns = [array("Q", whole[:, at].tobytes()) for at in range(self.cells)]
        else:
            cells = text[:-1].split(b",")
            columns = [array("Q", map(int, cells[at :: self.cells])) for at in range(self.cells)]
        if self.mark is not None and (b"v" in rows or b"w" in rows):
            columns[self.mark] = array("Q", map(_NUMBERS.__getitem__, columns[self.mark]))
        return columns


@dataclass(frozen=True, eq=False)
class Body:
    """The bytes of a table's rows, from start to end of what was read; of a file that is mapped, only what is asked for."""

    source: Union[bytes, mmap.mmap]
    start: int
    end: int

    def pieces(self, size: int = PIECE) -> Iterator[bytes]:
        """The rows in pieces of some `size` bytes, each of whole lines."""
        at = self.start
        while at < self.end:
            stop = min(at + size, self.end)
            if stop < self.end:
                stop = self.source.rfind(b"\n", at, stop) + 1 or self.source.find(b"\n", stop, self.end) + 1 or self.end
            yield bytes(self.source[at:stop])
            at = stop

    def count(self) -> int:
        """How many rows there are."""
        return sum(piece.count(b"\n") for piece in self.pieces())

    def bytes(self) -> "bytes":
        return bytes_of(self.source, self.start, self.end)

    def __eq__(self, other: object) -> bool:
        return isinstance(other, Body) and self.bytes() == other.bytes()

    def __hash__(self) -> int:
        return hash(self.bytes())

    def __reduce__(self) -> tuple[Any, ...]:
        return Body, (self.bytes(), 0, self.end - self.start)


def bytes_of(source: Union[bytes, mmap.mmap], start: int, end: int) -> bytes:
    return bytes(source[start:end])
