"""The tasks of a run in parts. Each may run in another process or on another machine that sees the same folder."""

import os
import re
import subprocess
import tempfile
from collections.abc import Callable, Iterator, Sequence
from contextlib import suppress
from dataclasses import asdict, dataclass
from itertools import pairwise
from typing import IO, Any, cast

from marple.parts.reading import blocks_of
from marple.parts.stopping import signals_held
from marple.parts.work import Made, keep, written, written_folder

BLOCK = 1 << 20
OF_FIELDS = re.compile("(?:FieldMissing|FieldTwice|BadNumber)\\(")  # the faults of a trace that another query may not find


@dataclass(frozen=True)
class Span:
    """Records, each of one line: the bytes of a file from start to end, and how many records they are."""

    path: str
    start: int
    end: int
    packets: int


@dataclass(frozen=True)
class Text:
    """The text of a trace whose records have one line each: its header, and its records."""

    header: bytes
    records: Span


@dataclass(frozen=True)
class Split:
    """How `marple-tools split` ended, and the texts of the parts if it was with 0."""

    status: int
    complaint: str
    texts: tuple[Text, ...]


class _Refused(Exception):
    """The splitting ended with another status than 0, so that what it wrote goes."""


def split(
    tools: str, queries: Sequence[str], trace: str, number: int, salt: int, folder: str, sums: bool,
    stretch: tuple[int, int] | None = None,
) -> Split:  # fmt: skip
    """Splits a trace into this many parts in a new folder, by the first of these queries whose fields it has, with a number
    in each record. stretch: of the trace only the records that begin at the first of these bytes or later, and before the
    second one. A second call finds what the first one did, if that was done to the end.
    """
    ranged = [] if stretch is None else ["--range", *map(str, stretch)]

    def make() -> Made:
        for query in queries:
            made = _split([tools, "split", query, trace, *ranged], number, salt, folder)
            if not OF_FIELDS.search(made["complaint"]):
                break
        return made

    made = keep(folder, make, sums, lambda made: bool(made["status"] == 0))
    header = made["header"].encode()
    spans = [Span(path, len(header), *own) for path, own in zip(_names(folder, number), made["texts"], strict=False)]
    return Split(made["status"], made["complaint"], tuple(Text(header, span) for span in spans))


def _names(folder: str, number: int) -> list[str]:
    return [os.path.join(folder, f"part-{part}.csv") for part in range(number)]


def _split(words: Sequence[str], number: int, salt: int, folder: str) -> Made:
    made: Made = {"status": 0, "complaint": "", "header": "", "texts": []}
    with suppress(_Refused), written_folder(folder) as own:
        command = [*words, "--parts", str(number), "--into", own, "--salt", str(salt)]
        ended = _call(command, subprocess.DEVNULL, lambda pipe: None)
        if ended.status != 0:
            made |= {"status": ended.status, "complaint": ended.complaint}
            raise _Refused
        for text in map(text_of, _names(own, number)):
            made["header"] = text.header.decode()
            made["texts"].append((text.records.end, text.records.packets))
    return made


def estimated(path: str) -> tuple[int, int]:
    """The size of a trace, and about how many records it has, by its first block."""
    size = os.path.getsize(path)
    first = next(blocks_of(path, 0, size, BLOCK), b"")
    ends = first.count(b"\n") or first.count(b"\r")
    return size, size * ends // max(len(first), 1)


def text_of(path: str) -> Text:
    """The text of a file that has a header, and a line for each record."""
    with open(path, "rb") as file:
        header = file.readline()
        end = file.seek(0, os.SEEK_END)
    return Text(header, _span(path, len(header), end))


def _span(path: str, start: int, end: int) -> Span:
    return Span(path, start, end, sum(block.count(b"\n") for block in blocks_of(path, start, end, BLOCK)))


def cut(span: Span, pieces: int, most: int) -> list[Span]:
    """Cuts records into this many spans of one size, as near as can be, or more: none has more than `most` records."""
    places = [span.start]
    with open(span.path, "rb") as file:
        for number in range(1, pieces):
            file.seek(span.start + (span.end - span.start) * number // pieces - 1)
            places.append(file.tell() + len(file.readline()))
    spans = [_span(span.path, *ends) for ends in pairwise([*places, span.end]) if ends[0] < ends[1]]
    return spans if all(one.packets <= most for one in spans) else cut(span, 2 * pieces, most)


def sole_key(columns: Sequence[int], spans: Sequence[Span]) -> tuple[str, ...] | None:
    """The words that all records of these files have in the columns, or None if there are several."""
    keys = (tuple(cells[at] for at in columns) for span in spans for cells in _cells(span.path))
    first = next(keys, None)
    return first if all(key == first for key in keys) else None


def _cells(path: str) -> Iterator[list[str]]:
    """The words of each record of a text."""
    with open(path, encoding="ascii") as file:
        next(file)
        for line in file:
            yield line.rstrip("\n").split(",")


@dataclass(frozen=True)
class Ran:
    """What a run of the program over a part gave.

    tables: where each printed table begins in the file; packets, bytes: of its trace; seconds: of processor time of the
    program; peak: of its memory, in KiB.
    """

    path: str
    status: int
    complaint: str
    tables: tuple[int, ...]
    packets: int
    bytes: int
    seconds: float
    peak: int


def run_part(words: Sequence[str], header: bytes, spans: Sequence[Span], path: str, sums: bool) -> Ran:
    """Runs the program over the header and the records of the spans. A second call finds what the first one did, if
    that gave tables.
    """
    made = keep(path, lambda: asdict(_run_part(words, header, spans, path)), sums, lambda made: bool(made["status"] == 0))
    given: dict[str, Any] = made | {"path": path, "tables": tuple(made["tables"])}
    return Ran(**given)


def _run_part(words: Sequence[str], header: bytes, spans: Sequence[Span], path: str) -> Ran:
    def feed(pipe: IO[bytes]) -> None:
        pipe.write(header)
        for span in spans:
            for block in blocks_of(span.path, span.start, span.end, BLOCK):
                pipe.write(block)

    with written(path) as output:
        ended = _call(words, output, feed)
    packets = sum(span.packets for span in spans)
    size = len(header) + sum(span.end - span.start for span in spans)
    return Ran(path, ended.status, ended.complaint, tuple(_table_starts(path)), packets, size, ended.seconds, ended.peak)


@dataclass(frozen=True)
class _Ended:
    """How a program ended, what it wrote to standard error, its seconds of processor time, and its peak in KiB."""

    status: int
    complaint: str
    seconds: float
    peak: int


def _call(words: Sequence[str], output: IO[bytes] | int, feed: Callable[[IO[bytes]], None]) -> _Ended:
    """Runs a program to its end. If it reads no further than it has to, the rest isn't fed."""
    with tempfile.TemporaryFile() as complaint:
        begun: list[subprocess.Popen[bytes]] = []
        try:
            with signals_held():
                # signals are left as they are, so that a file that may not grow is a fault of writing
                begun.append(
                    subprocess.Popen(
                        words, stdin=subprocess.PIPE, stdout=output, stderr=complaint, restore_signals=False
                    )
                )
            (process,) = begun
            with suppress(BrokenPipeError), cast(IO[bytes], process.stdin) as pipe:
                feed(pipe)
            _, status, used = os.wait4(process.pid, 0)
        except BaseException:
            for process in begun:
                process.kill()
                process.wait()
            raise
        process.returncode = os.waitstatus_to_exitcode(status)
        complaint.seek(0)
        text = complaint.read().decode(errors="replace")
    return _Ended(process.returncode, text, round(used.ru_utime + used.ru_stime, 3), used.ru_maxrss)


def _table_starts(path: str) -> Iterator[int]:
    """Where the lines begin that begin a table."""
    with open(path, "rb") as file:
        at, rest = 0, b"\n"
        while block := file.read(BLOCK):
            text = rest + block
            for found in re.finditer(rb"\ntable ", text):
                if found.end() > len(rest):
                    yield at - len(rest) + found.start() + 1
            at, rest = at + len(block), text[-6:]
