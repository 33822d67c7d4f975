"""What a caller gives as query or trace, as a file that the program can read."""

import gzip
import math
import os
import re
import select
import stat
import tempfile
import threading
import time
import zlib
from collections.abc import Callable, Iterator
from concurrent.futures import Future
from concurrent.futures import TimeoutError as NotDone  # before Python 3.11 not the built-in one
from contextlib import contextmanager
from dataclasses import dataclass
from typing import IO, Any, Optional, Union

from marple.columns import explained, text_of
from marple.faults import InputError, TimedOut, TraceRefused
from marple.frames import columns_of, is_frame

Query = Union[str, bytes, "os.PathLike[str]"]
Trace = Any  # a path, bytes, an open file, or a DataFrame: a union can't name libraries that may not be there

BLOCK = 1 << 20
MOST = 268_435_457  # no trace and no query is read further than this: it would be too long
NO_WRITER = 10.0  # for how many seconds a FIFO may have no writer
GZIP = re.compile(rb"\x1f\x8b\x08")  # how a file begins that is compressed by gzip
UNREADABLE = (OSError, ValueError, EOFError, zlib.error)
OWN = ("/dev/stdin", "/dev/fd/", "/proc/")  # where each process has its own files


class Deadline:
    """When a call has to be done: `seconds` from now, or never."""

    def __init__(self, seconds: Optional[float] = None):
        if seconds is not None and not seconds > 0:
            raise ValueError(f"timeout is a number of seconds above 0, or None; {seconds!r} isn't")
        self.seconds = seconds
        self.end = None if seconds is None or seconds == math.inf else time.monotonic() + seconds

    def left(self) -> Optional[float]:
        """How many seconds are left, or None where there is no end. Raises TimedOut at the end."""
        if self.end is None:
            return None
        if (left := self.end - time.monotonic()) <= 0:
            raise self.passed()
        return left

    def passed(self) -> TimedOut:
        return TimedOut(f"the call took longer than its timeout of {self.seconds:g} s")

    def wait_for(self, act: Callable[[], Any]) -> Any:
        """What a call gives. Raises TimedOut at the end, where nobody waits for the call any more."""
        if (left := self.left()) is None:
            return act()
        result: Future[Any] = Future()
        threading.Thread(target=_fulfil, args=(result, act), daemon=True).start()
        try:
            return result.result(left)
        except NotDone:
            if result.done():  # just now, or this is its own
                return result.result()
            raise self.passed() from None


def _fulfil(result: "Future[Any]", act: Callable[[], Any]) -> None:
    try:
        result.set_result(act())
    except BaseException as fault:
        result.set_exception(fault)


def text_of_query(
    query: Optional[Query], text: Optional[str], what: str = "query", deadline: Optional[Deadline] = None
) -> bytes:
    """The text of a query: of its file, if `query` is a path; the bytes themselves; or `text`.

    Raises TypeError where neither or both are given, and InputError where the file can't be read.
    """
    if (query is None) == (text is None):
        raise TypeError(f"a {what} is given as one of these: a path, bytes, or {what}_text=")
    if text is not None:
        if not isinstance(text, str):
            raise TypeError(f"{what}_text is a str, not {type(text).__name__}")
        return text.encode()
    if isinstance(query, (bytes, bytearray, memoryview)):
        return bytes(query)
    if not isinstance(query, (str, os.PathLike)):
        kind = type(query).__name__
        raise TypeError(f"a {what} is a path (str or os.PathLike) or bytes, or a str in {what}_text=; not {kind}")
    try:
        return b"".join(_blocks(os.fspath(query), deadline or Deadline()))
    except (OSError, ValueError) as fault:
        hint = f": the text of a {what} is given as {what}_text= or as bytes" if _looks_like_text(query) else ""
        raise InputError(f"cannot read the {what} {_shown(query)}: {_reason(fault)}{hint}") from fault


def _looks_like_text(query: object) -> bool:
    return isinstance(query, str) and any(mark in query for mark in ";\n ")


def _shown(path: Any) -> str:
    text = str(os.fspath(path))
    return text if len(text) <= 200 and text.isprintable() else repr(text[:60] + ("..." if len(text) > 60 else ""))


def _reason(fault: Exception) -> str:
    return fault.strerror or str(fault) if isinstance(fault, OSError) else str(fault)


def _blocks(path: str, deadline: Deadline) -> Iterator[bytes]:
    """What a file has, of any kind, up to MOST bytes. Waits for the writer of a FIFO, but not for ever where there is none.
    """
    left = MOST
    for block in _all_blocks(path, deadline):
        yield block[:left]
        left -= len(block)
        if left <= 0:
            return


def _all_blocks(path: str, deadline: Deadline) -> Iterator[bytes]:
    descriptor = os.open(path, os.O_RDONLY | os.O_NONBLOCK | os.O_CLOEXEC)
    try:
        if stat.S_ISREG(os.fstat(descriptor).st_mode):
            while block := os.read(descriptor, BLOCK):
                yield block
            return
        yield from _stream(descriptor, deadline)
    finally:
        os.close(descriptor)


def _stream(descriptor: int, deadline: Deadline) -> Iterator[bytes]:
    """What comes through a FIFO or from a device."""
    waiting = select.poll()
    waiting.register(descriptor, select.POLLIN | select.POLLHUP)
    begun, since = False, time.monotonic()
    while True:
        left = deadline.left()
        events = waiting.poll(1000 * min(0.05 if not begun else 1.0, left if left is not None else 1.0))
        try:
            block = os.read(descriptor, BLOCK)
        except BlockingIOError:
            begun = True  # there is a writer, which hasn't written yet
            continue
        if block:
            begun = True
            yield block
        elif begun or events:
            return
        elif time.monotonic() - since > NO_WRITER:
            raise ValueError(f"it is a FIFO, and nothing wrote to it for {NO_WRITER:g} s")


@dataclass(frozen=True)
class TraceFile:
    """The file of a trace: its path; what the caller calls it; and what says more of a refusal."""

    path: str
    name: str
    explain: Callable[[TraceRefused], TraceRefused]


@contextmanager
def trace_file(trace: Trace, deadline: Optional[Deadline] = None) -> Iterator[TraceFile]:
    """The file of a trace: its own, or one that is there as long as it is used.

    Raises TypeError where it is nothing of these, InputError where it can't be read.
    """
    if isinstance(trace, (str, os.PathLike)):
        with _own_file(os.fspath(trace), deadline or Deadline()) as path:
            yield TraceFile(path, os.fspath(trace), lambda refused: _in_file(refused, os.fspath(trace)))
    elif is_frame(trace):
        columns = columns_of(trace)
        with written(text_of(columns)) as path:
            yield TraceFile(path, "of a DataFrame", lambda refused: explained(refused, columns))
    elif isinstance(trace, (bytes, bytearray, memoryview)):
        with written(trace) as path:
            yield TraceFile(path, "of bytes", lambda refused: refused)
    elif hasattr(trace, "read"):
        with _kept(_read_on(trace, deadline or Deadline()), "of an open file") as path:
            yield TraceFile(path, "of an open file", lambda refused: refused)
    else:
        raise TypeError(
            "a trace is a path (str or os.PathLike), bytes, an open file, a DataFrame of pandas, or one that has the "
            f"interchange protocol, as those of polars and Arrow do; not {type(trace).__name__}"
        )


def _in_file(refused: TraceRefused, path: str) -> TraceRefused:
    return TraceRefused(refused.fault, refused.record, refused.field, path, refused.why)


@contextmanager
def _own_file(path: str, deadline: Deadline) -> Iterator[str]:
    """The path itself; but what the program can't read is copied, and what is compressed by gzip is unpacked. What can't be
    read at all is left to the program, which refuses a query before a trace.
    """
    if "\0" in path:
        raise InputError(f"cannot read the trace {_shown(path)}: embedded null byte")
    if (packed := is_packed(path)) or _is_for_us(path):
        with _kept(unpacked(path) if packed else _blocks(path, deadline), _shown(path)) as kept:
            yield kept
    else:
        yield os.path.abspath(path) if path else path


def _is_for_us(path: str) -> bool:
    """Whether only this process can read a file: a FIFO, for whose writer the program would wait for ever; a name by which
    the program has another file; and one that is no text, which it doesn't take.
    """
    return _is_fifo(path) or os.path.abspath(path).startswith(OWN) or path != path.encode(errors="replace").decode()


@contextmanager
def _kept(blocks: Iterator[bytes], name: str) -> Iterator[str]:
    """The path of a file that has these blocks, of which those above MOST bytes aren't read. Raises InputError."""
    with tempfile.NamedTemporaryFile(prefix="marple-") as file:
        left = MOST
        while left > 0 and (block := _next(blocks, name)):
            left -= file.write(block)
        file.flush()
        yield file.name


def _next(blocks: Iterator[bytes], name: str) -> bytes:
    try:
        return next(blocks, b"")
    except UNREADABLE as fault:
        raise InputError(f"cannot read the trace {name}: {_reason(fault)}") from fault


def _read_on(source: Any, deadline: Deadline) -> Iterator[bytes]:
    """What an open file has from its place on: bytes, or text as UTF-8."""
    while (block := deadline.wait_for(lambda: source.read(BLOCK))) is not None:
        yield block.encode("utf-8", "replace") if isinstance(block, str) else block
    raise ValueError("it doesn't wait for what it will have, and has nothing now")


def is_packed(path: str) -> bool:
    """Whether a file is there that is compressed by gzip."""
    try:
        with open(path if os.path.isfile(path) else os.devnull, "rb") as file:
            return GZIP.match(file.read(3)) is not None
    except OSError:
        return False


def unpacked(path: str) -> Iterator[bytes]:
    """What a file that is compressed by gzip has, a block after the other. Raises an error of UNREADABLE."""
    with gzip.open(path) as packed:
        while block := packed.read(BLOCK):
            yield block


def _is_fifo(path: str) -> bool:
    try:
        return stat.S_ISFIFO(os.stat(path).st_mode)
    except (OSError, ValueError):
        return False


def unreadable(trace: TraceFile) -> InputError:
    """Why the program can't read the file of a trace, as the system says it."""
    reason = "the program can't"
    try:
        with open(trace.path, "rb") as file:
            file.read(1)
    except (OSError, ValueError) as fault:
        reason = _reason(fault)
    return InputError(f"cannot read the trace {_shown(trace.name)}: {reason}")


@contextmanager
def written(content: Union[bytes, bytearray, memoryview]) -> Iterator[str]:
    """The path of a file that has this, as long as it is used."""
    with tempfile.NamedTemporaryFile(prefix="marple-") as file:
        file.write(content)
        file.flush()
        yield file.name
