"""The bytes of files, read in blocks."""

from collections.abc import Iterator

from marple.faults import InputError
from marple.parts.refusals import TraceChanged


def blocks_of(path: str, start: int, end: int, size: int) -> Iterator[bytes]:
    """The bytes of a file from start to end, in blocks of at most this size. Raises TraceChanged where there are fewer, and
    InputError where they can't be read.
    """
    try:
        with open(path, "rb") as file:
            file.seek(start)
            while start < end:
                block = file.read(min(size, end - start))
                if not block:
                    raise TraceChanged(f"{path} is shorter than it was")
                start += len(block)
                yield block
    except OSError as fault:
        raise InputError(f"cannot read {path}: {fault.strerror}") from fault
