"""Traces that are compressed: those of gzip are unpacked into the folder of the work, others are refused."""

import re
from collections.abc import Iterator

from marple.faults import InputError
from marple.parts.refusals import CompressionRefused
from marple.parts.work import Made, keep, written
from marple.sources import GZIP, UNREADABLE, unpacked

OTHERS = {
    "bzip2": re.compile(rb"BZh[1-9](?:\x31\x41\x59\x26\x53\x59|\x17\x72\x45\x38\x50\x90)"),
    "xz": re.compile(rb"\xfd7zXZ\x00"),
    "zstd": re.compile(rb"\x28\xb5\x2f\xfd"),
}


def is_compressed(path: str) -> bool:
    """Whether a trace is compressed by gzip. Raises CompressionRefused where it is by another program."""
    try:
        with open(path, "rb") as file:
            beginning = file.read(10)
    except OSError as fault:
        raise InputError(f"cannot read the trace {path}: {fault.strerror}") from fault
    for name, magic in OTHERS.items():
        if magic.match(beginning):
            raise CompressionRefused(f"{path} is compressed by {name}: unpack it, or compress it by gzip")
    return GZIP.match(beginning) is not None


def unpack(path: str, plain: str, sums: bool) -> None:
    """Unpacks a trace into a file. A second call finds what the first one did. Raises InputError where it can't be read."""
    keep(plain, lambda: _unpack(path, plain), sums)


def _unpack(path: str, plain: str) -> Made:
    with written(plain) as file:
        file.writelines(_unpacked(path))
    return {}


def _unpacked(path: str) -> Iterator[bytes]:
    """What a trace has, a block after the other."""
    try:
        yield from unpacked(path)
    except UNREADABLE as fault:
        raise InputError(f"cannot read the trace {path}: {fault}") from fault
