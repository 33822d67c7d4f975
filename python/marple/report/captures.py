"""Makes the trace of captures by the scripts of the checkout or the wheel, and keeps what they say."""

import os
import subprocess
import sys
from collections.abc import Sequence
from dataclasses import dataclass
from pathlib import Path
from typing import IO, Optional

from marple.faults import MarpleError
from marple.places import CHECKOUT

BUNDLED = Path(__file__).resolve().parent / "captures"
SCRIPTS = {1: "trace-from-capture", 2: "trace-from-captures"}  # by how many captures they take
CAPTURES = (  # how files of captures begin: pcap in both orders of bytes, of micro- and nanoseconds, pcapng, gzip
    b"\xd4\xc3\xb2\xa1", b"\xa1\xb2\xc3\xd4", b"\x4d\x3c\xb2\xa1", b"\xa1\xb2\x3c\x4d", b"\x0a\x0d\x0d\x0a", b"\x1f\x8b",
)  # fmt: skip


class NoTrace(MarpleError):
    """A capture script made no trace, for the reason that it said."""


@dataclass(frozen=True)
class Made:
    """A trace, and where it comes from.

    path: the trace; files: those that were given; script: the one that made the trace, or none; words: its options;
    said: what it said, a line each, without its own name.
    """

    path: Path
    files: tuple[str, ...]
    script: str = ""
    words: tuple[str, ...] = ()
    said: tuple[str, ...] = ()

    @property
    def begins(self) -> Optional[str]:
        """The time of day at which the trace's time begins, if the script said it."""
        said = next((line for line in self.said if line.startswith("time 0 is ")), "")
        return said.removeprefix("time 0 is ").split(",")[0] or None


def is_capture(path: str) -> bool:
    """Whether a regular file begins as a capture does."""
    if not os.path.isfile(path):
        return False
    with open(path, "rb") as file:
        return file.read(4).startswith(CAPTURES)


def script_path(name: str) -> Path:
    """Where a capture script is: in a wheel, or in the checkout."""
    bundled = BUNDLED / name
    return bundled if bundled.is_file() else CHECKOUT / "tools" / "captures" / name


def make_trace(captures: Sequence[str], options: Sequence[str], trace: Path) -> Made:
    """Makes the trace of one capture, or of one before and one after a queue. What the script says is said here too.

    Raises NoTrace, and OSError.
    """
    name = SCRIPTS[len(captures)]
    command = [sys.executable, "-B", str(script_path(name)), *options, *captures]
    with trace.open("wb") as file:
        status, said = outcome(command, file)
    lines = [line.removeprefix(f"{name}: ") for line in said.splitlines()]
    for line in lines:
        print(f"{name}: {line}", file=sys.stderr, flush=True)
    if status != 0:
        raise NoTrace("the captures give no trace, for the reason above" if lines else f"{name} ended with status {status}")
    return Made(trace, tuple(captures), name, tuple(options), tuple(lines))


def outcome(command: Sequence[str], output: IO[bytes]) -> tuple[int, str]:
    """The status of a command, whose output goes into the file, and what it says. It ends where this process is ended."""
    with subprocess.Popen(command, stdin=subprocess.DEVNULL, stdout=output, stderr=subprocess.PIPE) as process:
        try:
            _, said = process.communicate()
        except BaseException:
            process.terminate()  # it ends what it has begun
            raise
    return process.returncode, said.decode(errors="replace")
