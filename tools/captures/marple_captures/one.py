"""Makes a trace from one capture, in which no queue can be seen."""

import argparse
import sys
from collections.abc import Iterator
from pathlib import Path
from tempfile import TemporaryDirectory

from marple_captures.findings import STEP, notes_on_reading, packets, were, why_back
from marple_captures.records import Spool
from marple_captures.repeats import REPEATED, repeats
from marple_captures.start import add_numbers, start
from marple_captures.trace import TraceWriter, as_date, check_origin, first_second
from marple_captures.tshark import need_tshark, read_side_by_side

DESCRIPTION = """\
Makes a trace from one capture, in which no queue can be seen.

The trace has a record for each IPv4 packet of the capture, in its order; its fields are those that trace-from-captures gives,
but tout is tin, and qsize is 0. What was passed over is counted on standard error. Needs tshark.
"""


def parser() -> argparse.ArgumentParser:
    """The command line."""
    words = argparse.ArgumentParser(description=DESCRIPTION, formatter_class=argparse.RawDescriptionHelpFormatter)
    words.add_argument("capture", metavar="CAPTURE", help="the capture")
    add_numbers(words)
    return words


def notes(capture: str, spool: Spool, origin: int) -> Iterator[str]:
    """What there is to be said of the capture, a line each."""
    yield from notes_on_reading(spool, capture)
    yield f"{packets(spool.packets)} {were(spool.packets)} read"
    if spool.foreign:
        yield f"{packets(spool.foreign)} without IPv4 {were(spool.foreign)} passed over"
    if spool.back >= STEP:
        yield why_back(spool, capture)
    if repeats(spool):
        yield f"{capture} {REPEATED}"
    if spool.packets:
        yield as_date(origin)


def make_trace(name: str, words: argparse.Namespace) -> None:
    """Reads the capture and writes the trace."""
    need_tshark()
    with TemporaryDirectory(prefix="marple-") as folder:
        (spool,) = read_side_by_side(name, [words.capture], [Path(folder) / "packets"])
        origin = first_second(spool) if words.origin is None else words.origin
        check_origin(spool.fields(), origin)
        for note in notes(words.capture, spool, origin):
            print(f"{name}: {note}", file=sys.stderr)
        TraceWriter(sys.stdout, words.switch, words.queue, origin).write((fields, fields[-1]) for fields in spool.fields())


def main() -> None:
    """Runs the command."""
    start(parser(), make_trace)
