"""Prints the tables of a query over traces of any size, as `marple run` does, by runs over parts of them.

The count of epochs is summed over the parts. Progress goes to standard error. docs/SCALING.md says more.
"""

import argparse
import os
import shutil
import sys
import time
from contextlib import ExitStack, suppress
from typing import TextIO

from marple.commands import query_text
from marple.faults import MarpleError, OutputError
from marple.parts import PIECE, folder_of, tables_file
from marple.parts.engine import cluster_at, engine_of
from marple.parts.options import check_option
from marple.parts.refusals import OptionRefused
from marple.parts.stopping import Stopped, raise_at_signals
from marple.version import __version__

OPTIONS = ("buckets", "ways", "pipe", "lag")
NUMBERED = ("refresh", "every")  # they count the packets of the whole


class Progress:
    """Writes lines of progress: one that is rewritten at a terminal; elsewhere the end of each stage, and in between
    one line in ten seconds. Where they can't be written the run goes on.
    """

    EVERY = 10

    def __init__(self, stream: TextIO):
        self.stream, self.width, self.last = stream, 0, time.monotonic()

    def report(self, line: str) -> None:
        with suppress(OSError):
            self._write(line)

    def _write(self, line: str) -> None:
        if self.stream.isatty():
            self.stream.write(f"\r{line.ljust(self.width)}")
            self.width = len(line)
        elif not is_underway(line) or time.monotonic() - self.last >= self.EVERY:
            self.stream.write(f"marple: {line}\n")
            self.last = time.monotonic()
        self.stream.flush()

    def end(self, last: str = "") -> None:
        """Ends the line that was rewritten, if there is one, and writes a last one, if there is one."""
        with suppress(OSError):
            if self.stream.isatty() and self.width:
                self.stream.write("\n")
                self.width = 0
            self.stream.write(last)
            self.stream.flush()


def is_underway(line: str) -> bool:
    """Whether a line of progress counts tasks, of which some aren't done."""
    words = line.split()
    return len(words) > 2 and words[-2] == "of" and words[-3] != words[-1]


def words() -> argparse.ArgumentParser:
    parser = argparse.ArgumentParser(prog="python -m marple.parts", description=__doc__)
    parser.add_argument("--version", action="version", version=f"marple {__version__}")
    parser.add_argument("query", metavar="QUERY", help="the query's file")
    parser.add_argument("traces", metavar="TRACE", nargs="+", help="files, each with a header, in the order of their packets")
    parser.add_argument("--by", metavar="FIELD[,FIELD]", help="the fields to split by (all that the query allows)")
    parser.add_argument("--parts", type=int, metavar="N", help="how many parts at least")
    where = parser.add_mutually_exclusive_group()
    where.add_argument("--scheduler", metavar="ADDRESS", help="of the Dask scheduler to use")
    where.add_argument("--workers", type=int, metavar="N", help="how many processes of this machine do the tasks")
    parser.add_argument("--work", metavar="FOLDER", help="for what is made on the way; a second call goes on there")
    for name in OPTIONS:
        parser.add_argument(f"--{name}", type=int, help="as at `marple run`, for each part")
    for name in NUMBERED:
        parser.add_argument(f"--{name}", help=argparse.SUPPRESS)
    return parser


def print_tables(given: argparse.Namespace, progress: Progress) -> None:
    for name in NUMBERED:
        if getattr(given, name) is not None:
            raise OptionRefused(f"--{name} counts the packets of the whole, and a part numbers its own")
    check_option("workers", given.workers)
    check_option("parts", given.parts)
    with ExitStack() as stack:
        client = None if given.scheduler is None else stack.enter_context(cluster_at(given.scheduler))
        folder = stack.enter_context(folder_of(given.work))
        engine = stack.enter_context(engine_of(given.workers, client))
        joined, _, _ = tables_file(
            query_text(given.query), given.traces, by=None if given.by is None else given.by.split(","),
            parts=given.parts, engine=engine, work=folder, sums=given.work is not None,
            given={name: getattr(given, name) for name in OPTIONS}, program=None, piece=PIECE, report=progress.report,
        )  # fmt: skip
        progress.end()
        print_file(joined)


def print_file(path: str) -> None:
    """Copies a file to standard output. Raises OutputError where that takes no more."""
    with open(path, "rb") as file:
        try:
            shutil.copyfileobj(file, sys.stdout.buffer)
            sys.stdout.buffer.flush()
        except OSError as fault:
            os.dup2(os.open(os.devnull, os.O_WRONLY), sys.stdout.fileno())  # for what is still held
            raise OutputError("cannot write") from fault


def main() -> int:
    given = words().parse_args()
    raise_at_signals()
    progress = Progress(sys.stderr)
    try:
        print_tables(given, progress)
    except (MarpleError, ImportError, Stopped) as refused:
        progress.end(f"marple: {refused}\n")
        return getattr(refused, "status", 2)
    except OSError as fault:
        progress.end(f"marple: cannot write: {fault.strerror}\n")
        return OutputError.status
    return 0


if __name__ == "__main__":
    sys.exit(main())
