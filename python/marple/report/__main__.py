"""Makes one page (HTML) of two captures, one before a queue and one after it; of one capture; or of a trace.

The page needs nothing beside it: numbers, tables that sort, pictures, and each number's query. Options of the capture
script, as --shift, follow after the captures and a word --. What it says is on the page too. Needs jinja2 and
matplotlib, and tshark for captures.
"""

import argparse
import os
import shutil
import sys
from collections.abc import Sequence
from pathlib import Path
from tempfile import TemporaryDirectory

from marple.faults import MarpleError, OutputError, UsageError
from marple.parts.stopping import Stopped, raise_at_signals
from marple.report.captures import Made, is_capture, make_trace
from marple.report.page import missing_libraries, page
from marple.version import __version__

NAME = "marple-report"


def parser() -> argparse.ArgumentParser:
    words = argparse.ArgumentParser(
        prog=NAME, description=__doc__, formatter_class=argparse.RawDescriptionHelpFormatter,
        usage=f"{NAME} [-o PAGE] BEFORE AFTER [-- OPTION ..]\n       {NAME} [-o PAGE] TRACE",
    )  # fmt: skip
    words.add_argument("--version", action="version", version=f"marple {__version__}")
    words.add_argument("files", metavar="FILE", nargs="+", help="captures before and after a queue, one capture, or a trace")
    words.add_argument("-o", "--output", metavar="PAGE", default="report.html", help="the page (report.html); - writes it out")
    return words


def made_of(files: Sequence[str], options: Sequence[str], room: Path) -> Made:
    """The trace of these files: one that is made of captures, or the one that was given."""
    if len(files) > 2:
        raise UsageError("two captures are taken, or one file; more were given")
    if len(files) == 2 or is_capture(files[0]):
        return make_trace(files, options, room / "trace.csv")
    if options:
        raise UsageError("options after -- are those of the capture script, and a trace was given")
    if os.path.exists(files[0]) and not os.path.isfile(files[0]):
        with open(files[0], "rb") as given, (room / "trace.csv").open("wb") as kept:  # as a FIFO, which is read once
            shutil.copyfileobj(given, kept)
        return Made(room / "trace.csv", tuple(files))
    if any(0xDC80 <= ord(letter) <= 0xDCFF for letter in files[0]):  # a name in bytes that are no text, which marple takes none of
        (room / "trace.csv").symlink_to(os.path.abspath(files[0]))
        return Made(room / "trace.csv", tuple(files))
    return Made(Path(files[0]), tuple(files))


def write(text: str, place: str) -> None:
    """Writes the page, and says where. Raises OutputError."""
    content = text.encode("utf-8", "replace")
    try:
        if place == "-":
            sys.stdout.buffer.write(content)
            sys.stdout.buffer.flush()
        else:
            Path(place).write_bytes(content)
            print(place)
    except OSError as fault:
        raise OutputError(f"cannot write {place}: {fault.strerror}") from fault


def main() -> int:
    words, options = split(sys.argv[1:])
    given = parser().parse_args(words)
    raise_at_signals()
    try:
        if missing := missing_libraries():
            raise UsageError(missing)
        with TemporaryDirectory(prefix="marple-") as folder:
            write(page(made_of(given.files, options, Path(folder))), given.output)
    except (MarpleError, Stopped) as refused:
        print(f"{NAME}: {refused}", file=sys.stderr)
        return getattr(refused, "status", 2)
    except OSError as fault:
        print(f"{NAME}: {fault}", file=sys.stderr)
        return OutputError.status
    return 0


def split(words: list[str]) -> tuple[list[str], list[str]]:
    """The words before the first `--`, and those after it."""
    at = words.index("--") if "--" in words else len(words)
    return words[:at], words[at + 1 :]


if __name__ == "__main__":
    sys.exit(main())
