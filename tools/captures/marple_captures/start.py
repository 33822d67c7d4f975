"""What both commands do at their start and end: options that they share, messages, statuses."""

import argparse
import os
import signal
import sys
from collections.abc import Callable
from pathlib import Path

from marple_captures import CaptureError


def natural(text: str) -> int:
    """A number of a command line that isn't negative."""
    if not text.isdecimal():
        raise argparse.ArgumentTypeError(f"not a natural number: {text}")
    return int(text)


def add_numbers(words: argparse.ArgumentParser) -> None:
    """Adds the options for the columns switch and qid, and for the origin of time."""
    words.add_argument("--switch", type=natural, default=1, metavar="N", help="the number of the switch (1)")
    words.add_argument("--queue", type=natural, default=0, metavar="N", help="the number of the queue in it (0)")
    words.add_argument("--origin", type=natural, metavar="S", help="the second of 1970 at which time begins")


def end(number: int, _: object) -> None:
    """Ends the command at a signal, so that what it started and its files go too."""
    sys.exit(128 + number)


def start(words: argparse.ArgumentParser, work: Callable[[str, argparse.Namespace], None]) -> None:
    """Runs a command with its words, and ends with its status."""
    name = Path(sys.argv[0]).name
    signal.signal(signal.SIGTERM, end)
    signal.signal(signal.SIGHUP, end)
    try:
        work(name, words.parse_args())
        sys.stdout.flush()
    except CaptureError as error:
        sys.exit(f"{name}: {error}")
    except BrokenPipeError:
        os.dup2(os.open(os.devnull, os.O_WRONLY), sys.stdout.fileno())
        sys.exit(1)
    except OSError as error:
        sys.exit(f"{name}: {error}")
    except KeyboardInterrupt:
        sys.exit(128 + signal.SIGINT)
