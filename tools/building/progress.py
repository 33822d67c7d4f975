"""The lines of ./build on standard error: at a terminal the last one is rewritten as time goes by."""

from __future__ import annotations

import shutil
import time
from typing import Callable, TextIO

# On a terminal the last line is rewritten, elsewhere one is added, so that nobody takes the build for dead.
REWRITTEN_AFTER = 1.0
ADDED_AFTER = 30.0


class Progress:
    """Writes lines to a stream, and a line on how things stand where none was written for some time."""

    def __init__(self, stream: TextIO, clock: Callable[[], float] = time.monotonic):
        self.stream, self.clock = stream, clock
        self.is_terminal = stream.isatty()
        self.shown = clock()
        self.has_status = False

    def line(self, text: str) -> None:
        self.stream.write(f"{self.cleared()}build: {text}\n")
        self.stream.flush()
        self.shown = self.clock()

    def standing(self, text: Callable[[], str]) -> None:
        """Writes how things stand, if it is time to."""
        after = REWRITTEN_AFTER if self.is_terminal else ADDED_AFTER
        if self.clock() - self.shown < after:
            return
        if not self.is_terminal:
            self.line(text())
            return
        width = shutil.get_terminal_size().columns - 1
        self.stream.write(self.cleared() + f"build: {text()}"[:width])
        self.stream.flush()
        self.shown, self.has_status = self.clock(), True

    def end(self) -> None:
        """Leaves the terminal's line to what is written next."""
        self.stream.write(self.cleared())
        self.stream.flush()

    def cleared(self) -> str:
        had, self.has_status = self.has_status, False
        return "\r\033[K" if had else ""
