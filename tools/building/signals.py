"""Ends a command of Python that is asked to by a signal as an exception does, so that what it began is ended and removed."""

from __future__ import annotations

import signal

STOPPING = (signal.SIGINT, signal.SIGTERM, signal.SIGHUP)


class Interrupted(KeyboardInterrupt):
    """The command was asked to stop. Tests don't take it for a failure of theirs, as they do with other exceptions."""

    def __init__(self, number: int):
        super().__init__(number)
        self.status = 128 + number


def interrupt(number: int, _: object) -> None:
    # once: what ends the rest isn't to be interrupted itself
    for it in STOPPING:
        signal.signal(it, signal.SIG_IGN)
    raise Interrupted(number)


def stop_on_signals() -> None:
    """Raises Interrupted when one of the signals comes, but for those that are ignored."""
    for it in STOPPING:
        if signal.getsignal(it) is not signal.SIG_IGN:
            signal.signal(it, interrupt)
