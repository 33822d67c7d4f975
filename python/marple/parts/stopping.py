"""Ctrl-C and signals that end the command, as an exception, so that what was begun is ended and put away."""

import signal
from collections.abc import Iterator
from contextlib import contextmanager

SIGNALS = (signal.SIGINT, signal.SIGTERM, signal.SIGHUP)


class Stopped(BaseException):
    """A signal came. status: that of a command that a signal has ended, as a shell shows it."""

    def __init__(self, number: int):
        self.status = 128 + number
        super().__init__(f"stopped by {signal.Signals(number).name}")


class _Held:
    """Whether a signal is held back, and the one that came meanwhile."""

    is_on = False
    number = 0


def raise_at_signals() -> None:
    """Has the first of these signals raise Stopped. Later ones have no effect, so that nothing is left half put away."""
    for number in SIGNALS:
        if signal.getsignal(number) is not signal.SIG_IGN:  # as under nohup
            signal.signal(number, _stop)


@contextmanager
def signals_held() -> Iterator[None]:
    """Has a signal that comes inside raise Stopped only at the end: a process that is begun inside is known by then."""
    _Held.is_on = True
    try:
        yield
    finally:
        _Held.is_on = False
    if _Held.number:
        raise Stopped(_Held.number)


def _stop(number: int, frame: object) -> None:
    for one in SIGNALS:
        signal.signal(one, signal.SIG_IGN)
    if _Held.is_on:
        _Held.number = number
    else:
        raise Stopped(number)
