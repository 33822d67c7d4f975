"""What can't be run in parts, by name."""

from marple.faults import MarpleError


class PartsRefused(MarpleError):
    """The query, or the work, can't be done in parts."""

    status = 4

    def __str__(self) -> str:
        return f"{type(self).__name__}: {super().__str__()}"


class FieldNeeded(PartsRefused):
    """No field of the packet is a key of every groupby that the printed tables are made from."""


class FinalGroupby(PartsRefused):
    """A final groups rows of several parts."""


class FinalOfTop(PartsRefused):
    """A final is made from the best rows of the whole, which no part knows."""


class FieldRefused(PartsRefused):
    """A field that was asked for doesn't keep the keys."""


class OptionRefused(PartsRefused):
    """An option that has no meaning over parts, or is out of its bounds."""

    status = 2


class KeyTooLarge(PartsRefused):
    """One key has more than one run takes."""

    status = 5


class WorkTaken(PartsRefused):
    """The folder for the work has another one, or another call works there."""

    status = 2


class TraceChanged(PartsRefused):
    """A trace isn't what it was when the run began."""

    status = 3


class CompressionRefused(PartsRefused):
    """A trace is compressed by a program other than gzip."""

    status = 3


class WorkerDied(PartsRefused):
    """A process that did a task has ended before it was done."""

    status = 1


class ClusterLost(PartsRefused):
    """The scheduler of a cluster can't be reached."""

    status = 1
