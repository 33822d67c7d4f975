"""What one more reading of a trace's packets shows: clocks that drift apart, packets that both captures have joined, and losses
in a row while the second capture has nothing."""

from collections.abc import Iterable, Iterator
from dataclasses import dataclass, field

from marple_captures.cutting import ETHERNET
from marple_captures.findings import Options, is_no_accident, packets, seconds
from marple_captures.matching import NEVER, TOLERANCE
from marple_captures.records import TCP, UDP, Fields, Spool

PARTS = 20  # of the time of a capture: the first two, the middle two and the last two are compared
STEEPEST = 500e-6  # of a second in each second: no clock drifts faster
FEWEST = 20  # packets in a row that a queue rarely loses while nothing leaves it


def milliseconds(time: int) -> str:
    """Nanoseconds for a message."""
    return f"{time / 1e6:.3f} ms"


@dataclass
class Row:
    """Packets in a row that were lost, and when the first and the last of them came, without those that came while others left."""

    count: int = 0
    first: int = 0
    last: int = 0

    def add(self, came: int, latest: int) -> None:
        """Adds one that came, where the latest of the packets before them left at this time."""
        if came > latest:
            self.count += 1
            self.first = self.first or came
            self.last = came


@dataclass
class Survey:
    """What was seen of the packets of a trace: how many there are, how many were lost, which losses in a row took longest while
    nothing left, how many are long, and the least latency in each part of the time."""

    begin: int
    span: int
    came: int = 0
    lost: int = 0
    row: Row = field(default_factory=Row)
    long: int = 0
    floors: list[int] = field(default_factory=lambda: [NEVER] * PARTS)

    def read(self, taken: Iterable[tuple[Fields, int]]) -> None:
        """Takes the packets with their departures."""
        floors, begin, span = self.floors, self.begin, max(1, self.span)
        row, latest = Row(), 0
        for (_, _, _, _, _, protocol, offset, length, _, _, _, came), left in taken:
            self.came += 1
            if length > ETHERNET and not offset and protocol in (TCP, UDP):
                self.long += 1
            if not left:
                self.lost += 1
                row.add(came, latest)
                continue
            part = min(PARTS - 1, (came - begin) * PARTS // span)
            floors[part] = min(floors[part], left - came)
            latest = max(latest, left)
            if row.count:
                self.row = max(self.row, row, key=lambda one: one.last - one.first)
                row = Row()

    def note_on_silence(self, after: Spool, options: Options) -> str:
        """What is to be said of losses in a row, if the second capture has no packet at all meanwhile."""
        row = self.row
        if row.count < FEWEST or not is_no_accident(row.count, self.lost - row.count, self.came - row.count):
            return ""
        if any(row.first < time + options.shift < row.last for _, _, time in after.marks()):
            return ""
        return (f"{packets(row.count)} in a row came within {seconds(row.last - row.first)}, {seconds(row.first - self.begin)} after the "
                f"first, while {options.after} has none: counted as lost, but it may have stood still")

    def note_on_drift(self) -> str:
        """What is to be said of the clocks, if the least latency goes evenly from the first tenth to the last."""
        middle = PARTS // 2
        first, half, last = (min(self.floors[at : at + 2]) for at in (0, middle - 1, PARTS - 2))
        if NEVER in (first, half, last):
            return ""
        moved = last - first
        time = self.span * (PARTS - 2) / PARTS
        if not TOLERANCE <= abs(moved) <= STEEPEST * time or abs(first + last - 2 * half) > abs(moved) / 2:
            return ""
        return (f"the least latency goes evenly from {milliseconds(first)} in the first tenth of the time to {milliseconds(last)} "
                f"in the last: clocks that drift by {abs(moved) / time * 1e6:.0f} in a million do that, and make latencies wrong "
                "by so much; take both captures on one machine")


def survey(before: Spool, after: Spool, taken: Iterable[tuple[Fields, int]], options: Options, asks_for_long: bool) -> Iterator[str]:
    """What the packets of a trace show, a line each."""
    if before.begin is None or before.last is None:
        return
    found = Survey(before.begin, before.last - before.begin)
    found.read(taken)
    if asks_for_long and found.long:
        yield (f"{packets(found.long)} longer than {ETHERNET} bytes in both captures, each counted as one: if offload joined "
               f"what the link has apart, give --split {ETHERNET}")
    yield from filter(None, (found.note_on_silence(after, options), found.note_on_drift()))
