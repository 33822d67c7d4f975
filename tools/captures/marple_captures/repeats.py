"""Whether a capture has most of its packets several times, as one of all interfaces has those that pass more than one."""

from collections import Counter
from itertools import islice

from marple_captures.records import Spool

SAMPLE = 32768  # packets that are looked at
FEWEST = 20  # packets that say anything
COPIES = range(2, 5)  # of each packet; more are packets alike of a sender that doesn't number them
REPEATED = ("has most of its packets several times, as all interfaces (-i any) and a mirror of both directions show them: "
            "take it on one interface")


def repeats(spool: Spool) -> bool:
    """Whether most of the first packets stand there equally often, a few times each."""
    times = Counter((identity, mark) for identity, mark, _ in islice(spool.marks(), SAMPLE))
    frequency = Counter(times.values())
    return times.total() >= FEWEST and any(2 * copies * frequency[copies] > times.total() for copies in COPIES)
