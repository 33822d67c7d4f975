"""What is computed from rows of the cookbook's tables, and how numbers are written."""

from collections import defaultdict
from collections.abc import Iterable, Mapping

from marple.exports import address
from marple.report.recipes import Key, Row, flow_of

PERCENTS = (50, 95, 99)
PROTOCOLS = {1: "ICMP", 2: "IGMP", 6: "TCP", 17: "UDP", 47: "GRE", 50: "ESP", 132: "SCTP"}
MILLISECOND = 10**6
SECOND = 10**9

Counts = dict[int, int]  # packets by the millisecond that they took


def percentile(counts: Mapping[int, int], percent: int) -> int:
    """The least bin up to which so many percent of the packets are, of at least one packet."""
    total, upto = sum(counts.values()), 0
    for place in sorted(counts):
        upto += counts[place]
        if upto * 100 >= percent * total:
            return place
    raise ValueError("there are no packets")


def histograms(rows: Iterable[Row]) -> dict[Key, Counts]:
    """The packets of each flow by the millisecond that they took."""
    found: dict[Key, Counts] = defaultdict(dict)
    for row in rows:
        found[flow_of(row)][row["ms"]] = row["packets"]
    return dict(found)


def sum_of(histograms_of_flows: Iterable[Counts]) -> Counts:
    """The packets of all flows by the millisecond that they took."""
    whole: Counts = defaultdict(int)
    for counts in histograms_of_flows:
        for place, packets in counts.items():
            whole[place] += packets
    return dict(whole)


def whole(number: int) -> str:
    return f"{number:,}"


def share(part: int, total: int) -> str:
    """A share in percent."""
    return f"{100 * part / total:.2f}" if total else "–"


def milliseconds(nanoseconds: float) -> str:
    return f"{nanoseconds / MILLISECOND:,.3f}"


def bin_of(millisecond: int) -> str:
    """A bin of one millisecond by its ends."""
    return f"{millisecond:,}–{millisecond + 1:,}"


def protocol(number: int) -> str:
    return PROTOCOLS.get(number, str(number))


def end_of(host: int, port: int) -> str:
    """An address with its port, which only some protocols have."""
    return f"{address(host)}:{port}" if port else address(host)


def name_of(flow: Key) -> str:
    """A flow as people write it."""
    source, destination, from_port, to_port, number = flow
    return f"{end_of(source, from_port)} → {end_of(destination, to_port)} {protocol(number)}"
