"""What a report must show of a trace, computed from its packets without marple: for tests/python and tests/report-in-browser."""

import csv
from collections import defaultdict
from collections.abc import Callable
from ipaddress import IPv4Address
from pathlib import Path

INFINITY = 2**64 - 1
FLOW = ("srcip", "dstip", "srcport", "dstport", "proto")
NAMES = {6: "TCP", 17: "UDP"}

Packet = dict[str, int]
Flow = tuple[int, ...]
Bins = dict[Flow, dict[int, float]]


def packets_of(trace: Path) -> list[Packet]:
    """The packets of a trace, whose addresses may be numbers or dotted."""
    with trace.open(newline="") as stream:
        return [{field: word(field, text) for field, text in record.items()} for record in csv.DictReader(stream)]


def word(field: str, text: str) -> int:
    if field in ("srcip", "dstip"):
        return int(IPv4Address(int(text) if text.isdigit() else text))
    return INFINITY if text == "inf" else int(text)


def flow_of(packet: Packet) -> Flow:
    return tuple(packet[name] for name in FLOW)


def flows(packets: list[Packet]) -> dict[Flow, list[Packet]]:
    """The packets of each flow; the flows with the most bytes first, and of equals the least."""
    found = defaultdict(list)
    for packet in packets:
        found[flow_of(packet)].append(packet)
    return dict(sorted(found.items(), key=lambda item: (-sum(packet["pkt_len"] for packet in item[1]), item[0])))


def ends(flow: Flow) -> list[str]:
    """The first three cells of a row."""
    source, destination, source_port, destination_port, protocol = flow
    shown = [f"{IPv4Address(address)}:{port}" for address, port in ((source, source_port), (destination, destination_port))]
    return [*shown, NAMES[protocol]]


def lost(packets: list[Packet]) -> int:
    return sum(packet["tout"] == INFINITY for packet in packets)


def left(packets: list[Packet]) -> list[Packet]:
    return [packet for packet in packets if packet["tout"] != INFINITY]


def waits(packets: list[Packet]) -> list[int]:
    return [packet["tout"] - packet["tin"] for packet in left(packets)]


def percentile(packets: list[Packet], percent: int) -> str:
    """The millisecond, by its ends, of the least latency that so many percent of the packets don't pass."""
    ranked = sorted(waits(packets))
    place = ranked[-(-percent * len(ranked) // 100) - 1] // 10**6
    return f"{place:,}–{place + 1:,}"


def volume(packets: list[Packet]) -> list[str]:
    size = sum(packet["pkt_len"] for packet in packets)
    return [f"{len(packets):,}", f"{size:,}", f"{lost(packets):,}", f"{100 * lost(packets) / len(packets):.2f}"]


def latency(packets: list[Packet]) -> list[str]:
    times = waits(packets)
    if not times:
        return ["–"] * 6
    shown = [percentile(packets, percent) for percent in (50, 95, 99)]
    return [*shown, f"{max(times) / 10**6:,.3f}", f"{sum(times) / len(times) / 10**6:,.3f}", f"{len(times):,}"]


def sent_again(packets: list[Packet]) -> set[int]:
    """The numbers of those packets of a flow whose first byte an earlier one has."""
    ranges: list[tuple[int, int]] = []
    found = set()
    for packet in packets:
        start = packet["tcpseq"]
        if any(first <= start < last for first, last in ranges):
            found.add(packet["uid"])
        ranges.append((start, start + packet["payload_len"]))
    return found


def late_in(numbers: list[int]) -> int:
    """How many numbers come after a greater one."""
    return sum(number < max(numbers[:at], default=0) for at, number in enumerate(numbers))


def order(packets: list[Packet]) -> list[str]:
    """Segments, those that were sent again, those out of order, and the packets that the queue reordered, which was one."""
    data = [packet for packet in packets if packet["proto"] == 6 and packet["payload_len"] > 0]
    again = sent_again(data)
    new = [packet["tcpseq"] for packet in data if packet["uid"] not in again]
    out = left(packets)
    leaving = late_in(sorted(range(len(out)), key=lambda at: out[at]["tout"]))
    return [f"{number:,}" for number in (len(data), len(again), late_in(new), leaving)]


def sheet(packets: list[Packet], columns: Callable[[list[Packet]], list[str]]) -> list[list[str]]:
    """The rows of a table of the page, as they stand there at first."""
    return [[*ends(flow), *columns(group)] for flow, group in flows(packets).items()]


def series(packets: list[Packet], time: str, width: int, value: Callable[[list[Packet]], float]) -> Bins:
    """A value of the packets of each flow in each bin of time."""
    found: dict[Flow, dict[int, list[Packet]]] = defaultdict(lambda: defaultdict(list))
    for packet in packets:
        found[flow_of(packet)][packet[time] // width].append(packet)
    return {flow: {place: value(group) for place, group in bins.items()} for flow, bins in found.items()}
