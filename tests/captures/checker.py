"""Makes the trace of two captures in another way: it reads the files itself, is given what they hold, and goes by order alone.

It knows from its caller who sends through the queue, how long a packet may be on the link, and that the queue is first in, first
out. So a packet that left is the last one of its kind that came before, and that came before the one that left after it. Nothing
of the capture scripts is used here.
"""

import gzip
import struct
from collections.abc import Iterator
from dataclasses import dataclass, replace
from ipaddress import IPv4Address, IPv4Network, IPv6Address
from pathlib import Path

MAGIC = {b"\xd4\xc3\xb2\xa1": 1000, b"\x4d\x3c\xb2\xa1": 1}  # nanoseconds of a capture's unit of time


@dataclass(frozen=True)
class Seen:
    """One packet at one tap."""

    number: int
    time: int
    flow: tuple[str, str, int, int, int]
    identification: int
    fragment: int
    sequence: int
    length: int
    payload: int

    def kind(self) -> tuple:
        """What is the same at both taps."""
        return self.flow, self.identification, self.fragment, self.sequence, self.length


def frames(path: Path) -> Iterator[tuple[int, bytes]]:
    """The times and the bytes of a capture's frames."""
    data = path.read_bytes()
    if data[:2] == b"\x1f\x8b":
        data = gzip.decompress(data)
    unit = MAGIC[data[:4]]
    at = 24
    while at < len(data):
        seconds, part, kept, _ = struct.unpack_from("<IIII", data, at)
        yield seconds * 10**9 + part * unit, data[at + 16 : at + 16 + kept]
        at += 16 + kept


def seen(path: Path) -> list[Seen]:
    """The IPv4 packets of a capture."""
    found = []
    for number, (time, frame) in enumerate(frames(path), 1):
        at = 12
        while frame[at : at + 2] == b"\x81\x00":
            at += 4
        if frame[at : at + 2] == b"\x08\x00":
            found.append(parsed(number, time, frame[at + 2 :]))
    return found


def ipv6_to(path: Path, target: str) -> int:
    """How many packets of IPv6 to an address are in a capture."""
    address = IPv6Address(target).packed
    return sum(1 for _, frame in frames(path) if frame[12:14] == b"\x86\xdd" and frame[38:54] == address)


def sent_from(packets: list[Seen], senders: IPv4Network) -> list[Seen]:
    """Those that come from the senders."""
    return [packet for packet in packets if IPv4Address(packet.flow[0]) in senders]


def parsed(number: int, time: int, data: bytes) -> Seen:
    """The packet whose IP header begins the data."""
    first, _, length, identification, place, _, protocol = struct.unpack_from(">BBHHHBB", data)
    source, target = (".".join(map(str, data[at : at + 4])) for at in (12, 16))
    header = (first & 15) * 4
    ports, sequence, rest = (0, 0), 0, 0
    if place & 0x1FFF == 0 and protocol in (6, 17):
        ports = struct.unpack_from(">HH", data, header)
        rest = 8
        if protocol == 6:
            sequence = struct.unpack_from(">I", data, header + 4)[0]
            rest = (data[header + 12] >> 4) * 4
    flow = (source, target, *ports, protocol)
    return Seen(number, time, flow, identification, place & 0x1FFF, sequence, length, length - header - rest)


def cut(packets: list[Seen], longest: int, payload: int) -> list[Seen]:
    """The packets as they are on a link that takes no longer ones."""
    found = []
    for packet in packets:
        if packet.length <= longest or packet.flow[4] not in (6, 17):
            found.append(packet)
            continue
        header = packet.length - packet.payload
        for number in range((packet.payload + payload - 1) // payload):
            part = min(payload, packet.payload - number * payload)
            sequence = packet.sequence + number * payload if packet.flow[4] == 6 else 0
            identification = (packet.identification + number) & 0xFFFF
            found.append(replace(packet, identification=identification, payload=part, length=header + part, sequence=sequence))
    return found


def departures(came: list[Seen], left: list[Seen], one_queue: bool) -> dict[int, int]:
    """When each packet left, by its place: from the last to the first, in order over all packets or over those of each flow."""
    found: dict[int, int] = {}
    later: dict[tuple | None, int] = {}
    places: dict[tuple, list[int]] = {}
    for place, packet in enumerate(came):
        places.setdefault(packet.kind(), []).append(place)
    for packet in reversed(left):
        queue = None if one_queue else packet.flow
        bound = later.get(queue, len(came))
        place = max(place for place in places[packet.kind()] if place < bound and came[place].time <= packet.time)
        later[queue] = place
        found[place] = packet.time
    return found


def trace(before: Path, after: Path, senders: str, longest: int, payload: int, one_queue: bool) -> str:
    """The trace that is right where packets longer than `longest` are cut into pieces of `payload` bytes."""
    network = IPv4Network(senders)
    all_before = seen(before)
    came = cut(sent_from(all_before, network), longest, payload)
    left = cut(sent_from(seen(after), network), longest, payload)
    second = min(packet.time for packet in all_before) // 10**9 * 10**9
    times = departures(came, left, one_queue)
    lines = ["switch,qid,uid,srcip,dstip,srcport,dstport,proto,pkt_len,payload_len,tcpseq,tin,tout,qsize"]
    for place, packet in enumerate(came):
        inside = sum(1 for other in range(place) if times.get(other, 0) > packet.time)
        out = times[place] - second if place in times else "inf"
        words = (1, 0, packet.number, *packet.flow, packet.length, packet.payload, packet.sequence)
        lines.append(",".join(map(str, (*words, packet.time - second, out, inside))))
    return "\n".join(lines) + "\n"


def flows(text: str) -> dict[tuple[str, ...], tuple[int, int, int, int]]:
    """For each flow of a trace: how many packets came, how many were lost, and the sum and the greatest of the latencies."""
    found: dict[tuple[str, ...], tuple[int, int, int, int]] = {}
    for line in text.splitlines()[1:]:
        words = line.split(",")
        came, lost, sum_of, most = found.get(tuple(words[3:8]), (0, 0, 0, 0))
        latency = int(words[12]) - int(words[11]) if words[12] != "inf" else None
        found[tuple(words[3:8])] = (came + 1, lost + (latency is None), sum_of + (latency or 0), max(most, latency or 0))
    return found
