"""Cuts packets that segmentation offload joined, as the queue or the network card cuts them.

A sender's kernel hands packets of up to 64 KB to its network card, and a receiver's joins what it got; in a capture there they
are one packet. Each piece but the last has the same length, and IP identification and sequence number go on from piece to piece.
"""

from collections import Counter
from collections.abc import Callable
from dataclasses import dataclass
from pathlib import Path
from struct import Struct

from marple_captures.records import TCP, UDP, Packet, Spool

ETHERNET = 1500  # the length of a packet on most links
SMALLEST = 500  # a payload below this is taken for no full piece
CANDIDATES = 8  # payloads of a flow that may be that of a full piece
STARTS = 8192  # how many beginnings of long packets are looked for in the other capture
STARTS_OF_LENGTH = 8  # and how many of one flow and length

START = Struct(">4s4sIIHB")
Flow = tuple[bytes, bytes, int, int]
SizeFor = Callable[[Packet], int]  # the payload of a packet's pieces, or 0 where it isn't cut


def flow_of(packet: Packet) -> Flow:
    """Addresses, ports and protocol."""
    return packet[:3] + (packet.protocol,)


def start_of(packet: Packet) -> bytes:
    """Where a packet begins: what a long one and the first piece of it have alike."""
    return START.pack(*packet[:6])


def can_be_cut(packet: Packet) -> bool:
    """Whether segmentation offload knows the packet's protocol."""
    return packet.protocol in (TCP, UDP) and packet.offset == 0


def pieces(packet: Packet, size: int) -> list[Packet]:
    """The packet cut into pieces of `size` bytes of payload each, the last one shorter."""
    found = []
    for number, start in enumerate(range(0, packet.payload, size)):
        found.append(packet._replace(
            identification=(packet.identification + number) % 65536,
            sequence=(packet.sequence + start) % 2**32 if packet.protocol == TCP else 0,
            mark=packet.mark if packet.protocol == TCP else 0,
            length=packet.header + min(size, packet.payload - start)))
    return found


@dataclass
class Count:
    """How many packets were cut, and into how many pieces."""

    packets: int = 0
    pieces: int = 0


@dataclass
class Cut:
    """Two spools after the cutting."""

    before: Spool
    after: Spool
    cut_before: Count
    cut_after: Count


def cut_spool(spool: Spool, path: Path, size_for: SizeFor) -> tuple[Spool, Count]:
    """Cuts the packets for which there is a size, and counts them and their pieces."""
    count = Count()

    def change(packet: Packet) -> list[Packet]:
        size = size_for(packet)
        if not 0 < size < packet.payload:
            return [packet]
        found = pieces(packet, size)
        count.packets += 1
        count.pieces += len(found)
        return found

    cut = spool.rewritten(path, change)
    return (cut, count) if count.packets else (spool, count)


def cut_both(before: Spool, after: Spool, room: Path, for_before: SizeFor | None, for_after: SizeFor | None) -> Cut:
    """Cuts both captures, each by its own rule if it has one."""
    cut = Cut(before, after, Count(), Count())
    if for_before is not None:
        cut.before, cut.cut_before = cut_spool(before, room / "before-cut", for_before)
    if for_after is not None:
        cut.after, cut.cut_after = cut_spool(after, room / "after-cut", for_after)
    return cut


def commonest(counters: dict[Flow, Counter[int]]) -> dict[Flow, int]:
    """The commonest number of each flow that has any."""
    return {flow: counter.most_common(1)[0][0] for flow, counter in counters.items() if counter}


def long_starts(joined: Spool, is_long: Callable[[Packet], bool]) -> dict[bytes, int]:
    """Where long packets begin, with their payloads: some of each flow and length."""
    starts: dict[bytes, int] = {}
    of_length: Counter[tuple[Flow, int]] = Counter()
    for packet in joined.read():
        if is_long(packet) and of_length[flow_of(packet), packet.length] < STARTS_OF_LENGTH and len(starts) < STARTS:
            of_length[flow_of(packet), packet.length] += 1
            starts[start_of(packet)] = packet.payload
    return starts


def as_the_other_shows(joined: Spool, apart: Spool) -> SizeFor | None:
    """Cuts packets of `joined` that are longer than any of `apart`, to the length of those that begin there where they begin.

    Where `apart` has packets longer than Ethernet's, it cuts only those that are as long as one of the flow that is seen to be cut:
    a shorter one may have been lost whole.
    """
    longest = apart.longest
    if not longest or joined.longest <= min(longest, ETHERNET):
        return None
    lengths_apart, lengths_joined = apart.longest_of_pairs(), joined.longest_of_pairs()
    limits = {addresses: lengths_apart.get(addresses, longest) for addresses in lengths_joined}
    if all(length <= limits[addresses] for addresses, length in lengths_joined.items()):
        return None

    def is_long(packet: Packet) -> bool:
        return packet.length > limits[packet.source + packet.target] and can_be_cut(packet)

    starts = long_starts(joined, is_long)
    lengths: Counter[int] = Counter()
    counters: dict[Flow, Counter[int]] = {}
    least: dict[Flow, int] = {}  # the payload from which on a flow's packets are known to be cut
    for packet in apart.read():
        payload = starts.get(start_of(packet), 0)
        if can_be_cut(packet) and 0 < packet.payload < payload:
            flow = flow_of(packet)
            counters.setdefault(flow, Counter())[packet.payload] += 1
            lengths[packet.length] += 1
            least[flow] = min(payload, least.get(flow, payload))
    if not lengths:
        return None
    sizes = commonest(counters)
    length = lengths.most_common(1)[0][0]

    def size_for(packet: Packet) -> int:
        flow = flow_of(packet)
        if not is_long(packet) or (longest > ETHERNET and packet.payload < least.get(flow, 0)):
            return 0
        return sizes.get(flow, length - packet.header if packet.length > longest else 0)

    return size_for


def likeliest_size(joined: Counter[int], apart: Counter[int], most: int) -> int:
    """The payload of a flow's pieces: the one of which most joined payloads are multiples, then the commonest, then the greatest."""
    sizes = {most, *(size for size, _ in apart.most_common(CANDIDATES))}
    return max(sizes, key=lambda size: (sum(count for payload, count in joined.items() if payload % size == 0), apart[size], size))


def to_ethernet(before: Spool, after: Spool) -> SizeFor:
    """Cuts what is longer than Ethernet's packets to the likeliest full payload of the flow, for two captures with offload."""
    both = (before, after)
    joined: dict[Flow, Counter[int]] = {}
    headers: dict[Flow, int] = {}
    for packet in (packet for spool in both for packet in spool.read()):
        if packet.length > ETHERNET and can_be_cut(packet):
            joined.setdefault(flow_of(packet), Counter())[packet.payload] += 1
            headers[flow_of(packet)] = packet.header
    counters: dict[Flow, Counter[int]] = {flow: Counter() for flow in joined}
    for packet in (packet for spool in both for packet in spool.read()):
        if SMALLEST <= packet.payload <= ETHERNET - packet.header and flow_of(packet) in joined:
            counters[flow_of(packet)][packet.payload] += 1
    sizes = {flow: likeliest_size(joined[flow], counters[flow], ETHERNET - headers[flow]) for flow in joined}
    return lambda packet: sizes[flow_of(packet)] if packet.length > ETHERNET and can_be_cut(packet) else 0


def to_length(length: int) -> SizeFor:
    """Cuts what is longer than a given length to it."""
    return lambda packet: length - packet.header if packet.length > length and can_be_cut(packet) else 0
