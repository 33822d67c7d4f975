"""Captures whose truth is known, since this file makes them: a first-in first-out queue, simulated, with a tap on each side.

Each case represents something that ordinary captures hold and that a test needs exactly: tags, offload at both ends, clocks
that differ. The truth of a case is the trace itself, from the simulation and from no matching of packets.
"""

import gzip
import random
import struct
from collections.abc import Callable
from dataclasses import dataclass, field, replace
from datetime import datetime, timedelta
from ipaddress import IPv4Address
from pathlib import Path

START = 1_800_000_000 * 10**9 + 250_000_000  # nanoseconds since 1970 at which cases begin
SNAPSHOT = 96
TCP, UDP = 6, 17
Tags = tuple[int | None, int | None]  # the VLANs before and after the queue
RECEIVER = "10.0.2.2"


@dataclass(frozen=True)
class Packet:
    """An IPv4 packet, or a fragment of one; TCP has twelve bytes of options."""

    source: str
    target: str
    ports: tuple[int, int]
    protocol: int
    identification: int
    payload: int
    sequence: int = 0
    offset: int = 0  # of a fragment, in bytes
    more: bool = False
    checksum: int = 0  # of UDP

    @property
    def header(self) -> int:
        """The bytes of the IP header and of the transport header, which a later fragment hasn't."""
        return 20 if self.offset else 20 + (32 if self.protocol == TCP else 8)

    @property
    def length(self) -> int:
        """The bytes from the IP header on."""
        return self.header + self.payload

    def bytes(self, vlan: int | None = None) -> bytes:
        """The frame, cut to the snapshot's length."""
        tag = struct.pack(">HH", 0x8100, vlan) if vlan is not None else b""
        place = (0x2000 if self.more else 0) | self.offset // 8
        ip = struct.pack(">BBHHHBBH4s4s", 0x45, 0, self.length, self.identification, place, 64, self.protocol, 0,
                         IPv4Address(self.source).packed, IPv4Address(self.target).packed)
        transport = b""
        if not self.offset and self.protocol == TCP:
            transport = struct.pack(">HHIIBBHHH", *self.ports, self.sequence, 1, 0x80, 0x10, 1000, 0, 0) + bytes(12)
        elif not self.offset:
            transport = struct.pack(">HHHH", *self.ports, 8 + self.payload, self.checksum)
        return (bytes(12) + tag + b"\x08\x00" + ip + transport + bytes(SNAPSHOT))[:SNAPSHOT]

    def pieces(self, size: int) -> list["Packet"]:
        """The packet as segmentation cuts it."""
        return [replace(self, identification=(self.identification + number) % 65536, payload=min(size, self.payload - at),
                        sequence=self.sequence + at if self.protocol == TCP else 0)
                for number, at in enumerate(range(0, self.payload, size))] or [self]


Leaving = list[tuple[int, Packet]]  # packets with their departures


@dataclass
class Frame:
    """What a tap saw: when, the bytes that were kept, and how many there were."""

    time: int
    data: bytes
    length: int


@dataclass
class Row:
    """A record of the trace, but for the number of its frame and its depth."""

    frame: Frame
    packet: Packet
    came: int
    left: int | None


@dataclass
class Case:
    """Two captures, the script's options, and what it must say."""

    name: str
    before: list[Frame]
    after: list[Frame]
    rows: list[Row]
    options: list[str] = field(default_factory=list)
    status: int = 0
    messages: list[str] = field(default_factory=list)
    swapped: bool = False
    captures: str = ""  # the case whose captures these are, where it is another one
    senders: str = "10.0.1.0/24"  # what the checker is given: who sends, and how packets are cut
    longest: int = 1500
    payload: int = 1448
    checked: bool = True  # whether the checker knows enough
    dissected: bool = False  # whether tshark has to dissect IP
    link: int = 1  # the kind of the link: Ethernet
    turned: int = 0  # the place of a frame before the queue that stands behind the next one
    kept_order: bool = False  # whether the frames stand in the captures in their order here, and not by time
    missing: int = 0  # bytes that the capture before the queue lacks at its end

    def write(self, folder: Path) -> None:
        """Writes both captures."""
        write_capture(folder / "before.pcap.gz", self.came(), self.link, self.missing)
        write_capture(folder / "after.pcap.gz", self.after if self.kept_order else by_time(self.after), self.link)

    def came(self) -> list[Frame]:
        """The frames before the queue in the order of the capture."""
        frames = list(self.before) if self.kept_order else by_time(self.before)
        if self.turned:
            frames[self.turned - 1 : self.turned + 1] = reversed(frames[self.turned - 1 : self.turned + 1])
        return frames

    @property
    def second(self) -> int:
        """The second of 1970 at which time begins."""
        return min((row.came for row in self.rows), default=0) // 10**9

    def said(self) -> list[str]:
        """What the script must say: where there is a trace also of its time 0."""
        date = datetime(1970, 1, 1) + timedelta(seconds=self.second)
        return self.messages + [f"time 0 is {date} UTC, second {self.second} of 1970"] * (self.status == 0)

    def trace(self) -> str:
        """The trace that is right for these captures."""
        numbers = {id(frame): number for number, frame in enumerate(self.came(), 1)}
        second = self.second * 10**9
        lines = ["switch,qid,uid,srcip,dstip,srcport,dstport,proto,pkt_len,payload_len,tcpseq,tin,tout,qsize"]
        for place, row in enumerate(self.rows):
            packet = row.packet
            depth = sum(1 for other in self.rows[:place] if other.left is not None and other.left > row.came)
            ports = (0, 0) if packet.offset else packet.ports
            left = "inf" if row.left is None else row.left - second
            lines.append(f"1,0,{numbers[id(row.frame)]},{packet.source},{packet.target},{ports[0]},{ports[1]},{packet.protocol},"
                         f"{packet.length},{packet.payload},{packet.sequence},{row.came - second},{left},{depth}")
        return "".join(line + "\n" for line in lines)


def by_time(frames: list[Frame]) -> list[Frame]:
    """Frames in the order in which a tap writes them."""
    return sorted(frames, key=lambda frame: frame.time)


def write_capture(path: Path, frames: list[Frame], link: int, missing: int = 0) -> None:
    """Writes a compressed capture with times in nanoseconds, without some bytes at its end."""
    data = struct.pack("<IHHiIII", 0xA1B23C4D, 2, 4, 0, 0, SNAPSHOT, link)
    for frame in frames:
        seconds, part = divmod(frame.time, 10**9)
        data += struct.pack("<IIII", seconds, part, len(frame.data), frame.length) + frame.data
    with gzip.GzipFile(path, "wb", mtime=0) as file:
        file.write(data[: len(data) - missing])


class World:
    """A queue of some packets and some bytes a microsecond, with a tap before it and one after it."""

    def __init__(self, seed: int, limit: int = 12, rate: float = 0.6) -> None:
        self.random = random.Random(seed)
        self.limit = limit
        self.rate = rate
        self.free = 0
        self.before: list[Frame] = []
        self.after: list[Frame] = []
        self.rows: list[Row] = []
        self.sequences: dict[str, int] = {}
        self.identification = 60000

    def next_packet(self, source: str, payload: int) -> Packet:
        """The next TCP packet of a source's one flow."""
        sequence = self.sequences.setdefault(source, self.random.randrange(2**31))
        self.sequences[source] += payload
        last = int(source.rsplit(".", 1)[1])
        packet = Packet(source, RECEIVER, (40000 + last, 5000 + last), TCP, self.identification, payload, sequence)
        self.identification = (self.identification + max(1, -(-payload // 1448))) % 65536
        return packet

    def see(self, tap: list[Frame], time: int, packet: Packet, vlan: int | None = None) -> Frame:
        """Adds a frame to a tap."""
        frame = Frame(time, packet.bytes(vlan), 14 + (4 if vlan is not None else 0) + packet.length)
        tap.append(frame)
        return frame

    def send(self, time: int, packet: Packet, piece: int = 0, seen: bool = True, vlans: Tags = (None, None),
             join: Callable[[Leaving], Leaving] = lambda left: left) -> list[Row]:
        """Sends a packet through the queue, which cuts it into pieces; a receiver may join those that left."""
        frame = self.see(self.before, time, packet, vlans[0])
        rows = []
        for part in packet.pieces(piece) if piece else [packet]:
            inside = sum(1 for row in self.rows if row.left is not None and row.left > time)
            left = None
            if inside < self.limit:
                self.free = max(self.free, time) + int(part.length / self.rate * 1000)
                left = self.free
            rows.append(Row(frame, part, time, left))
            self.rows.append(rows[-1])
        if seen:
            for at, part in join([(row.left, row.packet) for row in rows if row.left is not None]):
                self.see(self.after, at, part, vlans[1])
        return rows

    def answer(self, rows: list[Row], payload: int = 0) -> int:
        """Sends an acknowledgement for each packet that arrived, the other way round; how many."""
        arrived = [row for row in rows if row.left is not None]
        for row in arrived:
            self.identification += 1
            back = Packet(RECEIVER, row.packet.source, row.packet.ports[::-1], TCP, self.identification % 65536, payload, 77)
            self.see(self.after, row.left + 40_000, back)
            self.see(self.before, row.left + 90_000, back)
        return len(arrived)

    def traffic(self, packets: int, mean: float = 2_200_000, answers: bool = False, **how) -> int:
        """Packets of three sources at random times, answered or not; how many answers there were."""
        time, count = START, 0
        for _ in range(packets):
            time += int(self.random.expovariate(1 / mean))
            packet = self.next_packet(f"10.0.1.{self.random.randint(1, 3)}", self.random.choice((100, 700, 1448)))
            rows = self.send(time, packet, **how)
            count += self.answer(rows) if answers else 0
        return count

    def counts(self) -> str:
        """What the script must count."""
        left = sum(1 for row in self.rows if row.left is not None)
        return f"{len(self.rows)} packets came, {left} left, {len(self.rows) - left} never did"

    def case(self, name: str, **what) -> Case:
        """The case that these taps make."""
        return Case(name, self.before, self.after, self.rows, **what)
