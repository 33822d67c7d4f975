"""Packets as records of one size, kept in files, so that memory holds those that wait for their match and no others."""

import os
import struct
from array import array
from collections.abc import Callable, Iterator
from dataclasses import dataclass, replace
from functools import cached_property
from pathlib import Path
from typing import BinaryIO, NamedTuple, cast

TCP = 6
UDP = 17

# What is the same in both captures: addresses, ports, sequence number, IP identification, protocol, place of a fragment, length.
# Then come a mark that tells packets alike apart (TCP's acknowledgement number, UDP's checksum), the bytes of the IP and
# transport headers, the packet's number in its capture, and nanoseconds since 1970.
LAYOUT = struct.Struct(">4s4sIIHBHIIHIq")
SHORT_LAYOUT = struct.Struct(">4s4sQHBHIIHIq")  # the same, with ports and sequence number in one word
SPLIT = struct.Struct(">25sI6xq")
LENGTH = struct.Struct(">21xI18x")
BLOCK = 4096

Fields = tuple[bytes, bytes, int, int, int, int, int, int, int, int, int, int]  # a packet's, where no names are needed


class Packet(NamedTuple):
    """The fields of a record, in its order."""

    source: bytes
    target: bytes
    ports: int
    sequence: int
    identification: int
    protocol: int
    offset: int
    length: int
    mark: int
    header: int
    number: int
    time: int

    @property
    def payload(self) -> int:
        """The bytes after the TCP or UDP header, or after the IP header where there is neither."""
        return max(0, self.length - self.header)


@dataclass
class Spool:
    """The records of one capture in a file, and what was seen of the capture while they were written."""

    path: Path
    packets: int = 0
    foreign: int = 0
    cut_off: int = 0  # packets whose snapshots lack a part of their headers
    first: int | None = None  # the least time of all packets, and the greatest
    last: int | None = None
    back: int = 0  # by how much the times go back at most
    begin: int | None = None  # the least time of the packets that have a record
    ends_inside: bool = False  # whether the capture ends in the middle of a packet

    def blocks(self) -> Iterator[bytes]:
        """The records as bytes, a few thousand at a time."""
        with self.path.open("rb") as file:
            while block := file.read(LAYOUT.size * BLOCK):
                yield block

    def read(self) -> Iterator[Packet]:
        """The packets in the order of the capture."""
        return map(Packet._make, self.fields())

    def fields(self) -> Iterator[Fields]:
        """The same, each as a plain tuple."""
        for block in self.blocks():
            yield from cast(Iterator[Fields], LAYOUT.iter_unpack(block))

    def marks(self) -> Iterator[tuple[bytes, int, int]]:
        """The identity, the mark and the time of each packet, in the order of the capture."""
        for block in self.blocks():
            yield from cast(Iterator[tuple[bytes, int, int]], SPLIT.iter_unpack(block))

    @cached_property
    def longest(self) -> int:
        """The length of the longest packet."""
        return int(max((max(LENGTH.iter_unpack(block)) for block in self.blocks()), default=(0,))[0])

    def longest_of_pairs(self) -> dict[bytes, int]:
        """The length of the longest packet from one address to another."""
        found: dict[bytes, int] = {}
        for packet in self.read():
            addresses = packet.source + packet.target
            found[addresses] = max(packet.length, found.get(addresses, 0))
        return found

    def time_of(self, slot: int) -> int:
        """When the packet in this place came, counted from 0."""
        with self.path.open("rb") as file:
            file.seek(slot * LAYOUT.size)
            time: int = SPLIT.unpack(file.read(LAYOUT.size))[-1]
        return time

    def rewritten(self, path: Path, change: Callable[[Packet], list[Packet]]) -> "Spool":
        """A spool at another path in which each packet is replaced by those that `change` makes of it."""
        other = replace(self, path=path, packets=0)
        with path.open("wb") as file:
            for packet in self.read():
                for piece in change(packet):
                    write_packet(file, piece)
                    other.packets += 1
        return other


def write_packet(file: BinaryIO, packet: Packet) -> None:
    """Writes one packet at the end of a file of records."""
    file.write(LAYOUT.pack(*packet))


class Departures:
    """When each packet before the queue left it: nanoseconds since 1970 in a file, with 0 for a packet that never did.

    A few blocks of the file are in memory, since packets that leave one after the other mostly came so.
    """

    HELD = 4

    def __init__(self, path: Path, packets: int) -> None:
        self.path = path
        self.file = os.open(path, os.O_RDWR | os.O_CREAT | os.O_TRUNC, 0o600)
        os.ftruncate(self.file, packets * 8)
        self.packets = packets
        self.blocks: dict[int, array[int]] = {}

    def __enter__(self) -> "Departures":
        return self

    def __exit__(self, *_: object) -> None:
        for number in list(self.blocks):
            self.store(number)
        os.close(self.file)

    def put(self, slot: int, time: int) -> None:
        """Sets the departure of the packet in this place of the spool, counted from 0."""
        block = self.blocks.get(slot // BLOCK)
        if block is None:
            block = self.load(slot // BLOCK)
        block[slot % BLOCK] = time

    def load(self, number: int) -> "array[int]":
        """Takes a block into memory, in the place of the one that is longest there."""
        if len(self.blocks) == self.HELD:
            self.store(next(iter(self.blocks)))
        block = self.blocks[number] = array("q")
        block.frombytes(os.pread(self.file, 8 * BLOCK, 8 * BLOCK * number))
        return block

    def store(self, number: int) -> None:
        """Writes a block into the file."""
        os.pwrite(self.file, self.blocks.pop(number).tobytes(), 8 * BLOCK * number)

    def read(self) -> Iterator[int]:
        """The departures in the order of the packets."""
        with self.path.open("rb") as file:
            while data := file.read(8 * BLOCK):
                yield from array("q", data)
