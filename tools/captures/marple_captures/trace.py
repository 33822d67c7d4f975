"""Writes the records of a trace."""

from collections.abc import Iterable
from datetime import datetime, timezone
from functools import lru_cache
from heapq import heappop, heappush
from socket import inet_ntoa
from typing import TextIO

from marple_captures import CaptureError
from marple_captures.records import Fields, Spool

HEADER = "switch,qid,uid,srcip,dstip,srcport,dstport,proto,pkt_len,payload_len,tcpseq,tin,tout,qsize"
SECOND = 1_000_000_000


@lru_cache(maxsize=65536)
def quad(address: bytes) -> str:
    """An address in dotted form."""
    return inet_ntoa(address)


class TraceWriter:
    """Writes records with the numbers of one switch and queue, and times from one origin."""

    def __init__(self, file: TextIO, switch: int, queue: int, origin: int) -> None:
        self.file = file
        self.start = f"{switch},{queue}"
        self.origin = origin * SECOND
        self.inside: list[int] = []
        file.write(HEADER + "\n")

    def write(self, packets: Iterable[tuple[Fields, int]]) -> None:
        """Writes packets with their departures, where 0 means that there was none."""
        write, start, origin, inside = self.file.write, self.start, self.origin, self.inside
        for (source, target, ports, sequence, _, protocol, _, length, _, header, number, came), left in packets:
            while inside and inside[0] <= came:
                heappop(inside)
            depth = len(inside)
            if left > came:
                heappush(inside, left)
            elif left:
                left = came
            write(f"{start},{number},{quad(source)},{quad(target)},{ports >> 16},{ports & 65535},{protocol},{length},"
                  f"{max(0, length - header)},{sequence},{came - origin},{left - origin if left else 'inf'},{depth}\n")


def first_second(spool: Spool) -> int:
    """The second of 1970 in which the packet with the least time came, or 0 where there is none."""
    return (spool.begin or 0) // SECOND


def as_date(origin: int) -> str:
    """What is to be said of time 0."""
    return f"time 0 is {datetime.fromtimestamp(origin, timezone.utc):%Y-%m-%d %H:%M:%S} UTC, second {origin} of 1970"


def check_origin(packets: Iterable[Fields], origin: int) -> None:
    """Refuses an origin that a packet comes before."""
    for *_, number, came in packets:
        if came < origin * SECOND:
            raise CaptureError(f"packet {number} came before the origin")
