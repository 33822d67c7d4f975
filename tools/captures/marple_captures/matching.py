"""Finds for each packet after the queue the one before it, holding only packets that wait for their match.

Packets alike are told apart by their marks, and those with one mark by the time in the queue: the likeliest is the one that was
inside nearly as long as the packet of the same addresses that left last. A packet of which another mark is known is none of
them, unless the checksums before the queue aren't those after it, as at a sender whose network card fills them in. IP
identifications return after 65,536 packets. So a packet without a sequence number is no candidate any more when half as many
packets of its addresses have left since, and neither is one that left long before its like came, if the others of its addresses
leave after they come.
"""

import os
from array import array
from bisect import bisect_left
from collections.abc import Callable, Iterator
from dataclasses import dataclass, field
from itertools import chain, islice

from marple_captures.records import LAYOUT, SPLIT, TCP, UDP, Departures, Spool

NEVER = 2**63  # nanoseconds: later than any packet
RECENT = 65536  # the arrivals whose times are in memory; earlier ones are read from the spool
TURN = 4096  # packets of a pair of addresses between two times that are noted
TURNS = 8  # such times that are known: the first of them is half a round of identifications ago
LATEST = 64  # marks of packets alike that are looked at where none is the same
MARK = 2**32 - 1
TOLERANCE = 1_000_000  # nanoseconds by which least latencies differ in any case
PROTOCOL = 18  # where an identity has the protocol
IDENTIFICATION = slice(16, 18)  # and where the IP identification
NONE = b"\0\0"  # the identification of packets that their sender doesn't number

Entry = int  # the place or the time of a packet, and its mark in the lower 32 bits
Alike = dict[int, list[int]]  # for each mark of packets alike their places or times, in order
Table = dict[bytes, Entry | Alike]  # of each identity what waits


class Pair:
    """What was counted of the packets from one address to another."""

    __slots__ = ("before", "after", "matched", "early", "size", "least", "greatest", "latency", "first", "last", "began", "ended",
                 "turns", "horizon")

    def __init__(self) -> None:
        self.before = self.after = self.matched = self.early = self.size = 0
        self.least = self.greatest = self.latency = 0  # nanoseconds from arrival to departure; `latency` is the last one
        self.first = self.last = -1  # the first and the last packet before the queue that was matched
        self.began = self.ended = 0  # when the first matched packet left, and the last one
        self.turns: tuple[int, ...] = ()  # when the last packets left whose numbers are multiples of TURN
        self.horizon = -NEVER  # packets that came or left before this time are no candidates if they have no sequence number

    @property
    def is_early(self) -> bool:
        """Whether most matched packets left before they came."""
        return 2 * self.early > self.matched

    def leave(self, time: int) -> None:
        """Counts a packet that left."""
        self.after += 1
        if self.after % TURN == 0:
            self.turns = (*self.turns[1 - TURNS :], time)
            if len(self.turns) == TURNS:
                self.horizon = self.turns[0]

    def allows(self, latency: int) -> bool:
        """Whether a packet may leave so long before it comes: it may where no other is known, or where others do nearly so."""
        if not self.matched or self.is_early:
            return True
        return latency >= self.latency - max(TOLERANCE, self.greatest - self.least)


@dataclass
class Matches:
    """What a matching found; departures are in their own file."""

    pairs: dict[bytes, Pair] = field(default_factory=dict)
    waiting: Table = field(default_factory=dict)
    strange: Table = field(default_factory=dict)
    alike: int = 0

    def unmatched_before(self) -> Iterator[tuple[bytes, int]]:
        """The addresses and the places of packets that never left."""
        return entries(self.waiting)

    def unmatched_after(self) -> Iterator[tuple[bytes, int]]:
        """The addresses and the times of packets that never came."""
        return entries(self.strange)


def entries(table: Table) -> Iterator[tuple[bytes, int]]:
    """Each pair of addresses with the place or the time of each packet that stands under it."""
    for identity, found in table.items():
        for number in [found >> 32] if isinstance(found, int) else chain.from_iterable(found.values()):
            yield identity[:8], number


def put(table: Table, identity: bytes, entry: Entry) -> None:
    """Adds an entry after those of the same identity."""
    found = table.get(identity)
    if found is None:
        table[identity] = entry
    else:
        if isinstance(found, int):
            found = table[identity] = {found & MARK: [found >> 32]}
        found.setdefault(entry & MARK, []).append(entry >> 32)


def take(table: Table, identity: bytes, entry: Entry) -> None:
    """Removes an entry that is there."""
    found = table[identity]
    if isinstance(found, int):
        del table[identity]
        return
    numbers = found[entry & MARK]
    del numbers[bisect_left(numbers, entry >> 32)]
    if not numbers:
        del found[entry & MARK]
    if len(found) == 1:
        ((mark, numbers),) = found.items()
        if len(numbers) == 1:
            table[identity] = numbers[0] << 32 | mark


def pair_of(pairs: dict[bytes, Pair], identity: bytes) -> Pair:
    """The counts of a packet's addresses."""
    pair = pairs.get(identity[:8])
    if pair is None:
        pair = pairs[identity[:8]] = Pair()
    return pair


def nearest(numbers: list[int], wanted: int, time_of: Callable[[int], int]) -> int:
    """The place or the time of a packet that is nearest to a time."""
    at = bisect_left(numbers, wanted, key=time_of)
    return min(numbers[max(0, at - 1) : at + 1], key=lambda number: abs(time_of(number) - wanted))


def likeliest(found: Alike, mark: int, wanted: int, time_of: Callable[[int], int]) -> tuple[Entry, bool]:
    """The one of several packets alike that has the mark and is nearest to a time, and whether the time alone tells it."""
    numbers = found.get(mark)
    if numbers is not None:
        return nearest(numbers, wanted, time_of) << 32 | mark, len(numbers) > 1
    near = [nearest(found[other], wanted, time_of) << 32 | other for other in islice(reversed(found), LATEST)]
    return min(near, key=lambda entry: abs(time_of(entry >> 32) - wanted)), True


class Matcher:
    """Takes arrivals and departures in the order of time."""

    def __init__(self, before: Spool, departures: Departures, checksums_stay: bool) -> None:
        self.matches = Matches()
        self.checksums_stay = checksums_stay
        self.departures = departures
        self.spool = os.open(before.path, os.O_RDONLY)
        self.recent = array("q", bytes(8 * RECENT))
        self.arrivals = 0
        self.late = self.early = 0  # the last latency of a packet that left after it came, and of one that left before

    def __enter__(self) -> "Matcher":
        return self

    def __exit__(self, *_: object) -> None:
        os.close(self.spool)

    def arrive(self, identity: bytes, mark: int, time: int) -> None:
        """A packet comes to the queue."""
        slot = self.arrivals
        self.arrivals += 1
        self.recent[slot % RECENT] = time
        found = self.matches.strange.get(identity)
        if found is not None:
            pair = pair_of(self.matches.pairs, identity)
            entry = self.left_before(found, pair, identity, mark, time)
            if entry is not None:
                take(self.matches.strange, identity, entry)
                self.match(pair, identity, slot, time, entry >> 32)
                return
        put(self.matches.waiting, identity, slot << 32 | mark)

    def left_before(self, found: Entry | Alike, pair: Pair, identity: bytes, mark: int, time: int) -> Entry | None:
        """Which of the packets that left before they came is one that comes now."""
        if isinstance(found, int):
            entry = found
        else:
            wanted = time + (pair.latency if pair.matched else self.early)
            entry, _ = likeliest(found, mark, wanted, int)
        left = entry >> 32
        if self.is_other(identity, mark, entry) or (identity[PROTOCOL] != TCP and left < pair.horizon):
            return None
        return entry if pair.allows(left - time) else None

    def leave(self, identity: bytes, mark: int, time: int) -> None:
        """A packet is seen after the queue."""
        pair = pair_of(self.matches.pairs, identity)
        pair.leave(time)
        waiting = self.matches.waiting
        entry = waiting.get(identity)
        by_time = False
        if isinstance(entry, dict):
            wanted = time - (pair.latency if pair.matched else self.late)
            entry, by_time = likeliest(entry, mark, wanted, self.came)
        if entry is not None and (entry & MARK == mark or not self.is_other(identity, mark, entry)):
            came = self.came(entry >> 32)
            if came >= pair.horizon or identity[PROTOCOL] == TCP:
                take(waiting, identity, entry)
                self.matches.alike += by_time
                self.match(pair, identity, entry >> 32, came, time)
                return
        put(self.matches.strange, identity, time << 32 | mark)

    def is_other(self, identity: bytes, mark: int, entry: Entry) -> bool:
        """Whether the marks of two packets alike say that they are two, where the sender's numbers don't."""
        other = entry & MARK
        if other == mark or not mark or not other:
            return False
        protocol = identity[PROTOCOL]
        return self.checksums_stay if protocol == UDP else protocol == TCP and identity[IDENTIFICATION] == NONE

    def match(self, pair: Pair, identity: bytes, slot: int, came: int, left: int) -> None:
        """Notes that a packet left, and what that says of its direction."""
        self.departures.put(slot, left)
        pair.latency = latency = left - came
        if not pair.matched:
            pair.first, pair.began, pair.ended = slot, left, left
            pair.least = pair.greatest = latency
        pair.matched += 1
        pair.size += int.from_bytes(identity[21:], "big")
        if latency < 0:
            pair.early += 1
            self.early = latency
        else:
            self.late = latency
        if slot > pair.last:
            pair.last = slot
        if left > pair.ended:
            pair.ended = left
        if latency < pair.least:
            pair.least = latency
        elif latency > pair.greatest:
            pair.greatest = latency

    def finished(self) -> Matches:
        """The matches, when all packets were seen."""
        pairs = self.matches.pairs
        for pair in pairs.values():
            pair.before = pair.matched
        for addresses, _ in self.matches.unmatched_before():
            pair_of(pairs, addresses).before += 1
        return self.matches

    def came(self, slot: int) -> int:
        """When the packet of this place came."""
        if slot >= self.arrivals - RECENT:
            return self.recent[slot % RECENT]
        time: int = SPLIT.unpack(os.pread(self.spool, LAYOUT.size, slot * LAYOUT.size))[-1]
        return time


def checksums(spool: Spool) -> bytearray:
    """For each UDP checksum 1 if a packet of the capture has it."""
    found = bytearray(65536)
    for identity, mark, _ in spool.marks():
        if identity[PROTOCOL] == UDP:
            found[mark] = 1
    return found


def checksums_stay(before: Spool, after: Spool) -> bool:
    """Whether most UDP checksums after the queue are those of packets before it."""
    known, found = checksums(before), checksums(after)
    return 2 * sum(map(int.__and__, known, found)) >= sum(found)


def match(before: Spool, after: Spool, departures: Departures, shift: int) -> Matches:
    """Matches two spools, read side by side by time; `shift` is added to the times after the queue."""
    end = (b"", 0, NEVER)
    with Matcher(before, departures, checksums_stay(before, after)) as matcher:
        arrive, leave = matcher.arrive, matcher.leave
        arrivals = before.marks()
        arriving, mark, came = next(arrivals, end)
        for leaving, left_mark, left in after.marks():
            left += shift
            while came <= left:
                arrive(arriving, mark, came)
                arriving, mark, came = next(arrivals, end)
            leave(leaving, left_mark, left)
        if came != NEVER:
            arrive(arriving, mark, came)
            for arriving, mark, came in arrivals:
                arrive(arriving, mark, came)
        return matcher.finished()
