"""What the matches say of the captures: which packets belong to the queue, and what there is to be said of them."""

from collections.abc import Iterable, Iterator
from dataclasses import dataclass, field
from ipaddress import IPv4Address, IPv4Network
from math import log
from pathlib import Path

from marple_captures.matching import NEVER, Matches, Pair
from marple_captures.records import Fields, Spool

STEP = 10**9  # nanoseconds by which times go back only where a clock was set
CHANCE = 1e-6  # a row of losses less likely than this is no accident


@dataclass
class Options:
    """What the command line says of directions and clocks."""

    before: str
    after: str
    networks: list[IPv4Network] = field(default_factory=list)
    both_directions: bool = False
    shift: int = 0

    @property
    def one_file(self) -> bool:
        """Whether both captures are one file."""
        return Path(self.before).exists() and Path(self.after).exists() and Path(self.before).samefile(self.after)


@dataclass
class Findings:
    """Which packets are taken, what is to be said, and why there is no trace if there is none."""

    left_out: set[bytes] = field(default_factory=set)
    first: int = 0  # packets in places before this one are left out if they came before `begin`,
    begin: int = 0
    last: int = NEVER  # and those after this one if they came after `end`
    end: int = NEVER
    came: int = 0
    left: int = 0
    early: int = 0
    strange: int = 0
    expected: int = 0  # packets after the queue that should match
    notes: list[str] = field(default_factory=list)
    refusal: str = ""

    @property
    def takes_all(self) -> bool:
        """Whether all packets before the queue are in the trace."""
        return not self.left_out and not self.begin and self.end == NEVER

    def takes(self, slot: int, fields: Fields) -> bool:
        """Whether the packet in this place is in the trace."""
        if (slot < self.first and fields[-1] < self.begin) or (slot > self.last and fields[-1] > self.end):
            return False
        return fields[0] + fields[1] not in self.left_out

    @property
    def strange_share(self) -> float:
        """Which part of the packets after the queue match none before it."""
        return self.strange / self.expected if self.expected else 0.0


def turned(addresses: bytes) -> bytes:
    """The addresses of the way back."""
    return addresses[4:] + addresses[:4]


def in_words(addresses: bytes) -> str:
    """A pair of addresses for a message."""
    return f"{IPv4Address(addresses[:4])} to {IPv4Address(addresses[4:])}"


def seconds(time: int) -> str:
    """Nanoseconds for a message."""
    return f"{time / 1e9:.6f} s"


def packets(number: int) -> str:
    """A number of packets for a message."""
    return f"{number} packet" if number == 1 else f"{number} packets"


def were(number: int) -> str:
    """The verb after a number of packets."""
    return "was" if number == 1 else "were"


def why_back(spool: Spool, capture: str) -> str:
    """What it means that the times of a capture go back."""
    return (f"the times of {capture} go back by {seconds(spool.back)}: its clock was set while it ran, or it was joined of parts in "
            "another order")


def notes_on_reading(spool: Spool, capture: str) -> Iterator[str]:
    """What there is to be said of how much of a capture is there, a line each."""
    if spool.ends_inside:
        yield f"{capture} ends in the middle of a packet: the whole ones before it were taken"
    if spool.cut_off:
        yield (f"{capture} has only a part of the headers of {packets(spool.cut_off)}: what it lacks of addresses, ports, tcpseq and "
               "payload_len is wrong in the trace; take snapshots of 96 bytes (-s 96)")


def other_direction(pairs: dict[bytes, Pair], options: Options) -> set[bytes]:
    """The pairs of addresses whose packets don't go through the queue, or go the other way."""
    if options.networks:
        return {addresses for addresses in pairs if not any(IPv4Address(addresses[:4]) in net for net in options.networks)}
    on_time = {addresses for addresses, pair in pairs.items() if pair.matched and not pair.is_early}
    if options.both_directions or not on_time:
        return set()
    early = {addresses for addresses, pair in pairs.items() if pair.matched and pair.is_early}
    unseen = {addresses for addresses, pair in pairs.items() if not pair.matched and turned(addresses) in on_time}
    return early | unseen


def total(pairs: Iterable[Pair], name: str) -> int:
    """The sum of one count."""
    return sum(getattr(pair, name) for pair in pairs)


def in_few_words(addresses: Iterable[bytes]) -> str:
    """Pairs of addresses for a message."""
    first, *rest = sorted(addresses)
    return in_words(first) + (f" and {len(rest)} more" if rest else "")


def note_direction(findings: Findings, pairs: dict[bytes, Pair], options: Options) -> None:
    """Says what is left out because of its direction, and if that is most."""
    if not findings.left_out:
        return
    out = [pairs[addresses] for addresses in findings.left_out]
    before, after = (total(out, name) for name in ("before", "after"))
    findings.notes.append(f"left out as another direction: {packets(before)} before, {after} after "
                          f"({in_few_words(findings.left_out)})")
    kept = [pair for addresses, pair in pairs.items() if addresses not in findings.left_out]
    if not options.networks and total(out, "size") > total(kept, "size"):
        numbers, sizes = (share(total(out, name), total(kept, name)) for name in ("matched", "size"))
        findings.notes.append(f"{sizes} % of the bytes and {numbers} % of the packets go the other way: for those give "
                              f"{options.after} first")


def share(part: int, rest: int) -> int:
    """Which part of the whole something is, in percent."""
    return round(100 * part / (part + rest))


def is_no_accident(row: int, lost: int, came: int) -> bool:
    """Whether this many losses in a row are unlikely at the loss of the other packets."""
    return row * log((lost + 1) / (came + 2)) < log(CHANCE)


def trim(findings: Findings, matches: Matches, before: Spool, after: Spool, options: Options) -> None:
    """Leaves out packets that came while the second capture didn't run, and those that left while the first one didn't."""
    kept = {addresses: pair for addresses, pair in matches.pairs.items() if addresses not in findings.left_out}
    seen = [pair for pair in kept.values() if pair.matched]
    if not seen or after.first is None or after.last is None:
        return
    begin, end = after.first + options.shift, after.last + options.shift
    first, last = min(pair.first for pair in seen), max(pair.last for pair in seen)
    latest = end - max(pair.greatest for pair in seen)
    early = late = doubtful = 0
    for addresses, slot in matches.unmatched_before():
        if addresses in kept and not first <= slot <= last:
            came = before.time_of(slot)
            early += slot < first and came < begin
            late += slot > last and came > end
            doubtful += slot > last and latest < came <= end
    lost = findings.came - findings.left - early - late
    rest = findings.came - early - late
    if is_no_accident(early, lost, rest):
        findings.first, findings.begin = first, begin
        findings.came -= early
        findings.notes.append(f"{packets(early)} came before {options.after} begins: left out, since nothing says what left then")
    if is_no_accident(late, lost, rest):
        findings.last, findings.end = last, end
        findings.came -= late
        findings.notes.append(f"{packets(late)} came after {options.after} ends: left out, since nothing says what left then")
    else:
        doubtful += late
    if doubtful:
        findings.notes.append(f"{packets(doubtful)} came so near the end of {options.after} that nothing says whether "
                              f"{'it' if doubtful == 1 else 'they'} left: counted as lost")
    trim_after(findings, matches, kept, before, options)


def trim_after(findings: Findings, matches: Matches, kept: dict[bytes, Pair], before: Spool, options: Options) -> None:
    """Leaves out packets after the queue that came before the first capture began, or after it ended."""
    seen = [pair for pair in kept.values() if pair.matched]
    if before.first is None or before.last is None:
        return
    began, ended = min(pair.began for pair in seen), max(pair.ended for pair in seen)
    began = min(began, before.first + max(pair.greatest for pair in seen))
    ended = max(ended, before.last)
    outside = sum(1 for addresses, time in matches.unmatched_after() if addresses in kept and not began <= time <= ended)
    if outside:
        findings.strange -= outside
        findings.expected -= outside
        findings.notes.append(f"{packets(outside)} after the queue came before {options.before} begins or after it ends: left out")
