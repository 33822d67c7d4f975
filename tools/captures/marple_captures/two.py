"""Makes a trace from two captures, one before a queue and one after it."""

import argparse
import sys
from collections.abc import Iterator
from ipaddress import IPv4Network
from pathlib import Path
from tempfile import TemporaryDirectory

from marple_captures import CaptureError, cutting
from marple_captures.cutting import Cut, SizeFor
from marple_captures.findings import Findings, Options, notes_on_reading, packets, were
from marple_captures.judging import judge
from marple_captures.matching import Matches, match
from marple_captures.records import Departures, Fields, Spool
from marple_captures.start import add_numbers, natural, start
from marple_captures.survey import survey
from marple_captures.trace import TraceWriter, as_date, check_origin, first_second
from marple_captures.tshark import need_tshark, read_side_by_side

LONGEST_HEADERS = 120  # bytes of an IP header and of a TCP header
DESCRIPTION = """\
Makes a trace from two captures, one before a queue and one after it.

The trace has a record for each IPv4 packet of BEFORE that goes through the queue, in its order:
  tin, tout   nanoseconds since the whole second in which the earliest IPv4 packet of BEFORE came, or since the second S
              of 1970, which makes traces of several queues fit together; tout is inf where AFTER doesn't have the packet
  qsize       how many earlier packets had come and not yet left at tin
  uid         the packet's number in BEFORE, as Wireshark shows it
  pkt_len     the bytes from the IP header on; payload_len those after the TCP or UDP header
A packet of AFTER is taken for one of BEFORE where addresses, protocol, ports, IP identification, place of a fragment,
sequence number and length are the same; of several alike, for the one with the same UDP checksum or TCP acknowledgement
number, and then for the one that was inside nearly as long as the packet of the same addresses that left last. What was
read and what was done to it is said on standard error. Where the captures can't be believed there is no trace, and the
status is 1. Needs tshark.
"""


def piece_length(text: str) -> int:
    """The length of a piece: more than the longest headers."""
    if natural(text) <= LONGEST_HEADERS:
        raise argparse.ArgumentTypeError(f"not above {LONGEST_HEADERS}, which headers may need: {text}")
    return int(text)


def parser() -> argparse.ArgumentParser:
    """The command line."""
    words = argparse.ArgumentParser(description=DESCRIPTION, formatter_class=argparse.RawDescriptionHelpFormatter)
    words.add_argument("before", metavar="BEFORE", help="the capture of what came to the queue")
    words.add_argument("after", metavar="AFTER", help="the capture of what left it")
    add_numbers(words)
    words.add_argument("--shift", type=int, default=0, metavar="NS", help="add NS nanoseconds to AFTER's times")
    ways = words.add_mutually_exclusive_group()
    ways.add_argument("--direction", type=IPv4Network, action="append", default=[], metavar="NET", dest="networks",
                      help="take packets from these source addresses alone, as 10.0.1.0/24; may be given several times")
    ways.add_argument("--both-directions", action="store_true", help="take the packets of both directions")
    cuts = words.add_mutually_exclusive_group()
    cuts.add_argument("--split", type=piece_length, metavar="BYTES", help="cut packets that are longer than BYTES to this length")
    cuts.add_argument("--no-split", action="store_true", help="cut no packets")
    words.add_argument("--force", action="store_true", help="write a trace of captures that can't be believed")
    return words


class Attempt:
    """One way to cut the packets, and what the matches say of it."""

    def __init__(self, cut: Cut, room: Path, options: Options) -> None:
        self.cut = cut
        self.options = options
        with Departures(room / "departures", cut.before.packets) as self.departures:
            self.matches: Matches = match(cut.before, cut.after, self.departures, options.shift)
        self.findings: Findings = judge(self.matches, cut.before, cut.after, options)

    def taken(self) -> Iterator[tuple[Fields, int]]:
        """The packets of the trace with their departures."""
        everything = zip(self.cut.before.fields(), self.departures.read(), strict=True)
        if self.findings.takes_all:
            return everything
        takes = self.findings.takes
        return ((fields, left) for slot, (fields, left) in enumerate(everything) if takes(slot, fields))


def ways_to_cut(before: Spool, after: Spool, words: argparse.Namespace) -> Iterator[tuple[SizeFor | None, SizeFor | None]]:
    """The ways to cut the packets of both captures, likeliest first."""
    if words.no_split:
        yield None, None
    elif words.split:
        size_for = cutting.to_length(words.split)
        yield size_for, size_for
    else:
        yield cutting.as_the_other_shows(before, after), cutting.as_the_other_shows(after, before)
        if min(before.longest, after.longest) > cutting.ETHERNET:
            size_for = cutting.to_ethernet(before, after)
            yield size_for, size_for


def best_attempt(spools: list[Spool], room: Path, words: argparse.Namespace, options: Options) -> Attempt:
    """The first way to cut the packets that explains the captures, or the one that explains most."""
    before, after = spools
    best: Attempt | None = None
    for number, (for_before, for_after) in enumerate(ways_to_cut(before, after, words)):
        folder = room / str(number)
        folder.mkdir()
        attempt = Attempt(cutting.cut_both(before, after, folder, for_before, for_after), folder, options)
        if best is None or attempt.findings.strange_share < best.findings.strange_share:
            best = attempt
        if not best.findings.refusal:
            break
    assert best is not None
    return best


def notes(attempt: Attempt, spools: list[Spool], words: argparse.Namespace) -> Iterator[str]:
    """What there is to be said of the captures, a line each."""
    findings, cut, alike, foreign = attempt.findings, attempt.cut, attempt.matches.alike, spools[0].foreign
    for spool, capture in zip(spools, (words.before, words.after), strict=True):
        yield from notes_on_reading(spool, capture)
    yield f"{findings.came} packets came, {findings.left} left, {findings.came - findings.left} never did"
    for count, place in ((cut.cut_before, "before"), (cut.cut_after, "after")):
        if count.packets:
            yield f"{packets(count.packets)} {place} the queue had been joined by segmentation offload: cut into {count.pieces}"
    yield from findings.notes
    if findings.strange:
        yield f"{packets(findings.strange)} after the queue match none before it"
    if foreign:
        yield f"{packets(foreign)} without IPv4 {were(foreign)} passed over: the trace has neither their losses nor their places"
    if findings.early:
        yield f"{packets(findings.early)} left before they came, and count as 0 ns"
    if alike:
        yield f"{packets(alike)} {were(alike)} told from others alike by the time in the queue"
    asks_for_long = not (words.split or words.no_split or findings.refusal)
    yield from survey(cut.before, cut.after, attempt.taken(), attempt.options, asks_for_long)


def main() -> None:
    """Runs the command."""
    start(parser(), make_trace)


def make_trace(name: str, words: argparse.Namespace) -> None:
    """Reads the captures, and writes the trace unless there is a reason against it."""
    need_tshark()
    options = Options(words.before, words.after, words.networks, words.both_directions, words.shift)
    with TemporaryDirectory(prefix="marple-") as folder:
        room = Path(folder)
        spools = read_side_by_side(name, [words.before, words.after], [room / "before", room / "after"])
        origin = first_second(spools[0]) if words.origin is None else words.origin
        attempt = best_attempt(spools, room, words, options)
        for note in notes(attempt, spools, words):
            print(f"{name}: {note}", file=sys.stderr)
        refusal = attempt.findings.refusal
        if refusal and not words.force:
            raise CaptureError(f"no trace: {refusal} (--force makes one all the same)")
        if refusal:
            print(f"{name}: by force: {refusal}", file=sys.stderr)
        if words.origin is not None:
            check_origin((fields for fields, _ in attempt.taken()), origin)
        if spools[0].packets:
            print(f"{name}: {as_date(origin)}", file=sys.stderr)
        TraceWriter(sys.stdout, words.switch, words.queue, origin).write(attempt.taken())
