"""Whether captures can be believed, and if not what is wrong with them."""

from collections.abc import Iterable

from marple_captures.elsewhere import leave_out_elsewhere
from marple_captures.findings import (STEP, Findings, Options, in_few_words, note_direction, other_direction, packets, seconds, total, trim,
                                      turned, why_back)
from marple_captures.matching import TOLERANCE, Matches, Pair
from marple_captures.records import Spool
from marple_captures.repeats import REPEATED, repeats

MOST_STRANGE = 0.02  # of the packets after the queue may match none before it
MOST_EARLY = 0.01  # of the matched packets may leave before they came
SMALL = 100_000  # nanoseconds: clocks of two machines rarely agree as well as this
TEN = 10  # the other direction may have this many times the bytes of the queue's


def other_way_round(pairs: list[Pair], findings: Findings) -> bool:
    """Whether packets that leave before they come mean swapped files: the losses, or times near 0, tell it from two clocks."""
    lost = findings.came - findings.left
    if findings.early < (1 - MOST_EARLY) * findings.left or findings.strange < lost:
        return False
    least, greatest = min(pair.least for pair in pairs), max(pair.greatest for pair in pairs)
    return findings.strange > lost or -greatest <= greatest - least


def both_ways(pairs: dict[bytes, Pair]) -> list[bytes]:
    """The addresses of pairs whose way back is there too."""
    return [addresses for addresses in pairs if turned(addresses) in pairs and turned(addresses) != addresses]


def two_clocks(pairs: dict[bytes, Pair], options: Options) -> int | None:
    """The constant by which all flows are off, if there is one."""
    floors = {addresses: pair.least for addresses, pair in pairs.items()}
    spread = max(pair.greatest - pair.least for pair in pairs.values())
    if max(floors.values()) - min(floors.values()) > max(TOLERANCE, spread):
        return None
    ways = both_ways(pairs)
    if not ways or options.both_directions:
        return -min(floors.values())
    there = min(floors[addresses] for addresses in ways if addresses < turned(addresses))
    back = min(floors[addresses] for addresses in ways if addresses > turned(addresses))
    return -(there + back) // 2


def why_early(findings: Findings, pairs: dict[bytes, Pair], options: Options) -> str:
    """What packets that left before they came mean, with the remedy."""
    said = f"{findings.early} of {packets(findings.left)} left before they came"
    early = {addresses for addresses, pair in pairs.items() if pair.is_early}
    if early and not any(pairs.get(turned(addresses), pairs[addresses]).is_early for addresses in early):
        return (f"{said}, {in_few_words(early)}, and those of the way back after they came: the two ways pass the captures in "
                f"turn, so leave --both-directions out, or name the senders of one way by --direction")
    if not both_ways(pairs) and other_way_round(list(pairs.values()), findings):
        return f"{said}: the files are swapped, give {options.after} first"
    shift = two_clocks(pairs, options)
    if shift is None:
        return f"{said}, by no constant: the captures have clocks that go apart, so take both on one machine"
    return f"{said}, all flows by one constant: the captures have two clocks, give --shift {shift + options.shift}"


def why_no_two(kept: Iterable[Pair], before: Spool, after: Spool, options: Options) -> str:
    """Why there aren't two captures that each have the packets of one place, or nothing."""
    if options.one_file:
        return f"{options.before} is given twice: give the capture before the queue and the one after it"
    for spool, capture, did in ((before, options.before, "came"), (after, options.after, "left")):
        if not spool.packets:
            return f"{capture} has no packets{' with IPv4' if spool.foreign else ''}, so nothing says what {did}"
    for spool, capture in ((before, options.before), (after, options.after)):
        if repeats(spool):
            return f"{capture} {REPEATED}"
        if spool.back >= STEP:
            return why_back(spool, capture)
    pairs = list(kept)
    if pairs and not any(pair.least or pair.greatest for pair in pairs):
        return f"each packet left in the nanosecond in which it came: {options.after} is a copy of {options.before}"
    return ""


def why_strange(findings: Findings, matches: Matches, options: Options) -> str:
    """What packets after the queue mean that match none before it."""
    said = f"{findings.strange} of {packets(findings.expected)} after the queue match none before it"
    others = {addresses for addresses, pair in matches.pairs.items() if not pair.before and addresses not in findings.left_out}
    number = total((matches.pairs[addresses] for addresses in others), "after")
    if not findings.left or findings.strange - number > MOST_STRANGE * (findings.expected - number):
        return f"{said}: take both captures at one queue, at the same time"
    return (f"{said}, nearly all of addresses that aren't in {options.before} ({in_few_words(others)}): take both captures at one queue, "
            "or if it has packets of other links too, name the senders of this one by --direction")


def why_refused(findings: Findings, matches: Matches, before: Spool, after: Spool, options: Options) -> str:
    """Why there is no trace, or nothing."""
    kept = {addresses: pair for addresses, pair in matches.pairs.items() if addresses not in findings.left_out and pair.matched}
    if reason := why_no_two(kept.values(), before, after, options):
        return reason
    if findings.early > MOST_EARLY * findings.left:
        return why_early(findings, kept, options)
    chosen = options.networks or options.both_directions
    if not chosen:
        size = total(kept.values(), "size")
        other = total((matches.pairs[addresses] for addresses in findings.left_out), "size")
        if other > TEN * size:
            return (f"most bytes are of packets that left before they came ({other} of {other + size}): the files are swapped, "
                    f"give {options.after} first; or name the senders of the lesser direction by --direction")
        ways = both_ways(kept)
        if 2 * total((kept[addresses] for addresses in ways), "matched") > findings.left:
            return why_both({addresses: kept[addresses] for addresses in ways}, options)
    if findings.strange_share > MOST_STRANGE:
        return why_strange(findings, matches, options)
    if findings.came and not findings.left:
        return f"none of {packets(findings.came)} before the queue is in {options.after}: take both captures at one queue"
    return ""


def why_both(kept: dict[bytes, Pair], options: Options) -> str:
    """What it means that packets of both directions leave after they came."""
    shift = two_clocks(kept, options)
    if shift is not None and -shift >= SMALL:
        return (f"packets of both directions leave after they come, by {seconds(-shift)} and more: the captures have two clocks, "
                f"give --shift {shift + options.shift}; or --both-directions if both pass the queue")
    return "packets of both directions leave after they come: give --both-directions if both pass the queue, or --direction"


def judge(matches: Matches, before: Spool, after: Spool, options: Options) -> Findings:
    """Decides which packets are taken, and whether there is a trace."""
    findings = Findings(left_out=other_direction(matches.pairs, options))
    kept = [pair for addresses, pair in matches.pairs.items() if addresses not in findings.left_out]
    findings.came, findings.left, findings.early = (total(kept, name) for name in ("before", "matched", "early"))
    findings.expected = total(kept, "after")
    findings.strange = findings.expected - findings.left
    note_direction(findings, matches.pairs, options)
    leave_out_elsewhere(findings, matches, before, after, options)
    trim(findings, matches, before, after, options)
    findings.refusal = why_refused(findings, matches, before, after, options)
    return findings
