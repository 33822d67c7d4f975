"""Packets before the queue that don't go through it: to the machine that has it, to another of its links, to all hosts."""

from collections import Counter

from marple_captures.findings import Findings, Options, in_few_words, is_no_accident, packets, total, turned
from marple_captures.matching import Matches, Pair
from marple_captures.records import Spool

FEWEST = 20  # packets of two addresses of which all may be lost while a queue is full
ENOUGH = 2000  # packets of two addresses that are looked at: even of a loss of 99 % more would be no accident
TO_MANY = 224  # the first number of the first address that isn't one host's


def never_seen(findings: Findings, matches: Matches, kept: dict[bytes, Pair], before: Spool, after: Spool, options: Options
               ) -> Counter[bytes]:
    """Of addresses that aren't in the second capture, how many packets came while it ran, if chance doesn't lose so many."""
    unseen = {addresses for addresses, pair in kept.items() if not pair.after}
    others = [pair for addresses, pair in kept.items() if addresses not in unseen]
    if not findings.left or after.first is None or after.last is None:
        return Counter()
    begin = after.first + options.shift
    end = after.last + options.shift - max(pair.greatest for pair in others)
    came, left = total(others, "before"), total(others, "matched")
    counts: Counter[bytes] = Counter()
    for addresses, slot in matches.unmatched_before():
        if addresses in unseen and counts[addresses] < ENOUGH and begin <= before.time_of(slot) <= end:
            counts[addresses] += 1
    return Counter({addresses: count for addresses, count in counts.items()
                    if is_to_many(addresses) or is_no_accident(count, came - left, came)})


def is_to_many(addresses: bytes) -> bool:
    """Whether the target is no one host: multicast or broadcast."""
    return addresses[4] >= TO_MANY


def leave_out_elsewhere(findings: Findings, matches: Matches, before: Spool, after: Spool, options: Options) -> None:
    """Leaves out what doesn't go through the queue, unless the senders are named, and says so."""
    kept = {addresses: pair for addresses, pair in matches.pairs.items() if addresses not in findings.left_out}
    counts = never_seen(findings, matches, kept, before, after, options)
    out = set() if options.networks else {it for it, count in counts.items() if count >= FEWEST or is_to_many(it)}
    out |= {addresses for addresses, pair in kept.items() if not pair.after and turned(addresses) in out}
    if out:
        number = total((kept[addresses] for addresses in out), "before")
        findings.left_out |= out
        findings.came -= number
        findings.notes.append(f"left out, since none of the same addresses left: {packets(number)} ({in_few_words(out)}); if they go "
                              "through this queue, name all senders by --direction")
    rest = counts.keys() - out
    if rest:
        number = total((kept[addresses] for addresses in rest), "before")
        findings.notes.append(f"{packets(number)} of which none of the same addresses left ({in_few_words(rest)}): counted as lost, but "
                              "they may not go through this queue")
