"""How long proofs take: what each crate took when it was measured, and what that says of the time still to go."""

from __future__ import annotations

import csv
import heapq
from pathlib import Path
from typing import Dict, List, NamedTuple, Set

from building.crates import Crate

# What a crate takes that the table lacks: so much for any crate, and so much for a kilobyte of its sources.
SECONDS_FOR_A_CRATE = 15.0
SECONDS_FOR_A_KILOBYTE = 1.2
MEGABYTES = 2500
# The table counts as much as this many seconds that were measured on this machine.
TRUST_IN_TABLE = 60.0


class Cost(NamedTuple):
    """What the proof of a crate takes: seconds of processor time, and the most memory at a time."""

    seconds: float
    megabytes: int


def read_costs(table: Path, order: List[Crate]) -> Dict[str, Cost]:
    """Returns the cost of each crate, from the table's lines crate,seconds,megabytes or by the size of its sources."""
    with open(table, encoding="utf-8", newline="") as lines:
        measured = {
            it["crate"]: Cost(float(it["seconds"]), int(it["megabytes"])) for it in csv.DictReader(lines)
        }
    return {it.name: measured.get(it.name) or cost_by_size(it.size()) for it in order}


def cost_by_size(size: int) -> Cost:
    """Returns about what a crate with sources of this many bytes takes."""
    return Cost(SECONDS_FOR_A_CRATE + SECONDS_FOR_A_KILOBYTE * size / 1000, MEGABYTES)


def chains(order: List[Crate], costs: Dict[str, Cost]) -> Dict[str, float]:
    """Returns for each crate the seconds of the longest chain of crates from it up to the last one."""
    above = {it.name: 0.0 for it in order}
    found = {}
    for crate in reversed(order):
        found[crate.name] = costs[crate.name].seconds + above[crate.name]
        for below in crate.crates:
            above[below] = max(above[below], found[crate.name])
    return found


def pace(table: float, measured: float) -> float:
    """Returns how many seconds this machine takes for one of the table's, given the sums over the crates that are done."""
    return (measured + TRUST_IN_TABLE) / (table + TRUST_IN_TABLE)


def still_to_go(whole: float, elapsed: float) -> float:
    """Returns what is left of a proof that should take so long. One that takes longer has a tenth of its time still to go."""
    return max(whole - elapsed, elapsed / 10)


def seconds_to_go(
    order: List[Crate], costs: Dict[str, Cost], left: Dict[str, float], running: Set[str], places: int
) -> float:
    """Returns when the last crate is done if those that are running go on and the others follow as ./build begins them.

    left has the seconds that each crate that isn't done still takes on this machine.
    """
    chain_of = chains(order, {it.name: Cost(left.get(it.name, 0.0), 0) for it in order})
    crates = {it.name: it for it in order}
    done = {it for it in crates if it not in left}
    ends = [(left[it], it) for it in running]
    heapq.heapify(ends)
    waiting = [it for it in left if it not in running]
    now = 0.0
    while waiting or ends:
        ready = sorted((it for it in waiting if done.issuperset(crates[it].crates)), key=lambda it: -chain_of[it])
        for it in ready[: places - len(ends)]:
            heapq.heappush(ends, (now + left[it], it))
            waiting.remove(it)
        now, ended = heapq.heappop(ends)
        done.add(ended)
    return now


def time_to_go(seconds: float) -> str:
    return f"about {seconds / 60:.0f} min to go" if seconds >= 60 else "less than 1 min to go"
