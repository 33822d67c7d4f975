"""Two groupbys and a `top` over traces in which nearly each packet has a new key, for three sizes of the cache.

`hand` does the same in Rust with two maps and no rules of CSV.
"""

from __future__ import annotations

from measure import Race
from workshop import Workshop

PACKETS = (131_072, 1_048_576, 4_194_304)
SIZES = {
    "1024 x 8": ["--buckets", "1024", "--ways", "8"],
    "65536 x 1": ["--buckets", "65536", "--ways", "1"],
    "1 x 32": ["--buckets", "1", "--ways", "32"],
}


def keys(shop: Workshop, packets: int) -> str:
    """A trace of packets that nearly each have a new key."""
    made = ["awk", "-v", f"packets={packets}", "-f", str(shop.here / "keys.awk")]
    return shop.written(f"keys-{packets}", made)


def races(shop: Workshop) -> list[Race]:
    """A race for each number of packets."""
    hand = shop.rust("hand.rs")
    found = []
    for packets in PACKETS:
        trace = keys(shop, packets)
        programs = {"hand": [hand, trace]}
        for size, options in SIZES.items():
            programs[size] = [shop.marple, "run", shop.query("many"), trace, *options]
        found.append(Race(f"{packets:,} packets", programs, subjects=tuple(SIZES), runs=3))
    return found
