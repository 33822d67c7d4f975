"""A count over 1,000,000 packets of one switch and 4,096 keys by `net`, compared with `run` with the same caches and pipes."""

from __future__ import annotations

from measure import Race
from workshop import Workshop

SIZES = ["--buckets", "64", "--ways", "8", "--pipe", "64", "--lag", "1"]
TRACE = """BEGIN {
    print "switch,srcip,pkt_len"
    state = 1
    for (i = 0; i < 1000000; i++) {
        state = (state * 16807) % 2147483647
        print "7," state % 4096 "," 40 + state % 1461
    }
}"""


def races(shop: Workshop) -> list[Race]:
    """`net` and `run`, which have to print the same."""
    trace = shop.written("trace", ["awk", TRACE])
    programs = {name: [shop.marple, name, shop.query("count"), trace, *SIZES] for name in ("net", "run")}
    return [Race("one switch", programs, subjects=("net",))]
