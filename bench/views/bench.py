"""A run of 1,000,000 packets over 65,536 keys with a view after each 100,000 packets, compared with one without views."""

from __future__ import annotations

from measure import Race
from workshop import Workshop

TRACE = """BEGIN {
    print "srcip,pkt_len"
    state = 1
    for (i = 0; i < 1000000; i++) {
        state = (state * 16807) % 2147483647
        print state % 65536 "," 40 + state % 1461
    }
}"""


def last_tables(_program: str, output: bytes) -> object:
    """The tables of the whole trace, which come after those of the views."""
    return output[output.rindex(b"table ") :]


def races(shop: Workshop) -> list[Race]:
    """The run with views and the one without, which end with the same table."""
    run = [shop.marple, "run", shop.query("count"), shop.written("trace", ["awk", TRACE])]
    programs = {"ten views": [*run, "--every", "100000"], "none": run}
    return [Race("65,536 keys", programs, subjects=("ten views",), answer=last_tables)]
