"""Each kind of final over the rows of 1,048,576 packets that nearly each have a new key, compared with the same in Rust."""

from __future__ import annotations

from measure import Race
from workshop import Workshop

PACKETS = 1_048_576
FINALS = ("filter", "map", "groupby", "join", "top")


def races(shop: Workshop) -> list[Race]:
    """A race for each kind of final; both print the same table."""
    keys = shop.here.parent / "many/keys.awk"
    trace = shop.written("trace", ["awk", "-v", f"packets={PACKETS}", "-f", str(keys)])
    rust = shop.rust("hand.rs")
    return [
        Race(final, {"marple": [shop.marple, "run", shop.query(final), trace], "Rust": [rust, final, trace]})
        for final in FINALS
    ]
