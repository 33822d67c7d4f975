"""Making a trace of 1,000,000 packets, and a count by source over it, compared with the same in Rust."""

from __future__ import annotations

from measure import Race
from workshop import TOP, Workshop

PACKETS = 1_000_000


def rows(program: str, output: bytes) -> object:
    """The rows of a count: of marple's table the key and the count, and of the Rust program the lines as they are."""
    lines = output.decode().splitlines()
    if program != "marple":
        return lines
    parts = [line.split(",") for line in lines[2:]]
    return [f"{part[0]},{part[-1]}" for part in parts]


def races(shop: Workshop) -> list[Race]:
    """The generator, whose bytes have to be the same, and the count."""
    words = [str(PACKETS), "1"]
    trace = shop.trace(PACKETS)
    count = [shop.marple, "run", str(TOP / "examples/count.query"), trace, "--buckets", "1024", "--ways", "1"]
    return [
        Race("gen", {"marple": [shop.marple, "gen", *words], "Rust": [shop.rust("gen.rs"), *words]}),
        Race("count by srcip", {"marple": count, "Rust": [shop.rust("count.rs"), trace]}, answer=rows),
    ]
