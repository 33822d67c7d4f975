"""The numbers at the head of the page, of all flows together."""

from collections.abc import Iterator, Mapping
from dataclasses import dataclass

from marple.report.numbers import (
    MILLISECOND, PERCENTS, SECOND, bin_of, histograms, milliseconds, name_of, percentile, share, sum_of, whole,
)  # fmt: skip
from marple.report.recipes import Recipe, flow_of

Recipes = Mapping[str, Recipe]


@dataclass(frozen=True)
class Tile:
    """A number with its title, a line below it, and the query that made it."""

    title: str
    shown: str
    unit: str
    below: str
    recipe: Recipe


def sees_queue(recipes: Recipes) -> bool:
    """Whether a queue can be seen: packets were lost, waited, or met others."""
    return any(
        row[name] > 0
        for recipe, name in (("loss", "lost"), ("latency", "greatest"), ("depth", "deepest"))
        for row in recipes[recipe].rows()
    )


def volume_tiles(recipes: Recipes, sees: bool) -> Iterator[Tile]:
    total = recipes["total"]
    sums = next(iter(total.rows()), {"packets": 0, "bytes": 0, "lost": 0})
    yield Tile("Packets", whole(sums["packets"]), "", "that came", total)
    yield Tile("Bytes", whole(sums["bytes"]), "", "from the IP header on", total)
    yield Tile("Flows", whole(len(recipes["flows"].table)), "", "by addresses, ports, protocol", recipes["flows"])
    if sees:
        percent = share(sums["lost"], sums["packets"])
        yield Tile("Lost", whole(sums["lost"]), "", f"{percent} % of those that came", total)


def queue_tiles(recipes: Recipes) -> Iterator[Tile]:
    longest = recipes["longest"]
    for row in longest.rows():
        seconds = row["ms"] * MILLISECOND / SECOND
        place = f"switch {row['switch']}, queue {row['qid']}, at {seconds:,.3f} s"
        yield Tile("Longest queue", whole(row["depth"]), "packets", place, longest)


def latency_tiles(recipes: Recipes) -> Iterator[Tile]:
    histogram, latency = recipes["histogram"], recipes["latency"]
    if counts := sum_of(histograms(histogram.rows()).values()):
        for percent in PERCENTS:
            place = bin_of(percentile(counts, percent))
            yield Tile(f"Latency, p{percent}", place, "ms", "of all packets that left", histogram)
    slowest = max(latency.rows(), key=lambda row: row["greatest"], default=None)
    if slowest is not None:
        yield Tile("Greatest latency", milliseconds(slowest["greatest"]), "ms", name_of(flow_of(slowest)), latency)


def order_tiles(recipes: Recipes, sees: bool) -> Iterator[Tile]:
    again, out, reordered = (recipes[name] for name in ("retransmissions", "out-of-order", "reordered"))
    yield Tile("Sent again", whole(sum(row["again"] for row in again.rows())), "", "TCP segments", again)
    yield Tile("Out of order", whole(sum(row["late"] for row in out.rows())), "", "as they came", out)
    if sees:
        yield Tile("Reordered", whole(sum(row["late"] for row in reordered.rows())), "", "by the queue", reordered)


def tiles_of(recipes: Recipes, sees: bool) -> list[Tile]:
    """All numbers at the head of the page; without a queue neither losses nor latencies."""
    again, *order = order_tiles(recipes, sees)
    found = list(volume_tiles(recipes, sees))
    return [*found, *queue_tiles(recipes), again, *latency_tiles(recipes), *order] if sees else [*found, again, *order]
