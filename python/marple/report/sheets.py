"""The tables of the page: a row for each flow."""

from collections.abc import Callable, Mapping, Sequence
from dataclasses import dataclass, field
from typing import Optional, Union

from marple.report.numbers import (
    PERCENTS, bin_of, end_of, histograms, milliseconds, percentile, protocol, share, whole,
)  # fmt: skip
from marple.report.recipes import Key, Recipe, flow_of

MOST_FLOWS = 1_000  # so many flows are shown, those with the most bytes

Recipes = Mapping[str, Recipe]


@dataclass(frozen=True)
class Cell:
    """What a cell shows, and the value by which it is sorted: a number, or none where there is nothing to show."""

    shown: str
    value: Optional[Union[int, float]]


NOTHING = Cell("–", None)
Maker = Callable[[Key], Cell]


@dataclass(frozen=True)
class Column:
    """A column of a sheet. title; hint: what it counts; cell: that of a flow."""

    title: str
    hint: str
    cell: Maker


@dataclass(frozen=True)
class Group:
    """Columns whose numbers one query made."""

    recipe: Recipe
    columns: tuple[Column, ...]


@dataclass(frozen=True)
class Sheet:
    """A table of flows. name: its anchor; rows: the flows with their cells, in the order of their bytes."""

    name: str
    title: str
    groups: tuple[Group, ...]
    flows: int
    rows: list[tuple[list[Cell], list[Cell]]] = field(default_factory=list)

    @property
    def left_out(self) -> int:
        """How many flows aren't shown."""
        return self.flows - len(self.rows)


def flows_by_bytes(recipes: Recipes) -> list[Key]:
    """All flows, those with the most bytes first."""
    rows = recipes["flows"].by_flow()
    return sorted(rows, key=lambda flow: (-rows[flow]["bytes"], flow))


def cells_of(flow: Key) -> list[Cell]:
    """Source, destination and protocol of a flow."""
    source, destination, from_port, to_port, number = flow
    return [
        Cell(end_of(source, from_port), source << 16 | from_port),
        Cell(end_of(destination, to_port), destination << 16 | to_port),
        Cell(protocol(number), number),
    ]


def count_of(recipe: Recipe, name: str) -> Maker:
    """The cells of a column of the recipe's table. A flow with several rows, one for each queue, has their sum."""
    sums: dict[Key, int] = {}
    for row in recipe.rows():
        flow = flow_of(row)
        sums[flow] = sums.get(flow, 0) + row[name]
    return lambda flow: Cell(whole(sums[flow]), sums[flow]) if flow in sums else NOTHING


def ratio_of(recipe: Recipe, make: Callable[[Mapping[str, int]], Cell]) -> Maker:
    """The cells that are computed from a flow's row."""
    rows = recipe.by_flow()
    return lambda flow: make(rows[flow]) if flow in rows else NOTHING


def lost_percent(row: Mapping[str, int]) -> Cell:
    return Cell(share(row["lost"], row["came"]), row["lost"] / row["came"])


def mean(row: Mapping[str, int]) -> Cell:
    return Cell(milliseconds(row["sum"] / row["packets"]), row["sum"] / row["packets"])


def greatest(row: Mapping[str, int]) -> Cell:
    return Cell(milliseconds(row["greatest"]), row["greatest"])


def percentiles_of(recipe: Recipe) -> tuple[Column, ...]:
    """A column for each percentile, of the histogram's rows."""
    counts = histograms(recipe.rows())

    def maker(percent: int) -> Maker:
        def cell(flow: Key) -> Cell:
            if flow not in counts:
                return NOTHING
            place = percentile(counts[flow], percent)
            return Cell(bin_of(place), place)

        return cell

    hint = "the first bin of 1 ms up to which {} of 100 packets came through"
    return tuple(Column(f"p{percent} (ms)", hint.format(percent), maker(percent)) for percent in PERCENTS)


def volume_groups(recipes: Recipes) -> tuple[Group, ...]:
    flows, loss = recipes["flows"], recipes["loss"]
    return (
        Group(flows, (
            Column("Packets", "that came to the queue", count_of(flows, "packets")),
            Column("Bytes", "from the IP header on, of the packets that came", count_of(flows, "bytes")),
        )),
        Group(loss, (
            Column("Lost", "packets that came and never left", count_of(loss, "lost")),
            Column("Lost (%)", "of the packets that came", ratio_of(loss, lost_percent)),
        )),
    )  # fmt: skip


def latency_groups(recipes: Recipes) -> tuple[Group, ...]:
    latency = recipes["latency"]
    return (
        Group(recipes["histogram"], percentiles_of(recipes["histogram"])),
        Group(latency, (
            Column("Greatest (ms)", "the longest time in the queue", ratio_of(latency, greatest)),
            Column("Mean (ms)", "the sum of the times in the queue by the packets that left", ratio_of(latency, mean)),
            Column("Left", "packets that left the queue; only these have a latency", count_of(latency, "packets")),
        )),
    )  # fmt: skip


def order_groups(recipes: Recipes) -> tuple[Group, ...]:
    again, out, reordered = (recipes[name] for name in ("retransmissions", "out-of-order", "reordered"))
    return (
        Group(again, (
            Column("Segments", "packets of TCP with data", count_of(again, "packets")),
            Column("Sent again", "segments that start at a byte which the flow has sent before", count_of(again, "again")),
        )),
        Group(out, (
            Column("Out of order", "segments with new data that came after data with a greater number", count_of(out, "late")),
        )),
        Group(reordered, (
            Column("Reordered", "packets that came later than others and left earlier", count_of(reordered, "late")),
        )),
    )  # fmt: skip


def sheet_of(name: str, title: str, groups: tuple[Group, ...], flows: Sequence[Key]) -> Sheet:
    """The sheet of these columns, with the flows that have the most bytes."""
    makers = [column.cell for group in groups for column in group.columns]
    rows = [(cells_of(flow), [make(flow) for make in makers]) for flow in flows[:MOST_FLOWS]]
    return Sheet(name, title, groups, len(flows), rows)


def sheets_of(recipes: Recipes, sees_queue: bool) -> list[Sheet]:
    """The sheets of the page; without a queue there are no latencies."""
    flows = flows_by_bytes(recipes)
    made = [("volume", "Packets, bytes and losses", volume_groups)]
    made += [("latency", "Latency", latency_groups)] if sees_queue else []
    made += [("order", "Order", order_groups)]
    return [sheet_of(name, title, groups(recipes), flows) for name, title, groups in made]
