"""The pictures of the page: depth, latency, throughput and losses over time."""

import importlib
from collections import defaultdict
from collections.abc import Callable, Iterable, Mapping, Sequence
from dataclasses import dataclass, replace
from typing import Any

from marple.report import svg
from marple.report.numbers import MILLISECOND, SECOND, name_of
from marple.report.recipes import Key, Recipe, Row, counted, flow_of
from marple.report.sheets import flows_by_bytes

MOST_STEPS = 400  # a picture has so many steps at most: bins are put together
MOST_LINES = 6  # a picture has so many flows, those with the most bytes, and a line of the others
MOST_QUEUES = 4
OTHERS: Key = ()

Recipes = Mapping[str, Recipe]
Steps = dict[int, dict[str, int]]  # the sums and maxima of each step


@dataclass(frozen=True)
class Line:
    """A line of a picture: its name, the number of its colour, and the values of its steps. bars: whether it is drawn so."""

    name: str
    colour: int
    values: dict[int, float]
    bars: bool = False


@dataclass(frozen=True)
class Picture:
    """A picture with its title, what it shows, its lines, and the query that made the numbers."""

    name: str
    title: str
    caption: str
    lines: list[Line]
    recipe: Recipe
    svg: str


@dataclass(frozen=True)
class Times:
    """The times of all pictures. start: the second from which they count; end: the last step's end, in nanoseconds;
    label: of the axis."""

    start: int
    end: int
    label: str

    def step(self, width: int) -> int:
        """How many nanoseconds a step has: bins of the width, put together by 1, 2, 5, 10 ..."""
        bins = (self.end - self.start * SECOND) // width
        factors = (digit * int(10**zeros) for zeros in range(20) for digit in (1, 2, 5))
        return width * next(factor for factor in factors if bins <= MOST_STEPS * factor)


def times_of(recipes: Recipes, begins: str | None) -> Times:
    """The times from the whole second of the first packet on, by the bins of all tables."""
    spans = []
    for name in ("depth", "series", "throughput"):
        width = recipes[name].width
        spans += [(row["bin"] * width, (row["bin"] + 1) * width) for row in recipes[name].rows()]
    first, last = min((span[0] for span in spans), default=0), max((span[1] for span in spans), default=SECOND)
    start = first // SECOND
    label = f"seconds after {begins}" if begins else "seconds of the trace"
    if start:
        label = f"seconds after second {start} " + (f"after {begins}" if begins else "of the trace")
    return Times(start, last, label)


def put_together(rows: Iterable[Row], key_of: Callable[[Row], Key], width: int, step: int) -> dict[Key, Steps]:
    """The rows of bins by their keys and steps: counts are added up, and of a greatest number the greatest is taken."""
    found: dict[Key, Steps] = defaultdict(lambda: defaultdict(lambda: defaultdict(int)))
    for row in rows:
        sums = found[key_of(row)][row["bin"] * width // step]
        for name in row:
            if name == "deepest":
                sums[name] = max(sums[name], row[name])
            elif name in ("packets", "sum", "bits", "bytes", "lost"):
                sums[name] += row[name]
    return found


class Drawing:
    """Draws the pictures of one page."""

    def __init__(self, recipes: Recipes, begins: str | None):
        self.recipes, self.times = recipes, times_of(recipes, begins)
        self.matplotlib: Any = importlib.import_module("matplotlib")
        self.figures: Any = importlib.import_module("matplotlib.figure")
        flows = flows_by_bytes(recipes)
        self.shown = flows[:MOST_LINES]
        self.others = len(flows) - len(self.shown)

    def draw(self, name: str, lines: Sequence[Line], unit: str, step: int) -> str:
        """The lines, each value for its step. Where a line has no value for a step, it is broken, or a bar missing."""
        with self.matplotlib.rc_context({**self.matplotlib.rcParamsDefault, **svg.SETTINGS}):
            figure = self.figures.Figure(figsize=(6, 2.6), layout="constrained")
            axes = figure.subplots()
            for line in lines:
                self._draw_line(axes, line, step)
            axes.set(xlabel=self.times.label, ylabel=unit)
            axes.set_xlim(0, (self.times.end - self.times.start * SECOND) / SECOND)
            axes.set_ylim(bottom=0)
            axes.grid(axis="y", linewidth=0.8)
            axes.set_axisbelow(True)
            axes.tick_params(length=3)
            axes.tick_params(axis="x", pad=6)
            return svg.text_of(figure, name)

    def _draw_line(self, axes: Any, line: Line, step: int) -> None:
        colour, seconds = svg.LINES[line.colour], step / SECOND
        begins = [place * seconds - self.times.start for place in line.values]
        if line.bars:
            axes.bar(begins, list(line.values.values()), width=0.85 * seconds, align="edge", color=colour, linewidth=0)
            return
        ends: list[float] = []
        values: list[float] = []
        for place, begin in zip(line.values, begins):
            if ends and begin > ends[-1] + seconds / 2:
                ends.append(ends[-1])
                values.append(float("nan"))
            ends += [begin, begin + seconds]
            values += [line.values[place]] * 2
        axes.plot(ends, values, color=colour, linewidth=1.5, solid_joinstyle="miter")

    def flow_key(self, row: Row) -> Key:
        """The flow of a row, or that of the other flows."""
        flow = flow_of(row)
        return flow if flow in self.shown else OTHERS

    def flow_lines(self, recipe: Recipe, step: int, value: Callable[[Mapping[str, int]], float]) -> list[Line]:
        """A line for each flow that is shown, and one for the others together."""
        found = put_together(recipe.rows(), self.flow_key, recipe.width, step)
        lines = [
            Line(name_of(flow), number, {place: value(sums) for place, sums in sorted(found[flow].items())})
            for number, flow in enumerate(self.shown)
            if flow in found
        ]
        if OTHERS in found:
            name = f"{counted(self.others, 'other flow')}, together"
            lines.append(Line(name, MOST_LINES, {place: value(sums) for place, sums in sorted(found[OTHERS].items())}))
        return lines

    def depth(self) -> Picture:
        recipe = self.recipes["depth"]
        step = self.times.step(recipe.width)
        found = put_together(recipe.rows(), lambda row: (row["switch"], row["qid"]), recipe.width, step)
        deepest = sorted(found, key=lambda key: (-max(sums["deepest"] for sums in found[key].values()), key))
        lines = []
        for number, key in enumerate(deepest[:MOST_QUEUES]):
            steps, queue = sorted(found[key].items()), f"switch {key[0]}, queue {key[1]}"
            lines.append(Line(f"{queue}: greatest", 2 * number, {place: sums["deepest"] for place, sums in steps}))
            means = {place: sums["sum"] / sums["packets"] for place, sums in steps}
            lines.append(Line(f"{queue}: mean", 2 * number + 1, means))
        caption = f"Packets that a packet found in the queue as it came, in steps of {length(step)}."
        if len(found) > MOST_QUEUES:
            caption += f" The {MOST_QUEUES} longest of {len(found):,} queues."
        return Picture("depth", "Queue depth", caption, lines, recipe, self.draw("depth", lines, "packets", step))

    def latency(self) -> Picture:
        recipe = self.recipes["latency-series"]
        step = self.times.step(recipe.width)
        lines = self.flow_lines(recipe, step, lambda sums: sums["sum"] / sums["packets"] / MILLISECOND)
        caption = f"Mean time in the queue of the packets that came in {length(step)} and left."
        return Picture("wait", "Latency", caption, lines, recipe, self.draw("wait", lines, "ms", step))

    def throughput(self) -> Picture:
        recipe = self.recipes["throughput"]
        step = self.times.step(recipe.width)
        lines = self.flow_lines(recipe, step, lambda sums: sums["bits"] * SECOND / step / 10**6)
        lines = [with_zeros(line) for line in lines]
        caption = f"What left the queue in {length(step)}, from the IP header on."
        svg_text = self.draw("throughput", lines, "Mbit/s", step)
        return Picture("throughput", "Throughput", caption, lines, recipe, svg_text)

    def losses(self) -> Picture:
        recipe = self.recipes["series"]
        step = self.times.step(recipe.width)
        found = put_together(recipe.rows(), lambda row: (), recipe.width, step).get((), {})
        lines = [Line("all flows", 0, {place: sums["lost"] for place, sums in sorted(found.items())}, bars=True)]
        caption = f"Packets that came in {length(step)} and never left."
        svg_text = self.draw("losses", lines, "packets", step)
        return Picture("losses", "Losses", caption, lines, recipe, svg_text)


def with_zeros(line: Line) -> Line:
    """The line with a 0 for each step, from its first to its last one, in which nothing left."""
    return replace(line, values={place: line.values.get(place, 0) for place in range(min(line.values), max(line.values) + 1)})


def length(nanoseconds: int) -> str:
    """The length of a step as people write it."""
    return f"{nanoseconds / SECOND:g} s" if nanoseconds >= SECOND else f"{nanoseconds / MILLISECOND:g} ms"


def pictures_of(recipes: Recipes, begins: str | None, sees_queue: bool) -> list[Picture]:
    """The pictures of the page; without a queue only the throughput. A trace without packets has none."""
    if not len(recipes["flows"].table):
        return []
    drawing = Drawing(recipes, begins)
    if not sees_queue:
        return [drawing.throughput()]
    return [drawing.depth(), drawing.latency(), drawing.throughput(), drawing.losses()]
