"""The measured figures that pages show, and the pages of `bench/` and the constants of the code that they come from."""

from __future__ import annotations

import re
from collections.abc import Callable, Iterator
from functools import cache
from math import ceil
from pathlib import Path

TOP = Path(__file__).resolve().parent.parent
README, MANUAL, SCALING, START = "README.md", "docs/marple.1", "docs/SCALING.md", "docs/START.md"
BENCH, BUILD, JOB = "bench/README.md", "bench/build/README.md", "python/marple/parts/job.py"
NUMBER = r"\d[\d,]*(?:\.\d+)?"
UNIT = r"(?:s|seconds|minutes|hours|MB|MiB|GB|TB|days|packets a second|times)"
MEASURED = re.compile(rf"{NUMBER}(?= {UNIT}\b)|(?<=\| )\d[\d,]*[.,]\d+(?= \|)")
# what isn't measured: the toolchain's limits for a program that it runs without a proof, and what a link is said to carry
GIVEN: dict[str, list[str]] = {
    README: ["may have 1 MiB and take 120 s"],
    MANUAL: [],
    SCALING: ["a link of 100 Gbit/s with packets of 1,000 bytes"],
    START: [],
}


@cache
def page(name: str) -> str:
    """A page with single blanks."""
    return " ".join((TOP / name).read_text(encoding="utf-8").split())


def value(text: str) -> float:
    return float(text.replace(",", ""))


def match(name: str, sentence: str) -> re.Match[str]:
    """The one place of a page that reads so, where N is a number."""
    found = list(re.finditer(re.sub(r"\bN\b", lambda _: f"({NUMBER})", sentence), page(name)))
    if len(found) != 1:
        raise ValueError(f"{name} has {len(found)} places that read: {sentence}")
    return found[0]


def figures(name: str, sentence: str) -> list[float]:
    return [value(it) for it in match(name, sentence).groups()]


def is_rounded(shown: str, exact: float) -> bool:
    """Whether a figure is the exact one, rounded to its own last digit. Zeros at the end of a whole number are no digits."""
    digits = shown.replace(",", "")
    zeros = len(digits) - len(digits.rstrip("0")) if "." not in digits else 0
    unit = 10.0 ** (zeros if "." not in digits else -len(digits.partition(".")[2]))
    return abs(value(shown) - exact) <= unit / 2 * (1 + 1e-9)


# Where figures come from


def one_groupby() -> tuple[list[float], list[float]]:
    """Of the queries with one groupby, on the page of the last run: marple's times, and their ratios to mawk's."""
    races = page(BENCH).partition("### queries")[2].partition("### views")[0].split(": ")
    times = [figure for race in races for figure in re.findall(rf"\| marple \| ({NUMBER}) ", race) if "| mawk |" in race]
    ratios = re.findall(rf"\| mawk \| {NUMBER} \([^)]*\) \| ({NUMBER}) ", "".join(races))
    return [value(it) for it in times], [value(it) for it in ratios]


def least_and_greatest() -> list[float]:
    times, ratios = one_groupby()
    return [min(times), max(times), min(ratios), max(ratios)]


def of_parts(case: str, program: str, cell: int = 0) -> float:
    """Of a program of the bench of parts: its seconds, or what another cell has."""
    found = [cells for name, one, cells in rows_of("parts") if (name, one) == (case, program)]
    if len(found) != 1:
        raise ValueError(f"{BENCH} has {len(found)} rows of {program} in the case {case} of parts")
    return value(found[0][cell].split()[0])


def workers(number: int) -> str:
    return "1 worker" if number == 1 else f"{number} workers"


IN_PARTS = "20,000,000 packets in parts (clock)"
STAGES = ("splitting them (clock)", "running the parts (clock)", "joining the tables (clock)")
WHOLE, LARGEST = "3,000,000 packets in one run, 14 columns", "4,000,000 packets in one run, the 4 columns that it reads"


def rate(number: int) -> float:
    """The packets that so many workers do in a second."""
    return traces()[0] / of_parts(IN_PARTS, workers(number))


def line_of(number: int) -> list[float]:
    """The line of so many workers: the seconds of each stage and in all, packets a second, and their ratio."""
    seconds = [of_parts(case, workers(number)) for case in (*STAGES, IN_PARTS)]
    return [*seconds, rate(number), *([of_parts(IN_PARTS, workers(1)) / seconds[-1]] if number > 1 else [])]


def lost(stage: int) -> float:
    """The seconds by which four workers took longer for a stage than a quarter of one worker's."""
    return of_parts(STAGES[stage], workers(4)) - of_parts(STAGES[stage], workers(1)) / 4


def traces() -> list[float]:
    return figures(BENCH, r"N packets of N keys in files of N, N GB\.")


def one_run(case: str) -> list[float]:
    """Of a run of the program: packets, seconds, packets a second."""
    packets, seconds = value(case.split()[0]), of_parts(case, "marple")
    return [packets, seconds, packets / seconds]


def splitting(what: str) -> list[float]:
    """Of splitting a million packets: its seconds, and those of running them."""
    return [of_parts(f"1,000,000 packets, {what}", program) for program in ("splitting", "running")]


def link() -> dict[str, float]:
    """What a link of 100 Gbit/s with packets of 1,000 bytes comes to, by the traces and the rate of four workers."""
    second = 100e9 / 8 / 1000
    packets, _, _, gigabytes = traces()
    each = rate(4) / 4
    record = gigabytes * 1e9 / packets
    day = second * 86400
    figures_of_day = {"second": second / 1e6, "day": day / 1e12, "bytes": day * record / 1e12}
    return figures_of_day | {"record": record, "rate": each, "days": second / each}


def of_link(*names: str) -> Callable[[], list[float]]:
    return lambda: [link()[it] for it in names]


def of_building() -> list[float]:
    return [*figures(BUILD, r"N minutes elapsed"), *figures(BUILD, r"it took N minutes")]


def of_joining() -> list[float]:
    seconds = [of_parts(STAGES[2], workers(it)) for it in (1, 2, 4)]
    return [min(seconds), max(seconds)]


def small_part() -> list[float]:
    """The MiB of traces that a part is planned to have the packets of."""
    return [2 ** figures(JOB, r"\bSMALL = 1 << N")[0] / 2**20]


def greatest_peak() -> float:
    """The most MB that a process of a run in parts had."""
    return max(of_parts(IN_PARTS, workers(it), 2) for it in (1, 2, 4))


def section(bench: str) -> str:
    """What the page of the last run has of a bench."""
    text = (TOP / BENCH).read_text(encoding="utf-8")
    found = re.search(rf"(?ms)^### {bench}$(.*?)(?=^### |^<!-- )", text)
    if not found:
        raise ValueError(f"{BENCH} has no section {bench}")
    return found[1]


def rows_of(bench: str) -> Iterator[tuple[str, str, list[str]]]:
    """The rows of a bench: the case, the program, and the cells after these."""
    case = ""
    for line in section(bench).splitlines():
        if line.startswith("| ") and not line.startswith("| Case "):
            first, program, *cells = (cell.strip() for cell in line[1:-1].split("|"))
            case = first or case
            yield case, program, cells


# What each page reads, N for each of its figures, and the figures that these are.
Sentence = tuple[str, Callable[[], list[float]]]
OF_README: list[Sentence] = [
    (r"took N minutes on one machine .{,80} and N on another of the same make", of_building),
    (r"N to N s for a query with one groupby over 1,000,000 packets, N to N times the processor time of mawk", least_and_greatest),
    (r"`rt ci` in it took N minutes", lambda: figures(BENCH, r"N minutes elapsed, of `rt ci`")),
]
OF_SCALING: list[Sentence] = [
    *((rf"\| {it} \| N \| N \| N \| N \| N \|" + " N" * (it > 1), lambda it=it: line_of(it)) for it in (1, 2, 4)),
    (r"over N packets of N keys, N GB in N files", lambda: [*traces()[:2], traces()[3], traces()[0] / traces()[2]]),
    (r"There is a part for each N MiB of the traces", small_part),
    (r"over the first N packets, with all columns, took N s: N packets a second", lambda: one_run(WHOLE)),
    (r"over the first N packets, with the four .{,30} took N s: N packets a second", lambda: one_run(LARGEST)),
    (r"\*To split\* a million packets takes N s of processor time, .{,40} N s that running them takes", lambda: splitting("plain")),
    (r"with each field in quotes N s", lambda: splitting("each field in quotes")[:1]),
    (r"N to N s for a million keys, by one worker, two or four", of_joining),
    (r"N s at joining, .{,40} N at splitting", lambda: [lost(2), lost(0)]),
    (r"No process had more than N MB", lambda: [greatest_peak()]),
    (r"one run over N packets had N MB", lambda: [value(LARGEST.split()[0]), of_parts(LARGEST, "marple", 2)]),
    (r"N million packets a second, N trillion a day, N TB of records of N bytes", of_link("second", "day", "bytes", "record")),
    (r"At the N packets a second that each of four workers has, this is N days", of_link("rate", "days")),
    (r"N workers would keep pace .{,60} N machines like this one", lambda: [link()["days"], ceil(link()["days"] / 4)]),
]
SENTENCES: dict[str, list[Sentence]] = {README: OF_README, MANUAL: [], SCALING: OF_SCALING, START: []}


def spans(name: str) -> Iterator[range]:
    """Where the page has figures that come from elsewhere, or that are given."""
    for reads, _ in SENTENCES[name]:
        found = match(name, reads)
        yield from (range(*found.span(it + 1)) for it in range(len(found.groups())))
    for text in GIVEN[name]:
        if text not in page(name):
            raise ValueError(f"{name} doesn't say: {text}")
        yield range(page(name).index(text), page(name).index(text) + len(text))


def rounded(exact: float, shown: str) -> str:
    """The exact figure with as many digits as the one that is shown."""
    whole, _, fraction = shown.replace(",", "").partition(".")
    zeros = 0 if fraction else len(whole) - len(whole.rstrip("0"))
    return f"{round(exact, -zeros) if zeros else exact:,.{len(fraction)}f}"


def filled_in(text: str, sentences: list[Sentence]) -> str:
    """The text of a page, in which figures that aren't those of their sources are replaced by these."""
    for reads, are in sentences:
        pattern = re.sub(r"\bN\b", lambda _: f"({NUMBER})", reads).replace(" ", r"\s+")
        found = re.search(pattern, text, re.DOTALL)
        if found is None:
            raise ValueError(f"no place reads: {reads}")
        for at, exact in reversed(list(enumerate(are(), 1))):
            if not is_rounded(found[at], exact):
                text = text[: found.start(at)] + rounded(exact, found[at]) + text[found.end(at) :]
    return text
