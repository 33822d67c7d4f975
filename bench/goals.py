"""The figures that are goals, and whether they are met."""

from __future__ import annotations

from collections.abc import Callable
from dataclasses import dataclass

from measure import Figure

# The figures of a bench, a race and a program.
Figures = dict[tuple[str, str, str], Figure]
Value = Callable[[Figures], float]


@dataclass(frozen=True)
class Goal:
    """A figure that is to be at most `limit`."""

    bench: str
    what: str
    limit: float
    value: Value

    def measured(self, figures: Figures) -> float | None:
        """The figure, or None where it wasn't measured."""
        try:
            return self.value(figures)
        except (KeyError, TypeError):
            return None


def times(bench: str, race: str, subject: str, peer: str) -> Value:
    """The processor time of the subject in those of the peer, by the medians."""
    return lambda found: found[bench, race, subject].time() / found[bench, race, peer].time()


def peaks(bench: str, race: str, subject: str, peer: str) -> Value:
    """The peak memory of the subject in those of the peer."""
    return lambda found: found[bench, race, subject].peak() / found[bench, race, peer].peak()


def megabytes(bench: str, race: str, subject: str) -> Value:
    """The peak memory of the subject, in MB."""
    return lambda found: found[bench, race, subject].peak() / 1000


def instructions(bench: str, race: str, subject: str, peer: str) -> Value:
    """The instructions of the subject in those of the peer."""
    return lambda found: found[bench, race, subject].instructions / found[bench, race, peer].instructions


def written(bench: str, race: str, subject: str, peer: str) -> Value:
    """The bytes that the subject writes in those of the peer."""
    return lambda found: found[bench, race, subject].written / found[bench, race, peer].written


def instructions_for_each(bench: str, race: str, packets: int) -> Value:
    """The instructions of marple for a packet."""
    return lambda found: found[bench, race, "marple"].instructions / packets


def own_instructions(bench: str, race: str, packets: int) -> Value:
    """The instructions of marple for a packet, without those that find the fields of its record."""

    def value(found: Figures) -> float:
        figure = found[bench, race, "marple"]
        if not figure.finding:
            raise KeyError("no function that finds fields was seen")
        return (figure.instructions - figure.finding) / packets

    return value


def growth(bench: str, first: str, last: str, subject: str, peer: str) -> Value:
    """How much more the time of the subject grows from the first race to the last than that of the peer."""

    def value(found: Figures) -> float:
        grown = [found[bench, last, name].time() / found[bench, first, name].time() for name in (subject, peer)]
        return grown[0] / grown[1]

    return value


SIZES = ("1024 x 8", "65536 x 1", "1 x 32")
LEAST, MILLION, MOST = "131,072 packets", "1,048,576 packets", "4,194,304 packets"
QUERIES = ("count: packets by source", "sum: bytes by flow", "max: longest queue by source")
OOS = "oos: packets out of sequence by flow"
EIGHT = "eight: eight groupbys"
ONE_RUN = "3,000,000 packets in one run, 14 columns"
FINALS = {"filter": 1.5, "map": 2.0, "groupby": 1.5, "join": 2.0, "top": 2.0}


def many_goals() -> list[Goal]:
    """Goals of many keys, for each size of the cache."""
    found = []
    for size in SIZES:
        found += [
            Goal("many", f"time in `hand`'s, a million keys, {size}", 1.5, times("many", MILLION, size, "hand")),
            Goal("many", f"memory in `hand`'s, a million keys, {size}", 1.3, peaks("many", MILLION, size, "hand")),
            Goal("many", f"time in `hand`'s, four million keys, {size}", 2.5, times("many", MOST, size, "hand")),
            Goal("many", f"MB at four million keys, {size}", 1900, megabytes("many", MOST, size)),
            Goal("many", f"growth of time in `hand`'s, {size}", 1.0, growth("many", LEAST, MOST, size, "hand")),
        ]
    return found


def query_goals() -> list[Goal]:
    """Goals of a packet's path, by instructions."""
    found = []
    for query in (*QUERIES, OOS):
        value = instructions("queries", query, "marple", "limit")
        found.append(Goal("queries", f"instructions in `limit`'s, {query}", 1.7, value))
    for query, limit in ((QUERIES[0], 1200), (OOS, 1850)):
        value = instructions_for_each("queries", query, 100_000)
        found.append(Goal("queries", f"instructions for a packet, {query}", limit, value))
    for query, limit in ((QUERIES[0], 480), (QUERIES[2], 480), (OOS, 1000)):
        value = own_instructions("queries", query, 100_000)
        found.append(Goal("queries", f"own instructions for a packet, {query}", limit, value))
    found.append(Goal("queries", f"instructions in `hand`'s, {EIGHT}", 1.3, instructions("queries", EIGHT, "marple", "hand")))
    return found


def parts_goals() -> list[Goal]:
    """Goals of runs in parts: what four workers do in a second, and more than one and than the splitter in Python did; what one
    worker does, compared with one run; and what splitting may cost.
    """
    parts, four = "20,000,000 packets in parts (clock)", "4 workers"
    splits = (("plain", "plain"), ("in quotes", "each field in quotes"))
    return [
        Goal("parts", "time of four workers in one worker's", 0.333, times("parts", parts, four, "1 worker")),
        Goal("parts", "s of the clock, four workers", 15.4, lambda found: found["parts", parts, four].time()),
        Goal("parts", "time of four workers in that of caf00965", 0.526, times("parts", parts, four, f"{four} of caf00965")),
        Goal("parts", "time of a packet in parts, one worker, in that of one run", 1.0, one_worker),
        *(
            Goal(
                "parts", f"time to split a million packets, {shown}, in that to run them", 2.0,
                times("parts", f"1,000,000 packets, {name}", "splitting", "running"),
            )
            for shown, name in splits
        ),
    ]  # fmt: skip


def one_worker(found: Figures) -> float:
    """The time that one worker takes for a packet in that of one run, by the clock, which a run has for itself."""
    parts, run = found["parts", "20,000,000 packets in parts (clock)", "1 worker"], found["parts", ONE_RUN, "marple"]
    return (parts.time() / 20) / (run.time() / 3)


def split_goals() -> list[Goal]:
    """Goals of `marple-tools split`: what it costs compared with a count over the same trace, and what its parts take."""
    count, columns = "eight parts for a count", "eight parts of four columns"
    return [
        Goal("split", "instructions to split for a count, in those of the count", 1.6, instructions("split", count, "split", "run")),
        Goal("split", "bytes of parts with four columns of 14, in the trace's", 0.333, written("split", columns, "split", "cat")),
    ]


def package_goals() -> list[Goal]:
    """Goals of the package for Python, compared with pandas' own CSV."""
    found = []
    for what, case, peer in (
        ("a trace of a DataFrame", "a trace of whole numbers", "to_csv"),
        ("a trace of a DataFrame with texts and NA", "a trace with texts and NA", "to_csv"),
        ("a DataFrame of a table", "a table into a DataFrame", "read_csv"),
    ):
        found.append(Goal("package", f"time of {what} in `{peer}`'s", 1.5, times("package", case, "marple", peer)))
    return found


def goals() -> list[Goal]:
    """All goals."""
    views = times("views", "65,536 keys", "ten views", "none")
    finals = {name: times("finals", name, "marple", "Rust") for name in FINALS}
    return [
        *many_goals(),
        Goal("views", "time with ten views in that without", 1.25, views),
        *(Goal("finals", f"time of `{name}` in Rust's", FINALS[name], value) for name, value in finals.items()),
        *query_goals(),
        *parts_goals(),
        *split_goals(),
        *package_goals(),
        Goal("trace", "time of `gen 1000000 1` in Rust's", 1.2, times("trace", "gen", "marple", "Rust")),
        Goal("trace", "MB of `gen 1000000 1`", 20, megabytes("trace", "gen", "marple")),
    ]
