"""A run in parts from its traces to its tables: split, run, join."""

import hashlib
import math
import os
import stat
from collections.abc import Callable, Mapping, Sequence
from dataclasses import asdict, dataclass, field
from itertools import pairwise

from marple.commands import words_of
from marple.faults import InputError, MarpleError, OutOfMemory, OutputError, ProgramFailed, TraceRefused, refusal_of
from marple.parts.choice import Choice
from marple.parts.compression import is_compressed, unpack
from marple.parts.engine import Engine
from marple.parts.joining import join_tables
from marple.parts.refusals import KeyTooLarge, TraceChanged, WorkTaken
from marple.parts.tasks import OF_FIELDS, Ran, Span, Split, Text, cut, estimated, run_part, sole_key, split
from marple.parts.work import Work, taken, why_full, written
from marple.plans import FIELDS
from marple.version import __version__

BYTES = 268_435_456  # the most bytes of one run
PACKETS = 4_194_304  # and the most packets
ROOM = 3 / 4  # how much of what one run takes a part is planned to have, since no function splits evenly
SMALL = 1 << 24  # of how many bytes of traces a part is planned to have the packets, so that few of its keys leave the cache
FILE = 1 << 18  # but of no fewer bytes of each trace, on the average
MOST = 1024  # and no more parts than this, each of which has a block in memory while a trace is split
AGAIN = 64  # into how many parts one is split that came out too large
LEAST = 1 << 20  # no trace is cut into smaller pieces so that each worker has one
END = 2**64 - 1  # after each byte of a trace
Identity = list[str | int]  # of a file: its path, its size, and when it was changed


@dataclass(frozen=True)
class Part:
    """What one run reads: a header and records. trace: the number of the trace, if it runs as it is."""

    name: str
    header: bytes
    spans: list[Span]
    trace: int | None = None

    @property
    def packets(self) -> int:
        return sum(span.packets for span in self.spans)

    @property
    def bytes(self) -> int:
        return len(self.header) + sum(span.end - span.start for span in self.spans)


@dataclass(frozen=True)
class Share:
    """What one process splits. name: of the folder; stretch: the bytes of the file at which the records begin, if it isn't all."""

    name: str
    path: str
    stretch: tuple[int, int] | None = None


@dataclass
class Job:
    """A query over traces, and how it is run.

    program, tools: the paths of marple and marple-tools; folder: for the work; sums: whether a later call may go on there,
    which believes what has the sums that are recorded; piece: how many bytes a run has at most if the traces are cut
    anywhere; report: takes a line of progress.
    """

    query: bytes
    traces: Sequence[str]
    choice: Choice
    parts: int | None
    options: Mapping[str, int | None]
    program: str
    tools: str
    engine: Engine
    folder: str
    sums: bool
    piece: int
    report: Callable[[str], None]
    plain: list[str] = field(default_factory=list)  # the traces that are read: those that were compressed are unpacked
    splitting: list[str] = field(default_factory=list)  # the queries by which they are split, the first that will do
    work: Work = field(init=False)

    def run(self) -> tuple[str, list[Ran]]:
        """Writes the tables into a file of the folder. Its path, and what the runs gave.

        Raises TraceRefused with the first fault of the traces, PartsRefused, and what the program answers else.
        """
        found = [_identity(path) for path in self.traces]
        try:
            with taken(self.folder):
                self._begin(found)
                try:
                    made = self._tables()
                except MarpleError:
                    self._see_unchanged(found)
                    raise
                self._see_unchanged(found)
                return made
        except MemoryError as fault:
            raise OutOfMemory("out of memory") from fault
        except OSError as fault:
            raise OutputError(f"cannot write in {self.folder}: {fault.strerror}") from fault

    def _begin(self, found: list[Identity]) -> None:
        """Begins the work, or goes on with what another call began there. Raises WorkTaken."""
        mine = {
            "version": __version__,
            "query": hashlib.sha256(self.query).hexdigest(),
            "traces": found,
            "program": [_identity(self.program), _identity(self.tools)],
            "options": dict(self.options),
            "choice": asdict(self.choice),
            "piece": self.piece,
        }
        self.work = Work(self.folder, mine)
        self.work.begin()
        self.splitting = []
        for number, text in enumerate([self.query, *self.choice.splitting(self.query)]):
            path = self.work.path(f"query-{number}" if number else "query")
            with written(path) as file:
                file.write(text)
            self.splitting += [path] if number else []

    def _see_unchanged(self, found: list[Identity]) -> None:
        for path, before in zip(self.traces, found, strict=True):
            if _identity(path) != before:
                raise TraceChanged(f"{path} was changed while it was read")

    def _tables(self) -> tuple[str, list[Ran]]:
        self.plain = self._unpack()
        self._try_options()
        runs = self._run(self._split_parts() if self.choice.by else self._pieces())
        self.report(f"joining the tables of {len(runs)} parts")
        joined = self.work.path("tables")
        self.engine.each(join_tables, [(self.choice.joins, runs, joined)], lambda done, of: None)
        return joined, runs

    def _unpack(self) -> list[str]:
        """The files that are read: the traces, or what they have unpacked."""
        packed = {number: path for number, path in enumerate(self.traces) if is_compressed(path)}
        plain = {number: self.work.path(f"trace-{number}") for number in packed}
        calls = [(path, plain[number], self.sums) for number, path in packed.items()]
        self.engine.each(unpack, calls, self._count("unpacked"))
        return [plain.get(number, path) for number, path in enumerate(self.traces)]

    def _words(self) -> list[str]:
        return [self.program, "run", self.work.path("query"), "/dev/stdin", *words_of(self.options)]

    def _try_options(self) -> None:
        """Runs the program over no packet, so that it refuses the options before any trace is read."""
        header = ",".join(FIELDS).encode() + b"\n"
        ran = run_part(self._words(), header, [], self.work.path("header"), self.sums)
        if ran.status != 0:
            raise self._refusal(ran.status, ran.complaint)

    def _count(self, what: str) -> Callable[[int, int], None]:
        return lambda done, of: self.report(f"{what} {done} of {of}")

    def _split(self, shares: Sequence[Share], number: int, level: int) -> list[Split]:
        """Splits each of these into this many parts; at each level otherwise."""
        calls = [
            (
                self.tools, self.splitting if own.stretch is None else self.splitting[:1], own.path, number, level,
                self.work.path(f"split-{own.name}"), self.sums, own.stretch,
            )
            for own in shares
        ]  # fmt: skip
        return self.engine.each(split, calls, self._count("split"))

    def _split_traces(self, number: int) -> list[tuple[int, Split]]:
        """Splits each trace, with its number, in ranges side by side where there are more workers than traces. Raises the
        first fault; but a query that reads no field leaves the faults of fields to the run.
        """
        shares = [(at, own) for at in range(len(self.plain)) for own in self._shares(at)]
        made: dict[int, list[Split]] = {at: [] for at, _ in shares}
        for (at, _), one in zip(shares, self._split([own for _, own in shares], number, 1), strict=True):
            made[at].append(one)
        # the fault of a range counts the records of the range, so the trace is split as a whole
        again = [at for at, own in made.items() if len(own) > 1 and any(one.status != 0 for one in own)]
        wholes = self._split([self._whole(at) for at in again], number, 1) if again else []
        made |= {at: [one] for at, one in zip(again, wholes, strict=True)}
        for at, own in made.items():
            if own[0].status != 0 and (self.choice.reads or not OF_FIELDS.search(own[0].complaint)):
                raise self._refusal(own[0].status, own[0].complaint, at)
        return [(at, one) for at, own in made.items() for one in own]

    def _whole(self, at: int) -> Share:
        return Share(f"whole-{at}", self.plain[at])

    def _shares(self, at: int) -> list[Share]:
        """The trace with this number, or ranges of it of about one size, so that each worker has one."""
        sizes = [os.path.getsize(path) for path in self.plain]
        most = self.work.decide("range", max(-(-sum(sizes) // self.engine.places), LEAST))
        ranges = -(-sizes[at] // most)
        if ranges <= 1:
            return [self._whole(at)]
        bounds = [sizes[at] * number // ranges for number in range(ranges)]
        return [
            Share(f"whole-{at}-{start}", self.plain[at], (start, end)) for start, end in pairwise([*bounds, END])
        ]

    def _split_parts(self) -> list[Part]:
        """Parts by the numbers of fields, none too large for a run."""
        number = self._parts_number()
        whole = _parts([one for _, one in self._split_traces(number)], number, "")
        return [fit for part in whole for fit in self._fitting(part, 1)]

    def _parts_number(self) -> int:
        """How many parts: as the work began, or as the limits of a run ask for and the caller, or the workers."""
        looked = [estimated(path) for path in self.plain]
        size, packets = sum(own for own, _ in looked), sum(own for _, own in looked)
        needed = max(math.ceil(size / (BYTES * ROOM)), math.ceil(packets / (PACKETS * ROOM)), 1)
        if self.parts is None:
            useful = min(size // SMALL, size // (FILE * len(looked)), MOST)
            return self.work.decide("parts", math.ceil(max(needed, useful) / self.engine.places) * self.engine.places)
        number = max(needed, self.parts)
        if self.work.decide("parts", number) != number:
            raise WorkTaken(f"{self.folder} has other work: its number of parts differs")
        return number

    def _fitting(self, part: Part, level: int) -> list[Part]:
        """The part; or, if it is too large for a run, the parts that it is split into."""
        if part.packets <= PACKETS and part.bytes <= BYTES:
            return [part]
        names = part.header.decode().rstrip("\n").split(",")
        columns = [names.index(name) for name in self.choice.by]
        [key] = self.engine.each(sole_key, [(columns, part.spans)], lambda done, of: None)
        found = f"{part.packets} packets in {part.bytes} bytes"
        if key is not None:
            shown = ", ".join(f"{name} {word}" for name, word in zip(self.choice.by, key, strict=True))
            raise KeyTooLarge(f"{shown} has {found}: one run takes {PACKETS} in {BYTES}")
        self.report(f"part {part.name} has {found}: splitting it again")
        shares = [Share(f"{part.name}-{at}", span.path) for at, span in enumerate(part.spans)]
        splits = self._split(shares, AGAIN, level + 1)
        for one in splits:
            if one.status != 0:
                raise self._refusal(one.status, one.complaint)
        again = _parts(splits, AGAIN, f"{part.name}.")
        return [fit for one in again if one.packets for fit in self._fitting(one, level + 1)]

    def _pieces(self) -> list[Part]:
        """Pieces of the traces, which are cut anywhere, none too large for a run."""
        splits = self._split_traces(1)
        texts = [(at, one.texts[0] if one.texts else _whole(self.plain[at])) for at, one in splits]
        size = sum(text.records.end - text.records.start for _, text in texts)
        most = self.work.decide("stretch", self._stretch(size))
        calls = [
            (text.records, max(1, round((text.records.end - text.records.start) / most)), PACKETS)
            for _, text in texts if text.records.packets
        ]  # fmt: skip
        cuts = iter(self.engine.each(cut, calls, self._count("cut")))
        parts: list[Part] = []
        for trace, text in texts:
            for span in next(cuts) if text.records.packets else [text.records]:
                parts.append(Part(str(len(parts)), text.header, [span], None if text.header else trace))
        return parts

    def _stretch(self, size: int) -> int:
        """How many bytes a piece has at most, so that each worker has one, and that there are as many as asked for."""
        most = min(self.piece, BYTES // 2, max(-(-size // self.engine.places), LEAST))
        return max(most if self.parts is None else min(most, -(-size // self.parts)), 1)

    def _run(self, parts: list[Part]) -> list[Ran]:
        """Runs the program over each part. Raises the first fault of the traces."""
        calls = [
            (self._words(), part.header, part.spans, self.work.path(f"part-{part.name}"), self.sums) for part in parts
        ]
        runs = self.engine.each(run_part, calls, self._count("ran"))
        for ran, part in zip(runs, parts, strict=True):
            if ran.status != 0:
                raise self._refusal(ran.status, ran.complaint, part.trace)
        return runs

    def _refusal(self, status: int, complaint: str, trace: int | None = None) -> MarpleError:
        """The exception of a program that ended with this status, over the trace with this number or over a part."""
        refused = refusal_of(status, complaint, self.query)
        if isinstance(refused, OutputError):
            return OutputError(f"cannot write in {self.folder}{why_full(self.folder)}")
        if isinstance(refused, InputError) and trace is not None:
            return InputError(f"cannot read the trace {self.traces[trace]}")
        if not isinstance(refused, TraceRefused):
            return refused
        if trace is None:
            return ProgramFailed(f"the program refused what marple-tools wrote: {refused}")
        return TraceRefused(refused.fault, refused.record, refused.field, self.traces[trace])


def _parts(splits: Sequence[Split], number: int, name: str) -> list[Part]:
    """The parts of several files that were split."""
    header = splits[0].texts[0].header
    return [
        Part(f"{name}{part}", header, [one.texts[part].records for one in splits if one.texts[part].records.packets])
        for part in range(number)
    ]


def _whole(path: str) -> Text:
    """A trace that isn't looked into."""
    return Text(b"", Span(path, 0, os.path.getsize(path), 0))


def _identity(path: str) -> Identity:
    """What tells a file from another one. Raises InputError where it is no file, or can't be looked at."""
    try:
        about = os.stat(path)
    except OSError as fault:
        raise InputError(f"cannot read the trace {path}: {fault.strerror}") from fault
    if not stat.S_ISREG(about.st_mode):
        raise InputError(f"cannot read the trace {path}: it is no file that can be read from any place")
    return [os.path.abspath(path), about.st_size, about.st_mtime_ns]
