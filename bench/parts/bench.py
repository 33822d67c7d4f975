"""A query over 20,000,000 packets of a million keys in parts, by four workers, two and one; runs of the program; what splitting costs.

In the environment PACKETS and KEYS give other numbers of these; ROOM names a folder that keeps the traces, 2 GB, for the next time; and
PEER another checkout, whose package runs in turn with this one's, by four workers.
"""

from __future__ import annotations

import os
import subprocess
import sys
import time
from dataclasses import dataclass
from pathlib import Path

from measure import BenchError, Figure, Race, measure, report_progress
from workshop import TOP, Workshop, tools_program

MILLION = 1_000_000
WORKERS = (4, 2, 1)
RUNS = 3
ALL, COLUMNS = "1-14", "4,9,10,11"  # the columns of a trace, and those that the query reads
# The lines of progress between which a stage is: the last ones that begin so. `end` is when the tables were written.
STAGES = {"splitting them": ("by", "split"), "running the parts": ("split", "ran"), "joining the tables": ("ran", "end")}
Measured = list[tuple[Race, dict[str, Figure]]]


@dataclass(frozen=True)
class Traces:
    """Traces of a million packets each in a folder, and beside them `expected`, the rows that a plain program counts."""

    folder: Path
    packets: int

    @property
    def paths(self) -> list[str]:
        return sorted(str(path) for path in (self.folder / "traces").glob("*.csv"))

    def first(self, packets: int, columns: str) -> list[str]:
        """A command that prints a trace of the first packets, with some of the columns."""
        files = " ".join(f"'{path}'" for path in self.paths)
        rows = f"tail -qn +2 {files} 2>/dev/null | head -n {packets}"
        return ["sh", "-c", f"{{ head -qn 1 '{self.paths[0]}'; {rows}; }} | cut -d, -f{columns}"]


@dataclass(frozen=True)
class Package:
    """The package of a checkout with a number of workers."""

    name: str
    top: Path
    workers: int


def made_traces(shop: Workshop) -> Traces:
    """The traces, which are made if they aren't there."""
    packets, keys = int(os.environ.get("PACKETS", 20 * MILLION)), int(os.environ.get("KEYS", MILLION))
    traces = Traces(Path(os.environ.get("ROOM", shop.room)), packets)
    made, plain, said = traces.folder / "made", traces.folder / "plain", f"{packets} packets, {keys} keys\n"
    if made.exists() and made.read_text() == said:
        return traces
    (traces.folder / "traces").mkdir(parents=True)
    subprocess.run(["cc", "-O2", "-o", plain, shop.here / "plain.c"], check=True)
    subprocess.run([plain, "make", *map(str, (packets, keys, -(-packets // MILLION))), traces.folder / "traces"], check=True)
    with open(traces.folder / "expected", "wb") as rows:
        subprocess.run([plain, "count", *traces.paths], stdout=rows, check=True)
    made.write_text(said)
    return traces


def packages() -> list[Package]:
    """This package with each number of workers, and the other one."""
    found = [Package("1 worker" if it == 1 else f"{it} workers", TOP, it) for it in WORKERS]
    if peer := os.environ.get("PEER"):
        asked = ["git", "-C", peer, "rev-parse", "--short=8", "HEAD"]
        commit = subprocess.run(asked, stdout=subprocess.PIPE, text=True, check=True).stdout.strip()
        found.insert(1, Package(f"{WORKERS[0]} workers of {commit}", Path(peer), WORKERS[0]))
    return found


def run_in_parts(package: Package, shop: Workshop, traces: Traces) -> tuple[dict[str, float], int]:
    """The seconds of a run by what they are of, and its peak in KB. Its rows must be those of the plain program."""
    command = [sys.executable, "-m", "marple.parts", shop.query("keys"), *traces.paths, "--workers", str(package.workers)]
    given = {"PYTHONPATH": str(package.top / "python"), "TMPDIR": str(traces.folder), "PYTHONDONTWRITEBYTECODE": "1"}
    given |= {"MARPLE": shop.marple, "MARPLE_TOOLS": tools_program()}
    tables, ends, line = traces.folder / "tables", {}, ""
    with open(tables, "wb") as file:
        process = subprocess.Popen(command, stdout=file, stderr=subprocess.PIPE, text=True, env=os.environ | given)
        for line in process.stderr:
            ends[line.removeprefix("marple: ").split(" ")[0]] = time.time()
        _, status, used = os.wait4(process.pid, 0)
        process.returncode = os.waitstatus_to_exitcode(status)
    ends["end"] = tables.stat().st_mtime
    if process.returncode != 0:
        raise BenchError(f"{package.name} ended with status {process.returncode}: {line.strip()}")
    if tables.read_bytes().split(b"\n", 2)[2] != (traces.folder / "expected").read_bytes():
        raise BenchError(f"the rows of {package.name} aren't those of the plain program")
    case = f"{traces.packets:,} packets in parts"
    whole = {f"{case} (clock)": ends["end"] - ends["by"], case: used.ru_utime + used.ru_stime}
    stages = {f"{stage} (clock)": ends[end] - ends[begin] for stage, (begin, end) in STAGES.items()}
    return whole | stages, used.ru_maxrss


def parts_races(shop: Workshop, traces: Traces, runs: int) -> Measured:
    """Runs in parts, in turn."""
    found: dict[str, dict[str, Figure]] = {}
    for turn in range(runs):
        for package in packages():
            report_progress(f"parts: {package.name}, run {turn + 1} of {runs}")
            seconds, peak = run_in_parts(package, shop, traces)
            for case, one in seconds.items():
                figure = found.setdefault(case, {}).setdefault(package.name, Figure())
                figure.seconds.append(one)
                figure.peaks.append(peak)
    return [(Race(case, {name: [] for name in own}, subjects=(next(iter(own)),)), own) for case, own in found.items()]


def run_races(shop: Workshop, traces: Traces) -> list[Race]:
    """Runs of the program over as much as one run takes, of all columns and of those that the query reads."""
    races = []
    for most, columns, what in ((3 * MILLION, ALL, "14 columns"), (4 * MILLION, COLUMNS, "the 4 columns that it reads")):
        packets = min(traces.packets, most)
        trace = shop.written(f"first-{columns}", traces.first(packets, columns))
        races.append(Race(f"{packets:,} packets in one run, {what}", {"marple": [shop.marple, "run", shop.query("keys"), trace]}))
    return races


def split_races(shop: Workshop, traces: Traces) -> list[Race]:
    """Splitting into eight parts compared with running, without quotes and with each field in quotes."""
    packets, folder = min(traces.packets, MILLION), shop.room / "split"
    folder.mkdir()
    plain = shop.written("plain.csv", traces.first(packets, ALL))
    quoted = shop.written("quoted.csv", ["sed", '1!s/[^,][^,]*/"&"/g', plain])
    races = []
    for what, trace in (("plain", plain), ("each field in quotes", quoted)):
        split = [tools_program(), "split", shop.query("keys"), trace, "--parts", "8", "--into", str(folder)]
        programs = {"splitting": split, "running": [shop.marple, "run", shop.query("keys"), trace]}
        races.append(Race(f"{packets:,} packets, {what}", programs, ("splitting",), answer=lambda program, output: None))
    return races


def measured(shop: Workshop, runs: int | None) -> Measured:
    traces = made_traces(shop)
    races = [*run_races(shop, traces), *split_races(shop, traces)]
    return [*parts_races(shop, traces, runs or RUNS), *((race, measure(race, runs or RUNS)) for race in races)]
