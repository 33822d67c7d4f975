"""Splitting 1,000,000 packets of 14 columns into eight parts by `marple-tools`, compared with running the query over them.

MARPLE_TOOLS in the environment names another second program than that of the repository.
"""

from __future__ import annotations

import subprocess
from pathlib import Path

from measure import Command, Figure, Race, measure
from workshop import TOP, Workshop, tools_program

PACKETS, FEWER, KEYS = 1_000_000, 100_000, 1_000
PLAIN = TOP / "bench/parts/plain.c"
COUNT = TOP / "examples/count.query"
COLUMNS = TOP / "bench/parts/keys.query"  # reads four columns


def made_trace(shop: Workshop, packets: int) -> Path:
    """A trace with 14 columns."""
    program, folder = shop.room / "plain", shop.room / str(packets)
    if not program.exists():
        subprocess.run(["cc", "-O2", "-o", program, PLAIN], check=True)
    folder.mkdir()
    subprocess.run([program, "make", str(packets), str(KEYS), "1", folder], check=True)
    return next(folder.iterdir())


def split_command(tools: str, query: Path, trace: Path, folder: Path) -> Command:
    folder.mkdir(exist_ok=True)
    return [tools, "split", str(query), str(trace), "--parts", "8", "--into", str(folder)]


def rows(marple: str, query: Path, traces: list[Path]) -> list[bytes]:
    """The rows of the last tables over these traces, but for their numbers of epochs."""
    found = []
    for trace in traces:
        ran = subprocess.run([marple, "run", query, trace], stdout=subprocess.PIPE, check=True)
        lines = [line.split(b",") for line in ran.stdout.splitlines()[2:]]
        found += [b",".join([*line[:3], *line[4:]]) for line in lines]
    return sorted(found)


def size(files: list[Path]) -> int:
    return sum(it.stat().st_size for it in files)


def measured(shop: Workshop, runs: int | None) -> list[tuple[Race, dict[str, Figure]]]:
    """Splitting for a count, whose parts have to give its rows; and for a query that reads four columns."""
    tools = tools_program()
    trace, fewer = made_trace(shop, PACKETS), made_trace(shop, FEWER)
    parts, columns, small = (shop.room / name for name in ("parts", "columns", "small"))

    def answer(program: str, _output: bytes) -> list[bytes]:
        return rows(shop.marple, COUNT, sorted(parts.iterdir()) if program == "split" else [trace])

    count = Race(
        "eight parts for a count",
        {"split": split_command(tools, COUNT, trace, parts), "run": [shop.marple, "run", str(COUNT), str(trace)]},
        subjects=("split",),
        answer=answer,
        small={"split": split_command(tools, COUNT, fewer, small), "run": [shop.marple, "run", str(COUNT), str(fewer)]},
    )
    four = Race(
        "eight parts of four columns",
        {"split": split_command(tools, COLUMNS, trace, columns), "cat": ["cat", str(trace)]},
        subjects=("split",),
        answer=lambda program, output: None,
    )
    found = [(race, measure(race, runs)) for race in (count, four)]
    found[1][1]["split"].written, found[1][1]["cat"].written = size([*columns.iterdir()]), size([trace])
    return found
