"""Times what the package does with DataFrames and tables, and pandas with CSV, each in a process of its own, in turn.

Usage: measure.py RUNS
Writes for each case and program the seconds of processor time and the peaks in KB, as JSON. Both have the same answer
before they are timed: the cells are those that the other reads.
"""

import csv
import io
import json
import os
import subprocess
import sys

import numpy
import pandas

import marple
from marple.columns import text_of
from marple.frames import columns_of
from marple.plans import FIELDS

ROWS = 100_000
SEED = 1
CALLS = 100
QUERY = b"def count([c],[]) { c = c + 1; }\nr = groupby(pktstream, [srcip], count);\nprint r;\n"
TRACE = b"srcip\n7\n"


def whole_numbers() -> pandas.DataFrame:
    """Packets whose fields are whole numbers of several sizes."""
    draw = numpy.random.default_rng(SEED)
    bits = (3, 1, 32, 32, 32, 16, 16, 5, 11, 11, 32, 60, 60, 8)
    return pandas.DataFrame({name: draw.integers(0, 1 << size, ROWS) for name, size in zip(FIELDS, bits)})


def with_dropped() -> pandas.DataFrame:
    """The same with addresses as texts and packets that were dropped."""
    frame = whole_numbers()
    frame["srcip"] = [f"10.0.{word >> 8 & 255}.{word & 255}" for word in frame["srcip"].tolist()]
    frame["tout"] = frame["tout"].astype("UInt64").mask(numpy.arange(ROWS) % 7 == 0)
    return frame


def table_text() -> bytes:
    """A table of a groupby by the flow, with two states."""
    frame = whole_numbers()[["srcip", "dstip", "srcport", "dstport", "proto"]].sort_values(["srcip", "dstip"])
    frame = frame.assign(mark="exact", epoch="*", epochs=1, packets=range(ROWS), bytes=range(10**9, 10**9 + ROWS))
    return f"table r linear 0 {ROWS}\n".encode() + frame.to_csv(index=False).encode()


def same_trace(frame: pandas.DataFrame) -> None:
    own = list(csv.reader(io.StringIO(text_of(columns_of(frame)).decode(), newline="")))
    theirs = list(csv.reader(io.StringIO(frame.to_csv(index=False, na_rep="inf"), newline="")))
    if own != theirs:
        raise SystemExit("bench/package: the traces differ")


def same_table(text: bytes) -> None:
    own = marple.read_tables(text)["r"].to_pandas().reset_index()
    theirs = pandas.read_csv(io.BytesIO(text), skiprows=1)
    for name in theirs.columns:
        if name != "epoch" and own[name].astype(str).tolist() != theirs[name].astype(str).tolist():
            raise SystemExit(f"bench/package: the tables differ in {name}")


def subprocess_calls(program: str) -> None:
    """What the calls would be without the package: the program over two files."""
    for path, content in (("query", QUERY), ("trace", TRACE)):
        with open(f"{os.environ.get('TMPDIR', '/tmp')}/bench-package-{os.getpid()}.{path}", "wb") as file:
            file.write(content)
    names = [f"{os.environ.get('TMPDIR', '/tmp')}/bench-package-{os.getpid()}.{path}" for path in ("query", "trace")]
    for _ in range(CALLS):
        subprocess.run([program, "run", *names], stdout=subprocess.PIPE, check=True)
    for name in names:
        os.unlink(name)


def cases() -> dict:
    """The cases: for each program what it does."""
    numbers, dropped, text = whole_numbers(), with_dropped(), table_text()
    same_trace(numbers)
    same_trace(dropped)
    same_table(text)
    program = marple.find_program()
    return {
        "a trace of whole numbers": {
            "marple": lambda: text_of(columns_of(numbers)), "to_csv": lambda: numbers.to_csv(index=False).encode(),
        },
        "a trace with texts and NA": {
            "marple": lambda: text_of(columns_of(dropped)), "to_csv": lambda: dropped.to_csv(index=False).encode(),
        },
        "a table into a DataFrame": {
            "marple": lambda: marple.read_tables(text)["r"].to_pandas(),
            "read_csv": lambda: pandas.read_csv(io.BytesIO(text), skiprows=1),
        },
        f"{CALLS} calls over one packet": {
            "marple": lambda: [marple.run(QUERY, TRACE) for _ in range(CALLS)],
            "subprocess": lambda: subprocess_calls(program),
        },
    }  # fmt: skip


def timed(action) -> tuple[float, int]:
    """The processor time of the action and its children, and the peak, in a process that is forked for it."""
    reader, writer = os.pipe()
    child = os.fork()
    if child == 0:
        used = os.times()
        action()
        now = os.times()
        os.write(writer, f"{sum(now[:4]) - sum(used[:4])}".encode())
        os._exit(0)
    os.close(writer)
    with open(reader) as pipe:
        seconds = pipe.read()
    _, status, usage = os.wait4(child, 0)
    if status != 0 or not seconds:
        raise SystemExit("bench/package: a measured process failed")
    return float(seconds), usage.ru_maxrss


def main() -> int:
    runs, found = int(sys.argv[1]), {}
    for case, programs in cases().items():
        figures = {name: {"seconds": [], "peaks": []} for name in programs}
        for _ in range(runs):
            for name, action in programs.items():
                seconds, peak = timed(action)
                figures[name]["seconds"].append(seconds)
                figures[name]["peaks"].append(peak)
        found[case] = figures
        print(f"package: {case}", file=sys.stderr, flush=True)
    print(json.dumps(found))
    return 0


if __name__ == "__main__":
    sys.exit(main())
