"""What several tests use: the cases of the repository, comparisons of tables, and what is drawn at random."""

import functools
import os
import random
import tempfile
from pathlib import Path

import marple

TOP = Path(__file__).resolve().parents[2]
CASES = TOP / "tests" / "cases"
SEED = int(os.environ.get("MARPLE_TEST_SEED", random.randrange(10**6)))
TIMES = int(os.environ.get("MARPLE_TEST_TIMES", 1))  # how often as many random tests as usual


def cases() -> list[Path]:
    """The folders of the end-to-end cases, each below that of its command."""
    return sorted(file.parent for file in CASES.glob("*/*/args"))


def content(folder: Path, name: str) -> bytes:
    return (folder / name).read_bytes()


def words(folder: Path) -> list[str]:
    """The words of a case."""
    return content(folder, "args").decode().split("\n")[:-1]


def choices() -> dict[str, str]:
    """The query files of the list `choices`, with how each of them may run in parts."""
    lines = (Path(__file__).parent / "choices").read_text().splitlines()
    return dict(line.split(" ") for line in lines)


@functools.cache
def generated(packets: int, start: int) -> bytes:
    """A trace of the generator."""
    return marple.gen(packets, start)


def drawing(name: str) -> random.Random:
    """Random numbers for a test, from a seed that is printed, or that of the environment."""
    print(f"{name}: MARPLE_TEST_SEED={SEED}", flush=True)
    return random.Random(SEED)


class Folder:
    """A folder that goes when the test ends."""

    def __init__(self, test):
        self.place = tempfile.TemporaryDirectory(prefix="marple-test-")
        test.addCleanup(self.place.cleanup)

    def path(self, name: str) -> str:
        return str(Path(self.place.name, name))

    def write(self, name: str, content: bytes) -> str:
        Path(self.path(name)).write_bytes(content)
        return self.path(name)

    def traces(self, content: bytes, files: int) -> list[str]:
        """A trace as several files of its header, with the data records in their order."""
        header, *records = content.splitlines(keepends=True)
        size = len(records) // files + 1
        return [
            self.write(f"trace-{number}.csv", header + b"".join(records[number * size : (number + 1) * size]))
            for number in range(files)
        ]


def but_for_epochs(table: marple.Table) -> list[tuple[int, ...]]:
    """The rows without the number of epochs of their key, which parts don't share."""
    if "epochs" not in table.columns:
        return list(table.rows)
    at = table.columns.index("epochs")
    return [row[:at] + row[at + 1 :] for row in table.rows]
