"""What is kept beside the program of how it was made, and whether it is proved of the sources of now.

./build records of which sources it proved the program. The gate makes a program too, and records nothing: of a program without a
record it counts that nothing that it is made from was changed after it, by the times that a file system keeps of contents and of
files; it is recorded then.
"""

from __future__ import annotations

import os
import sys
from pathlib import Path
from typing import List, NamedTuple, Optional

from building.crates import SOURCES, Crate, Unreadable, digests, needed, read_crates, sum_of

# The toolchain of a program that the gate made.
OF_THE_GATE = "unknown"


class Record(NamedTuple):
    """What a program was made from: the sum of its sources with the toolchain's version, and its own sum and time."""

    sources: str
    program: str
    time: int
    toolchain: str


def record_file(crate: Crate) -> Path:
    return crate.folder / "out/proved"


def read_record(crate: Crate) -> Optional[Record]:
    """Returns the record of the crate's program, if there is one."""
    try:
        sources, program, time, toolchain = record_file(crate).read_text(encoding="utf-8").splitlines()
        return Record(sources, program, int(time), toolchain)
    except (OSError, ValueError):
        return None


def write_record(crate: Crate, sources: str, toolchain: str) -> None:
    """Records that the crate's program is proved of sources with this sum."""
    record = Record(sources, sum_of(crate.program), crate.program.stat().st_mtime_ns, toolchain)
    new = record_file(crate).with_name(f"proved.{os.getpid()}")
    new.write_text("".join(f"{it}\n" for it in record), encoding="utf-8")
    os.replace(new, record_file(crate))


def is_later(program: Path, order: List[Crate]) -> bool:
    """Is the program no older than each file and folder that it is made from, by the times of contents and of files?"""
    made = program.stat().st_mtime_ns
    folders = [it.folder / part for it in order for part in SOURCES if (it.folder / part).is_dir()]
    table = order[-1].folder.parent.parent / "crates.txt"
    for file in (table, *folders, *(below for it in folders for below in it.rglob("*"))):
        found = file.stat()
        if max(found.st_mtime_ns, found.st_ctime_ns) > made:
            return False
    return True


def is_proved(order: List[Crate], toolchain: Optional[str] = None) -> bool:
    """Is the program of the last crate there, and proved of the sources of now, with this toolchain if one is given?"""
    crate = order[-1]
    if not os.access(crate.program, os.X_OK):
        return False
    record = read_record(crate)
    if record and record.program == sum_of(crate.program):
        if toolchain not in (None, record.toolchain) and record.toolchain != OF_THE_GATE:
            return False
        if record.sources == digests(order, record.toolchain)[crate.name]:
            return True
        if record.time == crate.program.stat().st_mtime_ns:
            return False
    if not is_later(crate.program, order):
        return False
    try:
        write_record(crate, digests(order, OF_THE_GATE)[crate.name], OF_THE_GATE)
    except PermissionError:
        pass  # in a folder of somebody else nothing is kept
    return True


def main(top: str, name: str) -> int:
    """Has the status 0 if the program of the crate of this name, of the repository in this folder, is proved."""
    try:
        return 0 if is_proved(needed(read_crates(Path(top)), name)) else 1
    except (OSError, Unreadable):
        return 1


if __name__ == "__main__":
    sys.exit(main(sys.argv[1], sys.argv[2]))
