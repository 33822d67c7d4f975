"""What a bench needs to prepare its races: the program, Rust programs, traces, and the programs of proved crates."""

from __future__ import annotations

import os
import shutil
import subprocess
import sys
from pathlib import Path

from measure import BenchError, Command, Race

TOP = Path(__file__).resolve().parent.parent
sys.path.append(str(TOP / "tools"))

from building.crates import Crate, Unreadable, needed, read_crates
from building.estimate import read_costs
from building.locks import lock
from building.machine import machine
from building.progress import Progress
from building.proving import Failed, Proving
from building.toolchain import Missing, Toolchain

RUST = ["rustc", "-O", "-C", "target-cpu=x86-64-v2"]


def program_under_test(crate: str, variable: str) -> str:
    """A program under test: that which a variable names, or the proved one of the repository, which must be that of its sources."""
    if named := os.environ.get(variable):
        return str(Path(named).resolve()) if "/" in named else named
    words = 'top=$1; . "$1/tools/building/proved.sh"; is_proved "$2" && echo "$program"'
    asked = subprocess.run(["sh", "-c", words, "sh", TOP, crate], stdout=subprocess.PIPE, text=True, check=False)
    if asked.returncode != 0:
        raise BenchError("the program isn't proved, or its sources are newer: ./build proves it")
    return asked.stdout.strip()


def marple_program() -> str:
    return program_under_test("marple", "MARPLE")


def tools_program() -> str:
    return program_under_test("marple_tools", "MARPLE_TOOLS")


class Workshop:
    """A folder for what the races of one bench need, in `room`; `here` is the bench's own folder."""

    def __init__(self, here: Path, room: Path, marple: str) -> None:
        self.here = here
        self.room = room
        self.marple = marple

    def rust(self, source: str) -> str:
        """Compiles a Rust program of the bench, and gives its path."""
        program = self.room / f"{Path(source).stem}_rust"
        subprocess.run([*RUST, "-o", program, self.here / source], check=True)
        return str(program)

    def written(self, name: str, command: Command) -> str:
        """Writes what a command prints into a file of the room, once, and gives its path."""
        path = self.room / name
        if not path.exists():
            with open(path, "wb") as file:
                subprocess.run(command, stdin=subprocess.DEVNULL, stdout=file, check=True)
        return str(path)

    def trace(self, packets: int) -> str:
        """A trace of the generator."""
        return self.written(f"trace-{packets}", [self.marple, "gen", str(packets), "1"])

    def query(self, name: str) -> str:
        """The path of a query of the bench."""
        return str(self.here / f"{name}.query")


def copied_program(shop: Workshop) -> tuple[str, list[str]]:
    """Copies the bench's folder `program` into the room. Its name, and the libraries that it uses.

    The sources of `program` carry one more suffix, since the gate reads only the sources of `crates`.
    """
    name, _, used = (shop.here / "program/needs.txt").read_text().partition(":")
    folder = shop.room / name
    shutil.copytree(shop.here / "program", folder)
    (folder / "needs.txt").unlink()
    for file in [*folder.rglob("*.txt")]:
        file.rename(file.with_suffix(""))
    return name, used.split()


def proved_program(shop: Workshop) -> str:
    """Proves and builds the bench's folder `program` as ./build does, and the crates below it that it needs.

    Gives the program's path.
    """
    name, used = copied_program(shop)
    try:
        crates = read_crates(TOP)
        mine = tuple(it for it in used if it in crates)
        program = Crate(name, shop.room / name, mine, tuple(it for it in used if it not in crates))
        order = needed(crates | {name: program}, name)
        progress = Progress(sys.stderr)
        held = lock(order, progress)
        try:
            costs = read_costs(TOP / "bench/build/crates.csv", order)
            Proving(order, costs, Toolchain(), machine(None), progress).run()
        finally:
            for it in held:
                os.close(it)
    except (Failed, Missing, Unreadable) as error:
        raise BenchError(f"{name} isn't built: {error}") from error
    return str(program.program)


def kernel_race(shop: Workshop) -> Race:
    """The race of a proved program with the same algorithm in Rust, for a bench that has a folder `program`."""
    name = shop.here.name
    programs = {"proved": [proved_program(shop)], "Rust": [shop.rust(f"{name}.rs")]}
    return Race(name, programs, subjects=("proved",), small=programs)
