"""Measures programs: processor time and peak memory of runs in turn, and instructions by callgrind."""

from __future__ import annotations

import os
import shutil
import statistics
import subprocess
import sys
import tempfile
from collections.abc import Callable
from dataclasses import dataclass, field
from pathlib import Path

Command = list[str]
Answer = Callable[[str, bytes], object]

# A program whose first run takes longer than this many seconds is run three times in all.
SLOW = 4.0


class BenchError(Exception):
    """A bench can't go on: a program failed, or gave another answer than its peers."""


def as_it_is(_program: str, output: bytes) -> object:
    """The output itself, for programs that write the same bytes."""
    return output


@dataclass(frozen=True)
class Race:
    """Programs that give the same answer, to be run in turn.

    `subjects` are those that are judged, by the ratio of their figures to those of the other programs. `answer` brings
    the output of a program into the form that all share. `small` has commands over less input, for counting
    instructions.
    """

    name: str
    programs: dict[str, Command]
    subjects: tuple[str, ...] = ("marple",)
    answer: Answer = as_it_is
    small: dict[str, Command] = field(default_factory=dict)
    runs: int = 5

    def peers(self) -> list[str]:
        """The programs that the subjects are compared with."""
        return [name for name in self.programs if name not in self.subjects]


@dataclass
class Figure:
    """What was measured of one program: seconds of processor time and KB at its peak, run by run, instructions, those of them that
    find the fields of records, and the bytes that it writes, where these are measured.
    """

    seconds: list[float] = field(default_factory=list)
    peaks: list[int] = field(default_factory=list)
    instructions: int | None = None
    finding: int | None = None
    written: int | None = None

    def time(self) -> float:
        """The median of the processor times."""
        return statistics.median(self.seconds)

    def peak(self) -> int:
        """The greatest of the peaks, in KB."""
        return max(self.peaks)


def run_once(command: Command) -> tuple[float, int]:
    """Runs a command without its output, and gives its processor time in seconds and its peak memory in KB."""
    with tempfile.NamedTemporaryFile(mode="r") as report:
        timed = ["/usr/bin/time", "-q", "-f", "%M", "-o", report.name, *command]
        process = subprocess.Popen(timed, stdin=subprocess.DEVNULL, stdout=subprocess.DEVNULL)
        _, status, usage = os.wait4(process.pid, 0)
        process.returncode = os.waitstatus_to_exitcode(status)
        if process.returncode != 0:
            raise BenchError(f"{' '.join(command)}: status {process.returncode}")
        return usage.ru_utime + usage.ru_stime, int(report.read())


def compare_answers(race: Race) -> None:
    """Runs each program once, and raises where two give other answers."""
    first: tuple[str, object] | None = None
    for name, command in race.programs.items():
        ended = subprocess.run(command, stdin=subprocess.DEVNULL, stdout=subprocess.PIPE, check=False)
        if ended.returncode != 0:
            raise BenchError(f"{race.name}: {name} ended with status {ended.returncode}")
        answer = race.answer(name, ended.stdout)
        if first is None:
            first = (name, answer)
        elif answer != first[1]:
            raise BenchError(f"{race.name}: {name} gives another answer than {first[0]}")


def measure(race: Race, runs: int | None = None) -> dict[str, Figure]:
    """Compares the answers of the programs, times their runs in turn, and counts their instructions."""
    compare_answers(race)
    figures = {name: Figure() for name in race.programs}
    for _turn in range(runs or race.runs):
        for name, figure in figures.items():
            if len(figure.seconds) >= 3 and figure.seconds[0] > SLOW:
                continue
            seconds, peak = run_once(race.programs[name])
            figure.seconds.append(seconds)
            figure.peaks.append(peak)
    for name, command in race.small.items():
        figures[name].instructions, figures[name].finding = count_instructions(command)
    return figures


def count_instructions(command: Command) -> tuple[int | None, int | None]:
    """The instructions of a run by callgrind, and how many of them find the fields of records; nothing without valgrind."""
    if shutil.which("valgrind") is None:
        return None, None
    with tempfile.NamedTemporaryFile(mode="r") as report:
        valgrind = ["valgrind", "--quiet", "--tool=callgrind", f"--callgrind-out-file={report.name}"]
        subprocess.run([*valgrind, *command], stdin=subprocess.DEVNULL, stdout=subprocess.DEVNULL, check=True)
        return sum_costs(Path(report.name).read_text(errors="replace").splitlines())


# What the functions of a proved program begin with that find the fields of records, by whichever reader.
FINDING = ("trace_reader::plain::", "csv::", "csv_core::")


def sum_costs(lines: list[str]) -> tuple[int, int]:
    """Of the lines of a callgrind file: all instructions, and those of the functions that find the fields of records."""
    names: dict[str, str] = {}
    total = finding = 0
    function = ""
    is_call = False
    for line in lines:
        if line.startswith("fn="):
            number, _, name = line[3:].partition(" ")
            function = names.setdefault(number, name)
        elif line.startswith("cfn="):
            number, _, name = line[4:].partition(" ")
            names.setdefault(number, name)
        elif line.startswith("calls="):
            is_call = True
        elif line and line[0] in "0123456789+-*":
            # the line after `calls=` has the cost of the called function
            if not is_call:
                cost = int(line.split()[1])
                total += cost
                finding += cost if function.startswith(FINDING) else 0
            is_call = False
    return total, finding


def report_progress(text: str) -> None:
    """Says on standard error what is being measured."""
    print(text, file=sys.stderr, flush=True)
