"""The page that a run of all benches gives."""

from __future__ import annotations

import datetime
import os
import platform
import re
import shutil
import subprocess
import textwrap
from pathlib import Path

from goals import Figures, Goal, goals
from measure import Figure, Race
from workshop import TOP

Measured = dict[str, list[tuple[Race, dict[str, Figure]]]]


def output_of(command: list[str]) -> str:
    """The first line that a command prints, or nothing if it isn't there."""
    if shutil.which(command[0]) is None:
        return ""
    ended = subprocess.run(command, capture_output=True, text=True, cwd=TOP, check=False)
    return (ended.stdout + ended.stderr).strip().partition("\n")[0]


def machine() -> str:
    """The processors, the memory, the system, and what else ran when the benches began."""
    lines = Path("/proc/cpuinfo").read_text().splitlines()
    model = next((line.partition(": ")[2] for line in lines if line.startswith("model name")), platform.machine())
    memory = os.sysconf("SC_PAGE_SIZE") * os.sysconf("SC_PHYS_PAGES") / 1e9
    return f"{os.cpu_count()} processors {model}, {memory:.0f} GB, {platform.system()} {platform.release()}"


def when_and_where(load: float) -> str:
    """The day, the version, the commit, the machine."""
    today = datetime.date.today()
    commit, version = output_of(["git", "rev-parse", "--short", "HEAD"]), (TOP / "VERSION").read_text().strip()
    return f"{today.day} {today:%B %Y}, version {version}, commit {commit}. Machine: {machine()}; load {load:.1f} when the run began."


def wrapped(text: str) -> list[str]:
    return textwrap.wrap(text, 119, break_on_hyphens=False)


def preface(load: float, runs: int | None) -> list[str]:
    """The day, the machine, the versions, and how often each program ran."""
    versions = [output_of(["rustc", "--version"]), output_of(["rt", "version"]), output_of(["mawk", "-W", "version"])]
    versions += [output_of([name, "--version"]) for name in ("gawk", "datamash", "valgrind")]
    versions.append("sqlite3 " + output_of(["sqlite3", "--version"]).partition(" ")[0])
    about = [
        when_and_where(load),
        f"Versions: {'; '.join(version for version in versions if version.strip())}.",
    ]
    often = "five times each, or three times if a run takes more than 4 s and in `many` and `parts`"
    if runs:
        often = "once each" if runs == 1 else f"{runs} times each"
        often += ", or three times if a run takes more than 4 s" if runs > 3 else ""
    legend = (
        "Times are processor time, and of the clock if the case says so: the median of the runs, with the least and "
        f"the greatest. The programs of a case run in turn, {often}. A ratio is the figure in the first line of the "
        "case divided by that of the line. Instructions are counted by callgrind, of `queries` over 100,000 packets."
    )
    paragraphs = (wrapped(text) for text in (" ".join(about), legend))
    return [line for paragraph in paragraphs for line in (*paragraph, "")]


def goal_row(goal: Goal, figures: Figures) -> str:
    """The row of a goal."""
    value = goal.measured(figures)
    if value is None:
        return f"| {goal.bench} | {goal.what} | {goal.limit:g} | not measured | |"
    shown = f"{value:,.0f}" if goal.limit >= 100 else f"{value:.2f}"
    return f"| {goal.bench} | {goal.what} | {goal.limit:g} | {shown} | {'yes' if value <= goal.limit else '**no**'} |"


def goal_table(figures: Figures) -> list[str]:
    """All goals, and how many of those that were measured are met."""
    measured = [(goal, goal.measured(figures)) for goal in goals()]
    values = [(goal, value) for goal, value in measured if value is not None]
    met = sum(value <= goal.limit for goal, value in values)
    heading = ["| Bench | Goal | At most | Measured | Met |", "|---|---|---|---|---|"]
    rows = [goal_row(goal, figures) for goal, _ in measured]
    return ["### Goals", "", f"{met} of {len(values)} are met.", "", *heading, *rows, ""]


def ratio(subject: float | None, peer: float | None) -> str:
    """A ratio with two digits, if both figures are there."""
    return f"{subject / peer:.2f}" if subject is not None and peer else ""


def row(case: str, name: str, figure: Figure, subject: Figure | None) -> str:
    """The row of a program; without a subject it is the subject's own."""
    counted = "" if figure.instructions is None else f"{figure.instructions / 1e6:,.1f}"
    ratios = ["", "", ""]
    if subject is not None:
        ratios = [
            ratio(subject.time(), figure.time()),
            ratio(subject.peak(), figure.peak()),
            ratio(subject.instructions, figure.instructions),
        ]
    time = f"{figure.time():.3f} ({min(figure.seconds):.3f} to {max(figure.seconds):.3f})"
    cells = [case, name, time, ratios[0], f"{figure.peak() / 1000:,.1f}", ratios[1], counted, ratios[2]]
    return f"| {' | '.join(cells)} |"


def race_rows(race: Race, found: dict[str, Figure]) -> list[str]:
    """The rows of a race: for each subject its own and those of its peers."""
    rows = []
    for subject in race.subjects:
        rows.append(row(race.name, subject, found[subject], None))
        rows += [row("", peer, found[peer], found[subject]) for peer in race.peers()]
    return rows


def bench_table(name: str, measured: list[tuple[Race, dict[str, Figure]]]) -> list[str]:
    """The table of a bench."""
    heading = [
        "| Case | Program | Time, s | ratio | Peak, MB | ratio | Instructions, millions | ratio |",
        "|---|---|---|---|---|---|---|---|",
    ]
    rows = [line for race, found in measured for line in race_rows(race, found)]
    return [f"### {name}", "", *heading, *rows, ""]


def figures_of(measured: Measured) -> Figures:
    """The figures that were measured, by bench, race and program."""
    return {
        (bench, race.name, program): figure
        for bench, races in measured.items()
        for race, found in races
        for program, figure in found.items()
    }


def with_goals(page: str, measured: Measured) -> str:
    """The page with the goals of these benches, and how many of all are met."""
    before, heading, rest = page.partition("| Bench | Goal | At most | Measured | Met |\n|---|---|---|---|---|\n")
    table, end, after = rest.partition("\n\n")
    if not heading or not end:
        raise ValueError("the page has no table of goals")
    old = {tuple(row.split(" | ")[:2]): row for row in table.split("\n")}
    rows, figures = [], figures_of(measured)
    for goal in goals():
        new = goal_row(goal, figures)
        rows.append(new if goal.bench in measured else old.get(tuple(new.split(" | ")[:2]), new))
    met, missed = sum(row.endswith("| yes |") for row in rows), sum(row.endswith("| **no** |") for row in rows)
    before = re.sub(r"(?m)^\d+ of \d+ are met\.$", f"{met} of {met + missed} are met.", before)
    return before + heading + "\n".join(rows) + end + after


def with_benches(page: str, load: float, measured: Measured) -> str:
    """The page with what was measured of these benches now, in place of what it has of them, with the day and the machine."""
    first, *sections = re.split(r"(?m)^(?=### )", with_goals(page, measured))
    for bench, races in measured.items():
        heading, empty, *table = bench_table(bench, races)
        new = "\n".join([heading, empty, *wrapped(f"Measured by itself: {when_and_where(load)}"), "", *table, ""])
        places = [at for at, section in enumerate(sections) if section.startswith(f"{heading}\n")]
        sections[places[0] if places else len(sections) :] = [new, *(sections[places[0] + 1 :] if places else [])]
    return first + "".join(f"{section.rstrip()}\n\n" for section in sections)


def whole_page(load: float, runs: int | None, measured: Measured) -> str:
    """The page: what it was run on, the goals, and a table for each bench."""
    lines = [*preface(load, runs), *goal_table(figures_of(measured))]
    for bench, races in measured.items():
        lines += bench_table(bench, races)
    return "\n".join(lines)
