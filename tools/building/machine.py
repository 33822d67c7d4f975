"""What the machine has for proofs: processors and memory, also under the limits of a control group."""

from __future__ import annotations

import argparse
import os
import re
from pathlib import Path
from typing import NamedTuple, Optional

QUOTAS = (
    ("/sys/fs/cgroup/cpu.max", r"(\d+) \d+", "/sys/fs/cgroup/cpu.max", r"\S+ (\d+)"),
    ("/sys/fs/cgroup/cpu/cpu.cfs_quota_us", r"(\d+)", "/sys/fs/cgroup/cpu/cpu.cfs_period_us", r"(\d+)"),
)
GROUPS = (
    ("/sys/fs/cgroup/memory.max", "/sys/fs/cgroup/memory.current"),
    ("/sys/fs/cgroup/memory/memory.limit_in_bytes", "/sys/fs/cgroup/memory/memory.usage_in_bytes"),
)
# Of the free memory so much is left to others.
LEFT_FREE = 0.15


class Machine(NamedTuple):
    """How many proofs fit side by side, and how much memory they may take together."""

    processors: int
    megabytes: int


def number_in(file: str, pattern: str) -> Optional[int]:
    """Returns the number that the pattern finds at the start of a line of the file, if it does."""
    try:
        found = re.search(f"(?m)^{pattern}", Path(file).read_text(encoding="utf-8"))
    except OSError:
        return None
    return int(found[1]) if found else None


def processors() -> int:
    found = len(os.sched_getaffinity(0))
    for file, pattern, of, of_pattern in QUOTAS:
        quota, period = number_in(file, pattern), number_in(of, of_pattern)
        if quota and period:
            found = min(found, max(quota // period, 1))
    return found


def free_megabytes() -> int:
    kilobytes = number_in("/proc/meminfo", r"MemAvailable:\s+(\d+)")
    found = [kilobytes * 1024] if kilobytes is not None else []
    for limit, held in GROUPS:
        most, now = number_in(limit, r"(\d+)"), number_in(held, r"(\d+)")
        if most is not None and now is not None:
            found.append(most - now)
    return int(min(found, default=4_000_000_000) * (1 - LEFT_FREE)) // 1_000_000


def machine(jobs: Optional[int]) -> Machine:
    """Returns what there is, or the number of proofs that was asked for, whatever memory says."""
    return Machine(jobs or processors(), free_megabytes())


def number_of_jobs(text: str) -> int:
    """Reads the number of an option --jobs."""
    if not text.isdecimal() or int(text) < 1:
        raise argparse.ArgumentTypeError(f"{text} isn't a number of at least 1")
    return int(text)
