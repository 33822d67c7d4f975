"""Keeps other builds and rt out of crates while one is at work in them."""

from __future__ import annotations

import fcntl
import os
import time
from functools import partial
from typing import List

from building.crates import Crate
from building.progress import Progress


def lock(order: List[Crate], progress: Progress) -> List[int]:
    """Waits until no other build and no rt works in these crates, and keeps them out until this build ends."""
    held = []
    for crate in sorted(order, key=lambda it: os.path.realpath(it.folder)):
        held.append(os.open(crate.folder, os.O_RDONLY))
        if not is_locked(held[-1]):
            progress.line(f"waiting for another ./build or rt that is at work in crates/{crate.name}")
            while not is_locked(held[-1]):
                progress.standing(partial("still waiting for crates/{}".format, crate.name))
                time.sleep(0.2)
    return held


def is_locked(folder: int) -> bool:
    try:
        fcntl.flock(folder, fcntl.LOCK_EX | fcntl.LOCK_NB)
    except BlockingIOError:
        return False
    except OSError:
        pass  # a file system without locks
    return True
