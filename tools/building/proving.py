"""Proves crates side by side: each as soon as those below it are proved, the longest chain first. A crate has one job, and two where a
processor would have nothing to do otherwise: with two it takes a quarter less of the clock, and a fifth more of processor time."""

from __future__ import annotations

import ctypes
import os
import shutil
import signal
import subprocess
import time
from dataclasses import dataclass
from typing import IO, Dict, List, Set

from building.crates import Crate, digest, digests, with_those_below
from building.estimate import Cost, chains, pace, seconds_to_go, still_to_go, time_to_go
from building.machine import Machine
from building.progress import Progress
from building.proved import is_proved, write_record
from building.toolchain import KEPT, Toolchain, below

LIBC = ctypes.CDLL(None)
PARENT_DEATH_SIGNAL = 1
# A proof that is asked to end has this many seconds, and is then killed.
SECONDS_TO_END = 5.0


class Failed(Exception):
    """A crate isn't proved, or a program isn't built."""


@dataclass(frozen=True, eq=False)
class Proof:
    """A proof that is under way."""

    crate: Crate
    jobs: int
    process: "subprocess.Popen[bytes]"
    began: float


def end_with_parent() -> None:
    """Has a command end when this build does, however it does."""
    LIBC.prctl(PARENT_DEATH_SIGNAL, signal.SIGKILL)


class Proving:
    """The crates that are proved, those that are being proved, and the rest."""

    def __init__(self, order: List[Crate], costs: Dict[str, Cost], toolchain: Toolchain, machine: Machine, progress: Progress):
        self.order, self.costs, self.toolchain, self.machine, self.progress = order, costs, toolchain, machine, progress
        self.sums = digests(order, toolchain.version)
        self.chains = chains(order, costs)
        self.done: Set[str] = {it.name for it in order if self.is_kept(it)}
        self.running: List[Proof] = []
        self.alone: Set[str] = set()
        self.began = time.monotonic()
        self.table_seconds = self.measured_seconds = 0.0

    # What is kept between calls

    def is_kept(self, crate: Crate) -> bool:
        """Is what an earlier call made of the crate there, from the sources of now?"""
        if crate.is_program:
            return is_proved(with_those_below(crate.name, self.order), self.toolchain.version)
        kept = crate.folder / KEPT / "sources"
        made = crate.folder / KEPT / f"{crate.name}.rlib"
        return made.exists() and kept.is_file() and kept.read_text(encoding="utf-8") == self.sums[crate.name]

    def keep(self, crate: Crate) -> None:
        """Records what was proved."""
        if crate.is_program:
            write_record(crate, self.sums[crate.name], self.toolchain.version)
        else:
            (crate.folder / KEPT / "sources").write_text(self.sums[crate.name], encoding="utf-8")

    # The proofs

    def run(self) -> None:
        """Proves all that isn't proved. Raises Failed at the first crate that can't be."""
        try:
            while len(self.done) < len(self.order):
                self.begin_ready()
                self.end_ended()
                self.progress.standing(self.standing)
                time.sleep(0.1)
        finally:
            self.stop()

    def begin_ready(self) -> None:
        ready = self.ready()
        while ready and self.places() > 0:
            crate = ready.pop(0)
            room = self.machine.megabytes - sum(it.jobs * self.costs[it.crate.name].megabytes for it in self.running)
            is_held_up = self.costs[crate.name].megabytes > room or crate.name in self.alone
            if self.running and (is_held_up or self.running[0].crate.name in self.alone):
                return
            is_idle = self.places() > 1 + len(ready)
            holds_two = 2 * self.costs[crate.name].megabytes <= room and crate.name not in self.alone
            self.begin(crate, 2 if is_idle and holds_two else 1)

    def places(self) -> int:
        """Returns how many processors nothing is proved on."""
        return self.machine.processors - sum(it.jobs for it in self.running)

    def ready(self) -> List[Crate]:
        """Returns the crates that could be begun, the longest chain first."""
        found = [it for it in self.waiting() if self.done.issuperset(it.crates)]
        return sorted(found, key=lambda it: -self.chains[it.name])

    def waiting(self) -> List[Crate]:
        begun = self.done | {it.crate.name for it in self.running}
        return [it for it in self.order if it.name not in begun]

    def begin(self, crate: Crate, jobs: int) -> None:
        out = crate.folder / "out"
        shutil.rmtree(crate.folder / KEPT, ignore_errors=True)
        (crate.folder / KEPT).mkdir(parents=True)
        words = self.toolchain.proof(crate, below(crate, self.order), jobs)
        with open(out / "build.log", "wb") as log:
            process = self.command(words, crate, log)
        self.running.append(Proof(crate, jobs, process, time.monotonic()))
        self.progress.line(f"{self.so_far()}: begun {crate.name}")

    def command(self, words: List[str], crate: Crate, log: IO[bytes]) -> "subprocess.Popen[bytes]":
        # a separate session: what a terminal sends reaches this build alone, which then ends all that it began
        return subprocess.Popen(
            words,
            cwd=crate.folder,
            stdin=subprocess.DEVNULL,
            stdout=log,
            stderr=subprocess.STDOUT,
            start_new_session=True,
            preexec_fn=end_with_parent,
        )

    def end_ended(self) -> None:
        for proof in [*self.running]:
            pid, status, used = os.wait4(proof.process.pid, os.WNOHANG)
            if pid:
                self.running.remove(proof)
                proof.process.returncode = -os.WTERMSIG(status) if os.WIFSIGNALED(status) else os.WEXITSTATUS(status)
                self.end(proof, used.ru_utime + used.ru_stime, used.ru_maxrss // 1024)

    def end(self, proof: Proof, processor: float, megabytes: int) -> None:
        """Records a proof that ended by itself, after this many seconds of processor time."""
        crate, seconds = proof.crate, time.monotonic() - proof.began
        if proof.process.returncode == -signal.SIGKILL and crate.name not in self.alone:
            self.alone.add(crate.name)
            self.progress.line(f"{crate.name} was killed, most likely for memory: once more, with nothing beside it")
            return
        if proof.process.returncode:
            raise Failed(f"{crate.name} isn't proved; crates/{crate.name}/out/build.log ends so:\n{self.log_end(crate)}")
        if crate.is_program:
            self.link(crate)
        if digest(crate, self.sums, self.toolchain.version) != self.sums[crate.name]:
            raise Failed(f"the sources of {crate.name} changed while it was proved: call ./build again")
        self.keep(crate)
        self.done.add(crate.name)
        self.table_seconds += self.costs[crate.name].seconds
        self.measured_seconds += seconds
        taken = f"{seconds:.0f} s, {processor:.0f} s of processor time, {megabytes} MB"
        self.progress.line(f"{self.so_far()}: proved {crate.name} in {taken}")

    def link(self, crate: Crate) -> None:
        """Links the program, which takes the place of an older one at once."""
        with open(crate.folder / "out/build.log", "ab") as log:
            status = self.command(self.toolchain.link(crate), crate, log).wait()
        if status:
            raise Failed(f"{crate.name} is proved, but not linked:\n{self.log_end(crate)}")
        os.replace(crate.folder / "out" / f"{crate.name}.new", crate.program)

    def stop(self) -> None:
        """Ends the proofs that are under way."""
        for number in (signal.SIGTERM, signal.SIGKILL):
            for proof in self.running:
                try:
                    os.killpg(proof.process.pid, number)
                except ProcessLookupError:
                    pass
            until = time.monotonic() + SECONDS_TO_END
            while any(it.process.poll() is None for it in self.running) and time.monotonic() < until:
                time.sleep(0.05)
        self.running = []

    # What is said of them

    def so_far(self) -> str:
        minutes = (time.monotonic() - self.began) / 60
        return f"{minutes:.1f} min, {len(self.done)} of {len(self.order)} proved, {time_to_go(self.seconds_to_go())}"

    def standing(self) -> str:
        now = time.monotonic()
        return f"{self.so_far()}: " + ", ".join(f"{it.crate.name} {now - it.began:.0f} s" for it in self.running)

    def seconds_to_go(self) -> float:
        elapsed = {it: time.monotonic() - it.began for it in self.running}
        whole = {it: self.costs[it.crate.name].seconds for it in self.running}
        # what takes longer than the table says counts before it is done
        late = [it for it in self.running if elapsed[it] > whole[it]]
        speed = pace(
            self.table_seconds + sum(whole[it] for it in late), self.measured_seconds + sum(elapsed[it] for it in late)
        )
        left = {it.name: speed * self.costs[it.name].seconds for it in self.waiting()}
        for it in self.running:
            left[it.crate.name] = still_to_go(speed * whole[it], elapsed[it])
        running = {it.crate.name for it in self.running}
        return seconds_to_go(self.order, self.costs, left, running, self.machine.processors)

    def log_end(self, crate: Crate, lines: int = 15) -> str:
        text = (crate.folder / "out/build.log").read_text(encoding="utf-8", errors="replace")
        return "\n".join(text.splitlines()[-lines:])
