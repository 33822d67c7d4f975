"""Tasks in processes of this machine, which end with the one that asks."""

import multiprocessing
import os
import resource
import signal
import threading
import time
from collections.abc import Callable, Iterable
from contextlib import suppress
from dataclasses import dataclass
from multiprocessing.connection import Connection, wait
from multiprocessing.process import BaseProcess
from typing import Any, cast

from marple.parts.refusals import WorkerDied
from marple.parts.stopping import SIGNALS

Task = Callable[..., Any]
Call = tuple[Any, ...]  # the arguments of a task
Counted = Callable[[int, int], None]  # how many tasks are done, and how many there are


@dataclass(frozen=True)
class _Worker:
    """A process, and the pipe to it. It leads a group, which has the program too that it runs."""

    process: BaseProcess
    pipe: Connection

    @property
    def pid(self) -> int:
        return cast(int, self.process.pid)  # it was begun

    def kill(self) -> None:
        """Ends the process, if it still runs, and all that it began."""
        with suppress(ProcessLookupError, PermissionError):
            os.killpg(self.pid, signal.SIGKILL)
        self.process.kill()
        self.process.join()
        self.pipe.close()

    def died(self) -> WorkerDied:
        """The exception that says how the process ended."""
        self.process.join(1)
        status = self.process.exitcode
        how = f"by signal {-status}" if status is not None and status < 0 else f"with status {status}"
        return WorkerDied(f"a worker ended {how} before its task was done: a second call with the same folder goes on there")


class Workers:
    """Runs tasks in this many processes. peak: the most memory that one of them had, in KiB."""

    def __init__(self, number: int):
        self.places, self.peak = number, 0
        self._workers: list[_Worker] = []

    def each(self, task: Task, calls: Iterable[Call], counted: Counted) -> list[Any]:
        """What the task gives for each of these argument lists, in their order. After an exception no process runs."""
        try:
            return self._each(task, list(calls), counted)
        except BaseException:
            self.close()
            raise

    def close(self) -> None:
        """Ends the processes, and what they do."""
        while self._workers:
            self._workers[-1].kill()
            self._workers.pop()

    def _each(self, task: Task, calls: list[Call], counted: Counted) -> list[Any]:
        while len(self._workers) < min(self.places, len(calls)):
            self._workers.append(_begun())
        results: list[Any] = [None] * len(calls)
        waiting, free, done = list(range(len(calls)))[::-1], list(self._workers), 0
        busy: dict[Connection, tuple[_Worker, int]] = {}
        while done < len(calls):
            while free and waiting:
                worker, number = free.pop(), waiting.pop()
                busy[worker.pipe] = worker, number
                _hand_over(worker, (task, calls[number]))
            for pipe in wait(list(busy)):
                worker, number = busy.pop(cast(Connection, pipe))
                results[number] = self._answer(worker)
                free.append(worker)
                done += 1
                counted(done, len(calls))
        return results

    def _answer(self, worker: _Worker) -> Any:
        try:
            given, raised, peak = worker.pipe.recv()
        except (EOFError, OSError):
            raise worker.died() from None
        self.peak = max(self.peak, peak)
        if raised is not None:
            raise raised
        return given


def _begun() -> _Worker:
    """A new process, which waits for tasks."""
    context = multiprocessing.get_context("fork")
    ours, theirs = context.Pipe()
    process = context.Process(target=_work, args=(theirs, ours, os.getpid()), daemon=True)
    process.start()
    theirs.close()
    worker = _Worker(process, ours)
    with suppress(ProcessLookupError, PermissionError):
        os.setpgid(worker.pid, worker.pid)
    return worker


def _hand_over(worker: _Worker, call: tuple[Task, Call]) -> None:
    try:
        worker.pipe.send(call)
    except OSError:
        raise worker.died() from None


def _work(pipe: Connection, theirs: Connection, asking: int) -> None:
    """Does tasks until there are no more."""
    theirs.close()
    with suppress(PermissionError):
        os.setpgid(0, 0)
    for number in SIGNALS:
        signal.signal(number, signal.SIG_DFL)
    threading.Thread(target=_end_with, args=(asking,), daemon=True).start()
    while True:
        try:
            task, arguments = pipe.recv()
        except EOFError:
            return
        pipe.send(_done(task, arguments))


def _done(task: Task, arguments: Call) -> tuple[Any, Exception | None, int]:
    """What a task gives, or the exception that it raises; and the peak of this process."""
    given, raised = None, None
    try:
        given = task(*arguments)
    except Exception as fault:
        raised = fault
    return given, raised, resource.getrusage(resource.RUSAGE_SELF).ru_maxrss


def _end_with(asking: int) -> None:
    """Ends this process and what it began when the one that asks has ended."""
    while os.getppid() == asking:
        time.sleep(1)
    os.killpg(0, signal.SIGKILL)
