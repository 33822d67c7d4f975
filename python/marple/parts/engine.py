"""Where tasks run: in this process, in others of this machine, or on a Dask cluster."""

import importlib
import logging
from collections.abc import Iterable, Iterator
from contextlib import contextmanager
from typing import Any, Protocol

from marple.parts.options import check_option
from marple.parts.processes import Call, Counted, Task, Workers
from marple.parts.refusals import ClusterLost, OptionRefused, WorkerDied


class Engine(Protocol):
    """Runs tasks."""

    places: int

    def each(self, task: Task, calls: Iterable[Call], counted: Counted) -> list[Any]:
        """What the task gives for each of these argument lists, in their order."""


class Here:
    """Runs tasks in turn, in this process."""

    places = 1

    def each(self, task: Task, calls: Iterable[Call], counted: Counted) -> list[Any]:
        whole, results = list(calls), []
        for call in whole:
            results.append(task(*call))
            counted(len(results), len(whole))
        return results


class OnCluster:
    """Runs tasks on the workers of a Dask cluster."""

    def __init__(self, client: Any):
        self.client = client
        self.places = max(1, sum(client.nthreads().values()))

    def each(self, task: Task, calls: Iterable[Call], counted: Counted) -> list[Any]:
        try:
            return self._each(task, list(calls), counted)
        except Exception as fault:
            if self.client.status != "running":
                raise ClusterLost("the scheduler has ended, or was left") from fault
            raise

    def _each(self, task: Task, calls: list[Call], counted: Counted) -> list[Any]:
        dask: Any = importlib.import_module("distributed")
        # Not pure: what a task gives also depends on files, which an earlier run of the same call may have left
        # otherwise.
        futures = [self.client.submit(task, *call, pure=False) for call in calls]
        try:
            for done, future in enumerate(dask.as_completed(futures), 1) if futures else ():
                future.result()
                counted(done, len(futures))
            return [future.result() for future in futures]
        except dask.KilledWorker as fault:
            raise WorkerDied(f"a task ended each worker that it was given to: {fault}") from fault
        finally:
            if self.client.status == "running":
                self.client.cancel(futures)


@contextmanager
def cluster_at(address: str) -> Iterator[Any]:
    """A client of the scheduler that runs at this address, of which nothing is logged."""
    logging.disable()
    try:
        dask: Any = importlib.import_module("distributed")
    except ImportError as missing:
        raise ImportError(
            "clusters need Dask: install python3-dask and python3-distributed (Debian), or pip install distributed"
        ) from missing
    try:
        client = dask.Client(address)
    except (OSError, ValueError) as fault:
        raise ClusterLost(f"no scheduler answers at {address}") from fault
    with client:
        yield client


@contextmanager
def engine_of(workers: int | None, client: Any) -> Iterator[Engine]:
    """The engine of this many processes, or of a Dask client; this process if both are None."""
    check_option("workers", workers)
    if workers is not None and client is not None:
        raise OptionRefused("tasks run either by workers of this machine or by a client's")
    if workers is None:
        if client is None:
            yield Here()
        else:
            yield OnCluster(client)
        return
    engine = Workers(workers)
    try:
        yield engine
    finally:
        engine.close()
