"""Traces of any size: split by key into parts, each run by itself, and the tables put together.

    from marple import parts
    answer = parts.run("flows.query", ["monday.csv", "tuesday.csv.gz"], workers=4)
    answer["r"].frame()

docs/SCALING.md says why the tables are those of one run over all traces, and which aren't.
"""

import os
import tempfile
from collections.abc import Callable, Iterable, Iterator, Mapping, Sequence
from contextlib import contextmanager
from typing import Any

from marple.commands import Query, asked
from marple.finals import Asking
from marple.frames import is_frame
from marple.parts.choice import Choice, choose
from marple.parts.engine import Engine, engine_of
from marple.parts.job import Job
from marple.parts.options import check_option
from marple.parts.refusals import (
    ClusterLost,
    CompressionRefused,
    FieldNeeded,
    FieldRefused,
    FinalGroupby,
    FinalOfTop,
    KeyTooLarge,
    OptionRefused,
    PartsRefused,
    TraceChanged,
    WorkerDied,
    WorkTaken,
)
from marple.parts.tasks import Ran
from marple.program import Program, find_program, find_tools
from marple.sources import text_of_query
from marple.tables import Answer, tables_of_file

__all__ = [
    "Choice", "ClusterLost", "CompressionRefused", "FieldNeeded", "FieldRefused", "FinalGroupby", "FinalOfTop",
    "KeyTooLarge", "OptionRefused", "PartsAnswer", "PartsRefused", "TraceChanged", "WorkTaken", "WorkerDied",
    "choose", "run", "tables_file",
]  # fmt: skip

PIECE = 64 << 20
Path = str | os.PathLike[str]
Traces = Path | Iterable[Path]


class PartsAnswer(Answer):
    """The tables over all traces. by: the fields that the parts were made by, none where states add; parts: how many
    runs.
    """

    by: tuple[str, ...] = ()
    parts: int = 0


def run(
    query: Query | None = None, traces: Traces = (), *, query_text: str | None = None, by: str | Sequence[str] | None = None,
    parts: int | None = None, workers: int | None = None, client: Any = None, work: Path | None = None,
    buckets: int | None = None, ways: int | None = None, pipe: int | None = None, lag: int | None = None,
    program: Program | None = None, piece: int = PIECE, report: Callable[[str], None] = lambda line: None,
) -> PartsAnswer:  # fmt: skip
    """The tables of the query over the packets of all traces, in their order, by runs over parts of them.

    query, query_text: as at `marple.run`. traces: a path, or several, each of a file with a header; what is compressed by
    gzip is unpacked first. by: fields to split by, or one field; by default all that the query allows. parts: how many at
    least. workers: how many processes of this machine do the tasks; client: a distributed.Client, whose workers see the
    traces and the folder at the same paths; without either the tasks run in turn here. work: a folder for what is made
    on the way, where a second call with the same arguments goes on; by default one that is deleted at the end.
    The options are those of the program for each part. piece: how many bytes a part has at most if states add, so that
    traces are cut anywhere. report: takes lines of progress. Warns as `marple.run` does. Raises what that raises, where a
    TraceRefused has the file in `path`, and PartsRefused.
    """
    given = {"buckets": buckets, "ways": ways, "pipe": pipe, "lag": lag}
    text, ask = asked(text_of_query(query, query_text), program)
    with folder_of(work) as folder, engine_of(workers, client) as engine:
        joined, choice, runs = tables_file(
            text, traces, by=by, parts=parts, engine=engine, work=folder, sums=work is not None, given=given,
            program=program, piece=piece, report=report,
        )  # fmt: skip
        answer = _answer(ask, joined)
    answer.by, answer.parts = choice.by, len(runs)
    return answer


def _answer(ask: Asking, joined: str) -> PartsAnswer:
    """The tables of a file, which is read as they are: it stays until the last of them goes, also if the folder is deleted."""
    return PartsAnswer(list(ask.answer(tables_of_file(joined, ask.keys)).values()))


def tables_file(
    query: bytes, traces: Traces, *, by: str | Sequence[str] | None, parts: int | None, engine: Engine, work: Path, sums: bool,
    given: Mapping[str, int | None], program: Program | None, piece: int, report: Callable[[str], None],
) -> tuple[str, Choice, list[Ran]]:  # fmt: skip
    """The file of the tables in the folder `work`, the choice of fields, and what the runs gave. sums: whether a later call
    may go on in the folder. Otherwise as `run`.
    """
    check_option("parts", parts)
    check_option("piece", piece)
    program, tools = find_program(program), find_tools(program)
    choice = choose(query, by, program)
    report(f"by {','.join(choice.by)}: {choice.reason}" if choice.by else f"by pieces as they come: {choice.reason}")
    paths = _paths(traces)
    job = Job(query, paths, choice, parts, given, program, tools, engine, os.path.abspath(work), sums, piece, report)
    joined, runs = job.run()
    return joined, choice, runs


def _paths(traces: Traces) -> list[str]:
    """The paths of the traces. Raises TypeError where it is something else, and OptionRefused where there are none."""
    listed: Any = [traces] if isinstance(traces, str | os.PathLike) else traces
    are_paths = isinstance(listed, Iterable) and not is_frame(listed) and not hasattr(listed, "read")
    given = list(listed) if are_paths else [listed]
    if not all(isinstance(path, str | os.PathLike) for path in given):
        raise TypeError(f"traces are a path (str or os.PathLike) or several; not {type(traces).__name__}")
    if not given:
        raise OptionRefused("there is no trace")
    return [os.path.abspath(path) for path in given]


@contextmanager
def folder_of(work: Path | None) -> Iterator[str]:
    """The folder for the work: the one that is named, or one that is deleted at the end."""
    if work is not None:
        yield os.fspath(work)
        return
    with tempfile.TemporaryDirectory(prefix="marple-parts-") as folder:
        yield folder
