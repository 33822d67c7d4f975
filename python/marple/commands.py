"""The program's commands as calls."""

from collections.abc import Iterator, Mapping
from contextlib import contextmanager
from typing import Optional

from marple.facts import facts_of
from marple.faults import InputError, MarpleError, OutOfMemory, QueryRefused, TraceRefused
from marple.finals import Asking, asking
from marple.options import told, whole, words_of
from marple.plans import Plan, read_plan
from marple.program import Program, call
from marple.remedies import with_remedy
from marple.sources import Deadline, Query, Trace, TraceFile, text_of_query, trace_file, unreadable, written
from marple.tables import Answer, read_tables

__all__ = [
    "Query", "Trace", "asked", "compile", "enclose", "gen", "net", "plan", "query_text", "run", "run_plan", "words_of",
]
Given = Mapping[str, Optional[int]]


def run(
    query: Optional[Query] = None, trace: Trace = None, *, query_text: Optional[str] = None, buckets: Optional[int] = None,
    ways: Optional[int] = None, pipe: Optional[int] = None, lag: Optional[int] = None, refresh: Optional[int] = None,
    every: Optional[int] = None, program: Optional[Program] = None, timeout: Optional[float] = None,
) -> Answer:  # fmt: skip
    """The tables of the query over the packets of the trace; with `every` also its views.

    query: the path of a query (str or os.PathLike), or its text as bytes; query_text: its text as a str, in place of
    query. trace: a path, whose file is unpacked if gzip packed it; the bytes of a trace; an open file, read from its
    place on; or a DataFrame, of pandas or with the interchange protocol, whose columns are named as the fields, in
    pandas also the levels of its index: numbers are whole, addresses numbers or texts as 10.0.0.1, times in the unit
    that the trace has (those with a time zone in nanoseconds since 1970), and a packet without `tout` was dropped.

    buckets and ways: of the cache, in sets and in keys for each; pipe: how many evicted keys wait for the store; lag:
    how many packets pass while one is stored; refresh: after how many packets the caches are emptied; every: after how
    many packets there is a view. Those that aren't given are the program's defaults (docs/FORMATS.md).
    program: another program than the one that find_program finds. timeout: of the whole call, in seconds.

    Raises QueryRefused, TraceRefused, OutOfMemory, UsageError (an option out of its bounds), InputError (a file that
    can't be read), ProgramMissing, ProgramFailed, TimedOut; TypeError where an argument is of another type. Warns of
    KeysLeftOut where a final lacks keys.
    """
    given = {"buckets": buckets, "ways": ways, "pipe": pipe, "lag": lag, "refresh": refresh, "every": every}
    return _tables("run", text_of_query(query, query_text, deadline=(end := Deadline(timeout))), trace, given, program, end)


def net(
    query: Optional[Query] = None, trace: Trace = None, *, query_text: Optional[str] = None, buckets: Optional[int] = None,
    ways: Optional[int] = None, pipe: Optional[int] = None, lag: Optional[int] = None, program: Optional[Program] = None,
    timeout: Optional[float] = None,
) -> Answer:  # fmt: skip
    """The tables of the query, where each switch has separate caches. Otherwise as `run`."""
    given = {"buckets": buckets, "ways": ways, "pipe": pipe, "lag": lag}
    return _tables("net", text_of_query(query, query_text, deadline=(end := Deadline(timeout))), trace, given, program, end)


def enclose(
    query: Optional[Query] = None, trace: Trace = None, *, query_text: Optional[str] = None, buckets: Optional[int] = None,
    ways: Optional[int] = None, pipe: Optional[int] = None, lag: Optional[int] = None, refresh: Optional[int] = None,
    program: Optional[Program] = None, timeout: Optional[float] = None,
) -> Answer:  # fmt: skip
    """The tables of the query, where a fold that isn't linear shows bounds. Otherwise as `run`."""
    given = {"buckets": buckets, "ways": ways, "pipe": pipe, "lag": lag, "refresh": refresh}
    text = text_of_query(query, query_text, deadline=(end := Deadline(timeout)))
    return _tables("enclose", text, trace, given, program, end)


def run_plan(
    plan: Optional[Query] = None, trace: Trace = None, *, plan_text: Optional[str] = None, buckets: Optional[int] = None,
    ways: Optional[int] = None, pipe: Optional[int] = None, lag: Optional[int] = None, refresh: Optional[int] = None,
    program: Optional[Program] = None, timeout: Optional[float] = None,
) -> Answer:  # fmt: skip
    """The tables of a plan: the path of its file, its text as bytes, or plan_text. Otherwise as `run`."""
    given = {"buckets": buckets, "ways": ways, "pipe": pipe, "lag": lag, "refresh": refresh}
    text = text_of_query(plan, plan_text, "plan", (end := Deadline(timeout)))
    with _files(text, trace, end) as (path, packets), _refusals("run-plan", given, text, program, packets):
        words = ["run-plan", path, packets.path, *words_of(given)]
        return read_tables(call(words, program=program, query=text, deadline=end).output)


def plan(
    query: Optional[Query] = None, *, query_text: Optional[str] = None, ways: Optional[int] = None,
    program: Optional[Program] = None, timeout: Optional[float] = None,
) -> Plan:  # fmt: skip
    """The stages of the query and its groupbys; query, query_text, program, timeout and what it raises as at `run`."""
    text, given = text_of_query(query, query_text, deadline=(end := Deadline(timeout))), {"ways": ways}
    with written(text) as path, _refusals("plan", given, text, program):
        done = call(["plan", path, *words_of(given)], program=program, query=text, deadline=end)
    return read_plan(done.output.decode("ascii"))


def compile(
    query: Optional[Query] = None, *, query_text: Optional[str] = None, program: Optional[Program] = None,
    timeout: Optional[float] = None,
) -> str:  # fmt: skip
    """The plan of the query as a text; the arguments and what it raises as at `run`."""
    text = text_of_query(query, query_text, deadline=(end := Deadline(timeout)))
    with written(text) as path, _refusals("compile", {}, text, program):
        return call(["compile", path], program=program, query=text, deadline=end).output.decode("ascii")


def gen(packets: int, start: int, *, program: Optional[Program] = None, timeout: Optional[float] = None) -> bytes:
    """A trace of this many pseudo-random packets, drawn from this start; raises UsageError, and what `run` raises."""
    with _refusals("gen", {"packets": packets, "start": start}, b"", program):
        words = ["gen", whole("packets", packets), whole("start", start)]
        return call(words, program=program, deadline=Deadline(timeout)).output


@contextmanager
def _files(text: bytes, trace: Trace, deadline: Deadline) -> Iterator[tuple[str, TraceFile]]:
    """The files of a query's text and of a trace."""
    with written(text) as path, trace_file(trace, deadline) as packets:
        yield path, packets


@contextmanager
def _refusals(
    command: str, given: Given, text: bytes, program: Optional[Program], packets: Optional[TraceFile] = None
) -> Iterator[None]:
    """Refusals in this block say what they are about."""
    try:
        yield
    except QueryRefused as refused:
        raise with_remedy(refused, text, program) from None
    except TraceRefused as refused:
        raise (packets.explain(refused) if packets else refused) from None
    except InputError as refused:
        raise (unreadable(packets) if packets else refused) from None
    except MarpleError as refused:
        raise told(refused, command, given) from None


def _tables(
    command: str, text: bytes, trace: Trace, given: Given, program: Optional[Program], deadline: Deadline
) -> Answer:
    words = words_of(given)
    with _files(text, trace, deadline) as (path, packets), _refusals(command, given, text, program, packets):
        ask = asking(text, lambda: facts_of(text, program=program, deadline=deadline))
        output = None
        if ask.more:
            output = _with_more(ask, [command, packets.path, *words], program, deadline)
        if output is None:
            ask = ask.without_more()
            output = call([command, path, packets.path, *words], program=program, query=text, deadline=deadline).output
    return ask.answer(read_tables(output, ask.keys))


def asked(text: bytes, program: Optional[Program]) -> tuple[bytes, Asking]:
    """The query that is to be run so that its finals can say what they lack, and how its answer is told."""
    ask = asking(text, lambda: facts_of(text, program=program))
    if not ask.more:
        return text, ask
    try:
        plan(ask.text, program=program)
    except QueryRefused:
        return text, ask.without_more()
    return ask.text, ask


def _with_more(ask: Asking, words: list[str], program: Optional[Program], deadline: Deadline) -> Optional[bytes]:
    """The output of the query with more prints; None where they are too much: of a text, or for the memory."""
    with written(ask.text) as path:
        try:
            return call([words[0], path, *words[1:]], program=program, query=ask.text, deadline=deadline).output
        except (QueryRefused, OutOfMemory):
            return None


def query_text(query: Query) -> bytes:
    """The text of a query: that of its file, if it is a path, or these bytes. Raises InputError."""
    return text_of_query(query, None)
