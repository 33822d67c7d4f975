"""The program's statuses as exceptions."""

import re


class MarpleError(Exception):
    """An answer of the program other than 0."""

    status = 1


class ProgramMissing(MarpleError):
    """There is no program to run."""


class ProgramFailed(MarpleError):
    """The program ended in a way that marple doesn't define, as by a signal."""


class OutOfMemory(MarpleError):
    """The program ran out of memory."""


class TimedOut(MarpleError):
    """The call took longer than its timeout; the program was ended."""


class UsageError(MarpleError):
    """The program doesn't take these words, as an option out of its bounds."""

    status = 2


class InputError(MarpleError):
    """The query, the plan or the trace can't be read."""

    status = 3


class OutputError(MarpleError):
    """The program can't write."""

    status = 6


class QueryRefused(MarpleError):
    """The query, or the plan's text, is refused.

    kind: the fault, as `UnknownName` or `OverLimit(nodes)`; offset: the byte where it stands, from 0; line, column: the
    same place, both counted from 1, the column in bytes; shown: the line with a caret below the place; remedy: what to
    do, as ./explain says it, or nothing.
    """

    status = 4

    def __init__(self, kind: str, offset: int, query: bytes, remedy: str = ""):
        self.kind, self.offset, self.remedy = kind, offset, remedy
        before = query[:offset]
        start = before.rfind(b"\n") + 1
        end = query.find(b"\n", offset)
        text = query[start : end if end >= 0 else len(query)]
        self.line, self.column = before.count(b"\n") + 1, offset - start + 1
        indent = re.sub(r"[^\t]", " ", before[start:].decode(errors="replace"))
        self.shown = f"{text.decode(errors='replace')}\n{indent}^"
        super().__init__(kind, offset, query, remedy)

    def __str__(self) -> str:
        place = f"query: {self.kind} at {self.offset}, line {self.line}, column {self.column}:\n{self.shown}"
        return f"{place}\n{self.remedy}" if self.remedy else place


class TraceRefused(MarpleError):
    """The trace is refused.

    fault: its name, as `BadNumber`; record: the number of the data record from 1, or None; field: the field's name, or
    None; path: the file, if it is known; why: of a DataFrame, the column, its type, the row and what its value lacks.
    """

    status = 5

    def __init__(
        self, fault: str, record: int | None = None, field: str | None = None, path: str | None = None, why: str = ""
    ):
        self.fault, self.record, self.field, self.path, self.why = fault, record, field, path, why
        super().__init__(fault, record, field, path, why)

    def __str__(self) -> str:
        place = f" in {self.path}" if self.path else ""
        return f"trace: {self.shown}{place}" + (f": {self.why}" if self.why else "")

    @property
    def shown(self) -> str:
        """The fault as the program writes it, as `BadNumber(2,tin)`."""
        parts = [str(part) for part in (self.record, self.field) if part is not None]
        return f"{self.fault}({','.join(parts)})" if parts else self.fault


QUERY = re.compile(r"marple: query: (\w+(?:\(\w+\))?) at (\d+)\n")
TRACE = re.compile(r"marple: trace: (\w+)(?:\((?:(\d+))?,?([a-z]\w*)?\))?\n")
PLAIN = {1: OutOfMemory, 2: UsageError, 3: InputError, 6: OutputError}


def refusal_of(status: int, complaint: str, query: bytes = b"") -> MarpleError:
    """The exception that says what the program's status and complaint say."""
    text = complaint.strip().removeprefix("marple: ") or f"status {status}"
    if status == 4 and (found := QUERY.search(complaint)):
        return QueryRefused(found[1], int(found[2]), query)
    if status == 5 and (found := TRACE.search(complaint)):
        return TraceRefused(found[1], int(found[2]) if found[2] else None, found[3])
    if status in PLAIN and complaint.startswith("marple: "):
        return PLAIN[status](text)
    return ProgramFailed(f"the program ended with status {status}: {text}")
