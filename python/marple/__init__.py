"""marple from Python: its commands, its tables, and traces larger than one run.

    import marple
    answer = marple.run("loss.query", "trace.csv", buckets=4096)
    print(answer["loss"])
    answer["loss"].to_pandas(addresses=True)

`marple.parts.run` runs a query over traces of any size, in parts, also on a cluster. docs/PYTHON.md says more.
"""

import logging
import sys

if sys.version_info < (3, 10):
    raise ImportError(
        "marple needs Python 3.10 or later; this is Python %d.%d, %s" % (*sys.version_info[:2], sys.executable)
    )

from marple.commands import compile, enclose, gen, net, plan, run, run_plan
from marple.faults import (
    InputError,
    MarpleError,
    OutOfMemory,
    OutputError,
    ProgramFailed,
    ProgramMissing,
    QueryRefused,
    TimedOut,
    TraceRefused,
    UsageError,
)
from marple.finals import KeysLeftOut
from marple.plans import Groupby, Plan
from marple.program import find_program
from marple.tables import Answer, Mark, Table, TableFault, View, read_tables, tables_of_file
from marple.version import __version__

__all__ = [
    "Answer", "Groupby", "InputError", "KeysLeftOut", "Mark", "MarpleError", "OutOfMemory", "OutputError", "Plan",
    "ProgramFailed", "ProgramMissing", "QueryRefused", "Table", "TableFault", "TimedOut", "TraceRefused", "UsageError",
    "View", "__version__", "compile", "enclose", "find_program", "gen", "net", "plan", "read_tables", "run", "run_plan",
    "tables_of_file",
]

# What the package does is told to the logger `marple`: calls at DEBUG, what the program says besides at INFO.
logging.getLogger("marple").addHandler(logging.NullHandler())
