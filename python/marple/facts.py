"""What `marple-tools facts` says of a query: docs/marple-tools.1 has each name."""

import json
from typing import Any, Optional

from marple.faults import ProgramFailed
from marple.program import Program, call_tools
from marple.sources import Deadline, written

VERSION = 1
Fact = dict[str, Any]


def facts_of(text: bytes, *, program: Optional[Program] = None, deadline: Optional[Deadline] = None) -> Fact:
    """The facts of a query's text. Raises ProgramMissing, ProgramFailed, TimedOut, OutOfMemory."""
    with written(text) as path:
        said = call_tools(["facts", path], program=program, deadline=deadline).output
    try:
        facts: Fact = json.loads(said)
    except ValueError as fault:
        raise ProgramFailed(f"marple-tools said no facts: {fault}") from None
    if facts.get("marple_facts") != VERSION:
        raise ProgramFailed(f"marple-tools says version {facts.get('marple_facts')} of the facts, and this reads {VERSION}")
    return facts


def tables_of(facts: Fact) -> dict[str, Fact]:
    """The groupbys and then the finals of an accepted query, by their names, each in the order of the text."""
    return {one["name"]: one for one in (*facts["groupbys"], *facts["finals"])}


def keys_of(table: Fact) -> tuple[str, ...]:
    """The names of the keys of a groupby, or of a final, whose first columns they are."""
    if "columns" in table:
        return tuple(table["columns"][: table["keys"]])
    return tuple(key["name"] for key in table["keys"])
