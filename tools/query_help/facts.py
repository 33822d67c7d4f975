"""What `marple-tools facts` says of a query: docs/marple-tools.1 has each name."""

import json
import os
import subprocess
import sys
from pathlib import Path
from typing import Any

VERSION = 1
Fact = dict[str, Any]


def tools_of(folder: Path, program: str) -> str:
    """The program marple-tools: the one that the environment names, or one beside marple, or beside the script."""
    here = Path(program).resolve()
    places = [here.with_name("marple-tools"), *(top / "marple_tools/out/marple_tools" for top in here.parents[2:3])]
    found = next((place for place in places if os.access(place, os.X_OK)), folder / "marple-tools")
    return os.environ.get("MARPLE_TOOLS") or str(found)


def ask(program: str, query: str) -> Fact:
    """The facts of the query in a file. What a launcher says while it builds the program goes on to standard error."""
    try:
        done = subprocess.run([program, "facts", query], stdin=subprocess.DEVNULL, stdout=subprocess.PIPE, check=False)
    except OSError as fault:
        sys.exit(f"explain: cannot run {program}: {fault.strerror}")
    try:
        facts: Fact = json.loads(done.stdout)
    except ValueError:
        sys.exit(f"explain: {program} ended with status {done.returncode} and said nothing of {query}")
    if facts.get("marple_facts") != VERSION:
        sys.exit(f"explain: {program} says version {facts.get('marple_facts')} of the facts, and this reads {VERSION}")
    return facts


def named(facts: list[Fact], name: str) -> Fact:
    """The one of these that has the name, which is there."""
    return next(one for one in facts if one["name"] == name)


def names_of(facts: list[Fact]) -> list[str]:
    return [one["name"] for one in facts]
