"""A copy of what is installed, with a program that stands in for the proved one, for the tests of ./install and tools/package."""

from __future__ import annotations

import os
import shutil
import subprocess
from pathlib import Path

import checks
from checks import TOP, put

VERSION = (TOP / "VERSION").read_text().strip()
# Of a query with two bytes the programs say that its first name isn't known.
FACTS = """{"marple_facts": 1, "fields": ["tin"], "items": [{"kind": "print", "operator": "print", "name": "it", "start": 0, "end": 2}],
"fault": {"kind": "UnknownName", "start": 0, "end": 2, "item": 0, "place": "printed", "expected": [], "names": [], "missing": []}}"""
PROGRAM = f"""#!/bin/sh
case $1 in
plan)
    echo "marple: query: UnknownName at 0" >&2
    exit 4
    ;;
facts) echo '{FACTS}' ;;
*) echo "program with $*" ;;
esac
"""
FOLDERS = ("docs", "examples", "python", "tools")
FILES = ("install", "explain", "README.md", "CHANGES.md", "VERSION")


def below(folder: Path) -> dict[str, bytes]:
    """All that is below a folder, with what is in the files."""
    return {str(it.relative_to(folder)): it.read_bytes() if it.is_file() else b"" for it in sorted(folder.rglob("*"))}


class Tree(checks.Test):
    """A copy of what is installed."""

    def setUp(self) -> None:
        self.room = self.new_folder()
        self.tree, self.prefix = self.room / "a tree", self.room / "prefix"
        for name in FOLDERS:
            shutil.copytree(TOP / name, self.tree / name, ignore=shutil.ignore_patterns("__pycache__"))
        for name in FILES:
            shutil.copy2(TOP / name, self.tree / name)
        put(self.tree / "crates.txt", "marple:\nmarple_tools:\n")
        for name in ("marple", "marple_tools"):
            put(self.tree / f"crates/{name}/src/main.rt", "main\n")
            put(self.tree / f"crates/{name}/out/{name}", PROGRAM, executable=True)
        self.program = self.tree / "crates/marple/out/marple"
        # another program that the environment names isn't the one that was installed
        self.environment = {name: value for name, value in os.environ.items() if name not in ("MARPLE", "MARPLE_TOOLS")}
        self.environment["PATH"] = f"{self.prefix}/bin:/usr/local/bin:/usr/bin:/bin"
        self.environment["HOME"] = str(self.room / "home")
        (self.room / "home").mkdir()

    def run_in(self, folder: Path, *words: object) -> tuple[int, str, str]:
        settings = {"cwd": folder, "env": self.environment}
        done = subprocess.run([str(it) for it in words], capture_output=True, text=True, check=False, **settings)
        return done.returncode, done.stdout, done.stderr
