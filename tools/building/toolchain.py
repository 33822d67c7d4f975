"""The toolchain's commands that prove a crate and build the program.

They are those of `rattle build --help` and `rattle-link --help`, which rt calls too. rt itself takes one crate at a time: it
locks all crates below the one that it works in, and reads these once for each way that crates.txt gives to them.
"""

from __future__ import annotations

import shutil
import subprocess
from pathlib import Path
from typing import List

from building.crates import Crate, with_those_below

MISSING = (
    "rt isn't on this machine's PATH: it is the command of the Rattle toolchain (rattle-kit-13f or rattle-kit-13b), "
    "in the folder bin of the toolchain"
)
# What the compiler is called with.
FLAGS = "--crate-name --extern -L --antt-project --logic-built --incremental --statements --links --jobs --toolchain --backend".split()
# What a proved library leaves for the crates above it, below the crate's folder: its statements, and not its proofs.
KEPT = "out/rlib/build"
# What a check keeps, below the folder in which it runs.
INCREMENTAL = "out/incremental"
TARGET = "x86_64-unknown-linux-gnu"


class Missing(Exception):
    """The toolchain isn't there, or isn't one that this build knows."""


def said_by(*words: str) -> str:
    """Returns what a command of the toolchain writes."""
    try:
        ran = subprocess.run(words, stdin=subprocess.DEVNULL, stdout=subprocess.PIPE, check=True)
    except (OSError, subprocess.CalledProcessError) as error:
        raise Missing(f"{' '.join(words)} failed: {error}") from error
    return ran.stdout.decode(errors="replace")


class Toolchain:
    """The folder of the toolchain, and the commands for a crate."""

    def __init__(self) -> None:
        if not shutil.which("rt"):
            raise Missing(MISSING)
        self.version = said_by("rt", "version").strip()
        self.folder = Path(said_by("rt", "doc").strip()).parent
        known = said_by(f"{self.folder}/bin/rattle", "build", "--help").split()
        lacking = [it for it in FLAGS if it not in known]
        if lacking:
            raise Missing(
                f"the compiler of {self.version} has no {', '.join(lacking)}: "
                "`rt all check`, and then `rt run` in crates/marple, prove and build the program too"
            )

    def proof(self, crate: Crate, below: List[Crate], jobs: int = 1) -> List[str]:
        """Returns the command that proves the crate with so many jobs and, only then, writes its library or its object file."""
        words = [f"{self.folder}/bin/rattle", "build", "--crate-name", crate.name, crate.root]
        for name in ("std", *crate.libraries):
            words += ["--extern", f"{name}={self.folder}/rlibs/{name}.rlib"]
        words += ["-L", f"dependency={self.folder}/rlibs"]
        named = {it.name: it for it in below}
        for name in crate.crates:
            words += ["--extern", f"{name}={named[name].folder}/{KEPT}/{name}.rlib"]
        for it in below:
            words += ["-L", f"dependency={it.folder}/{KEPT}"]
        words += ["--antt-project", f"{self.folder}/rattle/logic/antt-project.json"]
        # with no label: the crate is refused if it calls C itself
        words += ["--logic-built", f"{self.folder}/logic_built", "--links", f"{crate.name}=", "--jobs", str(jobs)]
        if crate.is_program:
            words += ["--toolchain", f"{self.folder}/toolchain", "--backend", "llvm", "-o", f"out/{crate.name}.o"]
        else:
            words += ["--statements", "-o", f"{KEPT}/{crate.name}.rlib"]
        return words

    def check(self, crate: Crate, below: List[Crate]) -> List[str]:
        """Returns the command that checks the crate and writes no library. It keeps what it proved in the folder INCREMENTAL, and
        takes from there what is still up to date."""
        words = self.proof(crate, below)
        end = words.index("--toolchain" if crate.is_program else "--statements")
        return [words[0], "check", *words[2:end], "--incremental", INCREMENTAL]

    def link(self, crate: Crate) -> List[str]:
        """Returns the command that links the program's object file, to out/NAME.new."""
        words = [f"{self.folder}/bin/rattle-link", "--target", TARGET, "--toolchain", f"{self.folder}/toolchain"]
        words += ["-o", f"out/{crate.name}.new", f"out/{crate.name}.o"]
        return [*words, f"{self.folder}/c/libos_c.a", f"{self.folder}/c/liblibc_c.a"]


def below(crate: Crate, order: List[Crate]) -> List[Crate]:
    """Returns the crates below this one, each after those that it names."""
    return with_those_below(crate.name, order)[:-1]
