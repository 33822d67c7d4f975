"""Finds the program and calls it."""

import logging
import os
import shutil
import signal
import subprocess
import time
from collections.abc import Sequence
from dataclasses import dataclass
from functools import lru_cache
from pathlib import Path
from typing import NoReturn, Optional, Union

from marple.faults import ProgramFailed, ProgramMissing, refusal_of
from marple.places import CHECKOUT
from marple.sources import Deadline

Program = Union[str, "os.PathLike[str]"]
log = logging.getLogger("marple")


def find_program(program: Optional[Program] = None) -> str:
    """The path of the program: the one named here or by the environment's MARPLE, whatever it is; else a proved one,
    that of the checkout that this package stands in or was installed from, or an installed one, on PATH or in
    ~/.local/bin. A path, and a str with a slash, is that file; another str is a name on PATH.

    A proved program is looked for once per process. Raises ProgramMissing, which names all places.
    """
    named = program if program is not None else os.environ.get("MARPLE")
    return _proved("marple") if named is None or named == "" else _named(named)


def find_tools(program: Optional[Program] = None) -> str:
    """The path of marple-tools: the one named by the environment's MARPLE_TOOLS, whatever it is; else, if a program is
    named, the one beside that, in its folder or its checkout; else a proved one, as for `find_program`.

    Raises ProgramMissing, which names all places.
    """
    named = os.environ.get("MARPLE_TOOLS")
    if named:
        return _named(named)
    if program is not None or os.environ.get("MARPLE"):
        beside = Path(find_program(program))
        for place in (beside.with_name("marple-tools"), *(built_in(top, "marple-tools") for top in beside.parents[3:4])):
            if place.is_file() and os.access(place, os.X_OK):
                return str(place)
    return _proved("marple-tools")


def _named(named: Program) -> str:
    if isinstance(named, str) and os.sep not in named:
        found = shutil.which(named)
        if found is None:
            raise ProgramMissing(f"there is no program {named} on PATH")
        return os.path.abspath(found)
    path = os.path.abspath(os.fspath(named))
    if not os.path.isfile(path):
        raise ProgramMissing(f"{path} is no program that can be run: there is no such file")
    if not os.access(path, os.X_OK):
        raise ProgramMissing(f"{path} is no program that can be run: it isn't executable")
    return path


def _proved(name: str) -> str:
    path = os.environ.get("PATH", "")
    found = _search(CHECKOUT, path, name)
    if not os.access(found, os.X_OK):  # it was taken away since
        _search.cache_clear()
        found = _search(CHECKOUT, path, name)
    return found


def built_in(top: Path, name: str) -> Path:
    """Where ./build puts the program of this name in the checkout `top`."""
    crate = name.replace("-", "_")
    return top / "crates" / crate / "out" / crate


@lru_cache(maxsize=None)
def _search(top: Path, path: str, name: str) -> str:
    """The proved program of this name in the checkout `top`, or an installed one. Raises ProgramMissing."""
    built = built_in(top, name)
    looked = []
    if is_proved(top, name):
        return str(built)
    looked.append(f"{built}, which " + ("isn't proved of its sources" if built.exists() else "isn't built"))
    for place in (*(os.path.join(folder, name) for folder in path.split(os.pathsep) if folder), _home_program(name)):
        if not os.access(place, os.X_OK) or os.path.isdir(place):
            looked.append(place)
        elif _is_script(place):
            looked.append(f"{place}, which is a script and may run a program that isn't proved")
        else:
            return os.path.abspath(place)
    _raise_missing(name, looked)


def _raise_missing(name: str, looked: list[str]) -> NoReturn:
    what, names = ("", "program=.. or the environment variable MARPLE")
    if name != "marple":
        what, names = f" {name}", "the environment variable MARPLE_TOOLS"
    raise ProgramMissing(
        f"there is no proved program{what}. It was looked for at\n" + "".join(f"  {place}\n" for place in dict.fromkeys(looked))
        + f"Build it in the checkout (./build), or install it from there (./install). Another program is used if {names} names it"
    )


def _home_program(name: str) -> str:
    """Where ./install puts the program of this name if it isn't told a place."""
    return os.path.expanduser(f"~/.local/bin/{name}")


def is_proved(top: Path, name: str = "marple") -> bool:
    """Whether the checkout has a program of this name that is proved of its sources, as the checkout itself says."""
    asked = top / "tools" / "building" / "is-proved"
    command = [str(asked), name.replace("-", "_")]
    return asked.is_file() and subprocess.run(command, stdin=subprocess.DEVNULL, check=False).returncode == 0


def _is_script(path: str) -> bool:
    """Whether it is a script: the checkout's launcher also runs a program that isn't proved."""
    with open(path, "rb") as file:
        return file.read(2) == b"#!"


@dataclass(frozen=True)
class Called:
    """What a call of the program gave: its standard output."""

    output: bytes


def call(
    words: Sequence[str], *, program: Optional[Program], query: bytes = b"", deadline: Optional[Deadline] = None
) -> Called:
    """Calls the program with these words. `query` is the text that a fault points into.

    Raises the exception of its status; TimedOut; ProgramFailed where it can't be started.
    """
    return _called([find_program(program), *words], query, deadline or Deadline())


def call_tools(words: Sequence[str], *, program: Optional[Program], deadline: Optional[Deadline] = None) -> Called:
    """Calls marple-tools, the one of this program, as `call`."""
    return _called([find_tools(program), *words], b"", deadline or Deadline())


def _called(command: list[str], query: bytes, deadline: Deadline) -> Called:
    left, begun = deadline.left(), time.monotonic()
    try:
        # A group of its own, so that what a launcher starts ends with it.
        process = subprocess.Popen(
            command, stdin=subprocess.DEVNULL, stdout=subprocess.PIPE, stderr=subprocess.PIPE, start_new_session=True
        )
    except OSError as fault:
        raise ProgramFailed(f"cannot start {command[0]}: {fault.strerror}") from fault
    with process:
        try:
            output, complaint = process.communicate(timeout=left)
        except subprocess.TimeoutExpired:
            _end(process)
            raise deadline.passed() from None
        except BaseException:
            _end(process)
            raise
    text = complaint.decode(errors="replace")
    log.debug("%s ended with status %d after %.3f s", " ".join(command), process.returncode, time.monotonic() - begun)
    if process.returncode != 0:
        raise refusal_of(process.returncode, text, query)
    if text:
        log.info("%s said: %s", command[0], text.strip())
    return Called(output)


def _end(process: "subprocess.Popen[bytes]") -> None:
    """Ends the program and what it started."""
    try:
        os.killpg(process.pid, signal.SIGKILL)
    except ProcessLookupError:
        pass
    process.wait()
