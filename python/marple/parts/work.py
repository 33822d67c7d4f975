"""The folder of the work. A file there has its name once it is complete, and is believed if it is what was recorded."""

import fcntl
import hashlib
import json
import os
import re
import shutil
import tempfile
import uuid
from collections.abc import Callable, Iterator
from contextlib import contextmanager, suppress
from typing import IO, Any, BinaryIO

from marple.parts.refusals import WorkTaken

# the name of a file of the work that isn't complete
HALF = re.compile(r"(?:work\.json|query(?:-\d+)?|header|tables|(?:part|split|trace)-[\w.-]+)[\w.]*\.[0-9a-f]{32}")
SUM_BYTES = 16
BLOCK = 1 << 20
Made = dict[str, Any]  # what was said of a file as it was made


@contextmanager
def written_folder(path: str) -> Iterator[str]:
    """A folder that is filled under another name, which it gives, and has its own name when it is complete."""
    own = f"{path}.{uuid.uuid4().hex}"
    os.mkdir(own)
    try:
        yield own
        _delete(path)
        os.replace(own, path)
    except BaseException:
        _delete(own)
        raise


@contextmanager
def written(path: str, mode: str = "wb") -> Iterator[IO[Any]]:
    """A file that is written under another name, and has its own name when it is complete."""
    own = f"{path}.{uuid.uuid4().hex}"
    try:
        with open(own, mode) as file:
            yield file
        os.replace(own, path)
    except BaseException:
        _delete(own)
        raise


def keep(path: str, make: Callable[[], Made], sums: bool, is_done: Callable[[Made], bool] = lambda made: True) -> Made:
    """What was said of the file as it was made, or of the folder, if it was made and still is what was recorded. Otherwise
    it is made now, and that is recorded if it is done. sums: whether the content is recorded too, and not only the size.
    """
    found = _read_json(f"{path}.json")
    if isinstance(found, dict) and found.get("file") is not None and found["file"] == _recorded(path, sums):
        earlier: Made = found["made"]
        return earlier
    made = make()
    if is_done(made):
        with written(f"{path}.json", "w") as file:
            json.dump({"file": _recorded(path, sums), "made": made}, file)
    return made


def _recorded(path: str, sums: bool) -> list[Any] | None:
    """The size of a file and, if asked for, the sum of what it has; of a folder that of each file; None if there is none."""
    try:
        if os.path.isdir(path):
            return [[name, _recorded(os.path.join(path, name), sums)] for name in sorted(os.listdir(path))]
        with open(path, "rb") as file:
            size = os.fstat(file.fileno()).st_size
            return [size, _sum(file) if sums else None]
    except FileNotFoundError:
        return None


def _sum(file: BinaryIO) -> str:
    """The sum of what a file has. (hashlib.file_digest isn't there before Python 3.11.)"""
    sum_of = hashlib.blake2b(digest_size=SUM_BYTES)
    while block := file.read(BLOCK):
        sum_of.update(block)
    return sum_of.hexdigest()


def _read_json(path: str) -> Any:
    """What a JSON file has; None where there is none, or no whole one."""
    try:
        with open(path) as file:
            return json.load(file)
    except (FileNotFoundError, ValueError):
        return None


@contextmanager
def taken(folder: str) -> Iterator[None]:
    """The folder for one call at a time. What was left half made goes: at the beginning what is there of calls that were
    killed, and at the end that of workers.
    """
    os.makedirs(folder, exist_ok=True)
    place = os.open(folder, os.O_RDONLY | os.O_DIRECTORY)
    try:
        _lock(place, folder)
        _clean(folder)
        try:
            yield
        finally:
            _clean(folder)
    finally:
        os.close(place)


def _lock(place: int, folder: str) -> None:
    try:
        fcntl.flock(place, fcntl.LOCK_EX | fcntl.LOCK_NB)
    except BlockingIOError:
        raise WorkTaken(f"another call works in {folder}") from None
    except OSError:
        pass  # a file system without locks


def _clean(folder: str) -> None:
    """Deletes what is left half made in a folder of a work, or in one of nothing else."""
    names = os.listdir(folder)
    halves = [name for name in names if HALF.fullmatch(name)]
    if "work.json" in names or len(halves) == len(names):
        for name in halves:
            _delete(os.path.join(folder, name))


def why_full(folder: str) -> str:
    """Why nothing can be written in a folder, as the system says it; nothing if it can."""
    try:
        with tempfile.TemporaryFile(dir=folder) as file:
            file.write(bytes(BLOCK))
            file.flush()
    except OSError as fault:
        return f": {fault.strerror}"
    return ""


def _delete(path: str) -> None:
    """Deletes a file, or a folder with what it has, if it is there."""
    if os.path.isdir(path):
        shutil.rmtree(path, ignore_errors=True)
    else:
        with suppress(FileNotFoundError):
            os.unlink(path)


class Work:
    """A work in its folder. mine: what identifies it; decided: what the first call decided, whatever later ones have."""

    def __init__(self, folder: str, mine: Made):
        self.folder = folder
        self.decided: dict[str, int] = {}
        self._mine: Made = json.loads(json.dumps(mine))

    def path(self, name: str) -> str:
        return os.path.join(self.folder, name)

    def begin(self) -> None:
        """Begins the work, or goes on with what another call began. Raises WorkTaken where that was another work."""
        if os.path.exists(self.path("work.json")):
            theirs = _read_json(self.path("work.json"))
            if not isinstance(theirs, dict):
                raise WorkTaken(f"{self.path('work.json')} can't be read")
            differs = [name for name, value in self._mine.items() if theirs.get(name) != value]
            if differs:
                raise WorkTaken(f"{self.folder} has other work: its {differs[0]} differs")
            self.decided = theirs.get("decided", {})
        elif os.listdir(self.folder):
            raise WorkTaken(f"{self.folder} has files, and no work that was begun")
        self._note()

    def decide(self, name: str, value: int) -> int:
        """The number of this name that was decided, or this one from now on."""
        if name not in self.decided:
            self.decided[name] = value
            self._note()
        return self.decided[name]

    def _note(self) -> None:
        with written(self.path("work.json"), "w") as file:
            json.dump(self._mine | {"decided": self.decided}, file)
