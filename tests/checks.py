"""What the tests in Python share, as common.sh is shared by those in sh: folders, waiting, terminals, tools, and the counts.

A script of tests ends with `checks.main()`, which runs its tests, or those that its words name, as `Class` or `Class.test_name`.
The last line is `N passed, M failed`, with `, K skipped` where a tool isn't there. A check that is skipped has a line
`skipped for want of TOOL: CHECK`.
"""

from __future__ import annotations

import os
import pty
import select
import shutil
import signal
import sys
import tempfile
import time
import unittest
from collections.abc import Callable, Iterable
from pathlib import Path
from typing import NoReturn

sys.dont_write_bytecode = True
TOP = Path(__file__).resolve().parent.parent
sys.path.insert(0, str(TOP / "tools"))

from building.signals import STOPPING, Interrupted, stop_on_signals


class Test(unittest.TestCase):
    """A test that has an empty folder, and takes back what it did also where a signal ends it."""

    maxDiff = None

    def run(self, result: unittest.TestResult | None = None) -> unittest.TestResult | None:
        try:
            return super().run(result)
        except Interrupted:
            self.doCleanups()
            raise

    def new_folder(self) -> Path:
        """A folder that goes when the test ends."""
        folder = tempfile.TemporaryDirectory(prefix="marple-test-")
        self.addCleanup(folder.cleanup)
        return Path(folder.name)


def needs(tool: str) -> Callable:
    """Skips the test or the class where the tool isn't there."""
    return unittest.skipUnless(shutil.which(tool), tool)


def put(file: Path, text: str, executable: bool = False) -> Path:
    """Writes a file, whose folder may be missing."""
    file.parent.mkdir(parents=True, exist_ok=True)
    file.write_text(text, encoding="utf-8")
    if executable:
        file.chmod(0o755)
    return file


def hear_signals() -> None:
    """Has a new process hear the signals that this one may ignore, as one in the background or under nohup does."""
    for number in STOPPING:
        signal.signal(number, signal.SIG_DFL)


def await_that(holds: Callable[[], bool], seconds: float = 20) -> bool:
    """Waits until this holds, so many seconds at most, and says whether it does."""
    until = time.monotonic() + seconds
    while time.monotonic() < until:
        if holds():
            return True
        time.sleep(0.05)
    return holds()


def begin_at_terminal(words: Iterable[object], folder: Path, environment: dict[str, str]) -> tuple[int, int]:
    """Begins a command at a new terminal: its process, and the terminal's other side."""
    child, screen = pty.fork()
    if child == 0:
        try:
            hear_signals()
            os.chdir(folder)
            command = [str(it) for it in words]
            os.execvpe(command[0], command, environment)
        finally:
            os._exit(127)
    return child, screen


def await_at_terminal(screen: int, text: str, seconds: float = 20) -> str:
    """Waits until a terminal shows this, so many seconds at most, and gives all that it showed."""
    shown, until = "", time.monotonic() + seconds
    while text not in shown and time.monotonic() < until:
        if select.select([screen], [], [], 0.1)[0]:
            shown += os.read(screen, 1000).decode()
    return shown


def end_at_terminal(child: int, screen: int) -> tuple[int, str]:
    """Waits for the end of such a command: its status, and all that the terminal showed."""
    shown = b""
    try:
        while part := os.read(screen, 1000):
            shown += part
    except OSError:
        pass  # the command has closed the terminal
    os.close(screen)
    status = os.waitstatus_to_exitcode(os.waitpid(child, 0)[1])
    return status, shown.decode()


def at_terminal(words: Iterable[object], folder: Path, environment: dict[str, str]) -> tuple[int, str]:
    """Runs a command at a terminal: its status, and its lines."""
    status, shown = end_at_terminal(*begin_at_terminal(words, folder, environment))
    return status, shown.replace("\r\n", "\n")


def finish(passed: int, failed: int, skipped: Iterable[tuple[str, str]] = ()) -> int:
    """Prints the counts, with a line for each check that was skipped and its tool. Returns the script's status."""
    skips = list(skipped)
    for check, tool in skips:
        print(f"skipped for want of {tool}: {check}")
    print(f"{passed} passed, {failed} failed" + f", {len(skips)} skipped" * bool(skips))
    return 0 if failed == 0 and passed + len(skips) > 0 else 1


def name_of(test: unittest.TestCase) -> str:
    """The name of a test, of which a subtest is a part."""
    return getattr(test, "test_case", test).id().removeprefix("__main__.")


def run(suite: unittest.TestSuite) -> int:
    """Runs tests, and returns the script's status."""
    stop_on_signals()
    try:
        result = unittest.TextTestRunner(verbosity=0).run(suite)
    except Interrupted as stopped:
        return stopped.status
    # a class that can't be set up has run no test
    failing = {name_of(test) for test, _ in (*result.failures, *result.errors)}
    unexpected = len(result.unexpectedSuccesses)
    ran = result.testsRun - len(result.skipped) - sum(not it.startswith("setUpClass") for it in failing) - unexpected
    sys.stderr.flush()
    return finish(ran, len(failing) + unexpected, ((name_of(test), tool) for test, tool in result.skipped))


def end_by(script: Callable[[], int]) -> NoReturn:
    """Ends with the status that a script's function returns. A signal ends it as an exception does, so that its folders go."""
    stop_on_signals()
    try:
        sys.exit(script())
    except Interrupted as stopped:
        sys.exit(stopped.status)


def main() -> None:
    """Runs the tests of the script, or those that its words name."""
    loader, script = unittest.defaultTestLoader, sys.modules["__main__"]
    names = sys.argv[1:]
    sys.exit(run(loader.loadTestsFromNames(names, script) if names else loader.loadTestsFromModule(script)))
