"""What ends a run before its tables are there: a signal, a worker that is killed, a full disk. One line, nothing left."""

import os
import re
import signal
import subprocess
import sys
import time
import unittest
from contextlib import suppress
from pathlib import Path

from support import TIMES, TOP, Folder, drawing, generated

import marple
from marple.program import find_program

QUERY = TOP / "examples" / "cookbook" / "flows.query"
TRACE = (300, 3)
SLOW = 60  # no test waits longer


def sockets_of(process: int) -> set[str]:
    """The numbers of the sockets that a process has."""
    links = [os.readlink(link) for link in Path(f"/proc/{process}/fd").iterdir()]
    return {link.split("[")[1].rstrip("]") for link in links if link.startswith("socket:")}


def ports() -> set[str]:
    """The numbers of the sockets that have a port."""
    lines = [line for name in ("tcp", "tcp6", "udp", "udp6") for line in Path(f"/proc/net/{name}").read_text().splitlines()[1:]]
    return {line.split()[9] for line in lines}


def is_running(process: int) -> bool:
    try:
        return Path(f"/proc/{process}/stat").read_text().rpartition(")")[2].split()[0] != "Z"
    except FileNotFoundError:
        return False


class Stopped(unittest.TestCase):
    def setUp(self):
        self.folder = Folder(self)
        self.trace = self.folder.write("trace.csv", generated(*TRACE))
        self.log, self.work = Path(self.folder.path("log")), self.folder.path("work")
        self.own = Path(self.folder.path("temporary"))
        self.own.mkdir()
        # each run of the program over packets waits as long as the file `wait` is there, and says who it is and who asks
        self.wait = Path(self.folder.write("wait", b""))
        text = (
            f'#!/bin/sh\nif [ "$1" = run ] && [ -e {self.wait} ] && [ -s {self.log} ]; then\n'
            f'    echo "$$ $PPID" >>{self.log}\n    exec sleep {SLOW}\nfi\n'
            f'[ "$1" != run ] || [ -s {self.log} ] || echo header >{self.log}\nexec {find_program()} "$@"\n'
        )
        self.program = self.folder.write("program", text.encode())
        os.chmod(self.program, 0o755)

    def begin(self, *words: str) -> subprocess.Popen:
        """A call that has come to runs that wait."""
        environment = os.environ | {"MARPLE": self.program, "TMPDIR": str(self.own)}
        command = [sys.executable, "-m", "marple.parts", str(QUERY), self.trace, "--parts", "4", *words]
        call = subprocess.Popen(
            command, stdout=subprocess.PIPE, stderr=subprocess.PIPE, text=True, env=environment, start_new_session=True,
            preexec_fn=lambda: signal.signal(signal.SIGINT, signal.SIG_DFL),  # which tests in the background have not
        )  # fmt: skip
        self.addCleanup(call.kill)
        until = time.monotonic() + SLOW
        while len(self.running()) < (2 if "--workers" in words else 1):
            self.assertIsNone(call.poll())
            self.assertLess(time.monotonic(), until)
            time.sleep(0.05)
        return call

    def running(self) -> list[tuple[int, int]]:
        """The runs that wait, and the processes that began them."""
        lines = self.log.read_text().splitlines() if self.log.exists() else []
        return [(int(run), int(asking)) for run, asking in (line.split() for line in lines if line != "header")]

    def check_ended(self, call: subprocess.Popen, status: int, line: str) -> None:
        """The call ends with this status and this last line, and nothing of it runs or lies about."""
        out, err = call.communicate(timeout=SLOW)
        self.assertEqual((call.returncode, out), (status, ""), err)
        self.assertRegex(err, f"(?m)^marple: {line}\n\\Z")
        self.assertNotIn("Traceback", err)
        for run, asking in self.running():
            self.assertFalse(is_running(run) or is_running(asking), self.running())
        self.assertEqual(list(self.own.iterdir()), [])
        if os.path.isdir(self.work):
            self.assertFalse([name for name in os.listdir(self.work) if re.fullmatch(r".*\.[0-9a-f]{32}", name)])

    def check_goes_on(self) -> None:
        self.wait.unlink()
        command = [sys.executable, "-m", "marple.parts", str(QUERY), self.trace, "--parts", "4", "--work", self.work]
        environment = os.environ | {"MARPLE": self.program}
        done = subprocess.run(command, capture_output=True, text=True, env=environment, check=False)
        self.assertEqual((done.returncode, done.stdout), (0, marple.run(QUERY, self.trace).text), done.stderr)

    def test_by_signals(self):
        for number in (signal.SIGINT, signal.SIGTERM):
            for words in ((), ("--workers", "2")):
                with self.subTest(signal=number, words=words):
                    self.log.unlink(missing_ok=True)
                    call = self.begin(*words)
                    os.kill(call.pid, number)
                    self.check_ended(call, 128 + number, f"stopped by {number.name}")

    def test_by_a_signal_that_comes_as_a_program_is_begun(self):
        """It waits until the program is known to the one that has to end it."""
        lines = (
            "import os, signal",
            "from marple.parts.stopping import Stopped, raise_at_signals, signals_held",
            "raise_at_signals()",
            "try:",
            "    with signals_held():",
            "        os.kill(os.getpid(), signal.SIGTERM)",
            "        print('begun', flush=True)",
            "    print('and not stopped')",
            "except Stopped as stopped:",
            "    print(stopped)",
        )
        done = subprocess.run([sys.executable, "-c", "\n".join(lines)], capture_output=True, text=True, check=True)
        self.assertEqual(done.stdout, "begun\nstopped by SIGTERM\n")

    def test_has_opened_no_port(self):
        call = self.begin("--workers", "2")
        sockets = set().union(*(sockets_of(one) for one in (call.pid, *(asking for _, asking in self.running()))))
        self.assertGreaterEqual(len(sockets), 2)  # to the workers
        self.assertFalse(sockets & ports())
        os.kill(call.pid, signal.SIGTERM)
        self.check_ended(call, 143, "stopped by SIGTERM")

    def test_by_ctrl_c_in_a_folder(self):
        """At a terminal the signal goes to the whole group."""
        call = self.begin("--workers", "2", "--work", self.work)
        os.killpg(call.pid, signal.SIGINT)
        self.check_ended(call, 130, "stopped by SIGINT")
        self.check_goes_on()

    def test_by_a_worker_that_is_killed(self):
        call = self.begin("--workers", "2", "--work", self.work)
        os.kill(self.running()[0][1], signal.SIGKILL)
        self.check_ended(call, 1, "WorkerDied: a worker ended by signal 9 before its task was done.*")
        self.check_goes_on()

    def test_by_the_end_of_the_one_that_asks(self):
        """Then the workers end too. What it left half made goes at the next call."""
        call = self.begin("--workers", "2", "--work", self.work)
        call.kill()
        call.communicate()
        until = time.monotonic() + SLOW
        while any(is_running(one) for pair in self.running() for one in pair):
            self.assertLess(time.monotonic(), until)
            time.sleep(0.05)
        self.check_goes_on()
        self.assertFalse([name for name in os.listdir(self.work) if re.fullmatch(r".*\.[0-9a-f]{32}", name)])


def family_of(process: int) -> list[int]:
    """A process, those that it began and that go on, and theirs."""
    try:
        begun = Path(f"/proc/{process}/task/{process}/children").read_text().split()
    except (FileNotFoundError, ProcessLookupError):
        begun = []
    return [process, *(one for child in begun for one in family_of(int(child)))]


class KilledAtRandom(unittest.TestCase):
    def test_a_second_call_goes_on(self):
        """One of the processes is killed, whatever it is at: the one that asks, a worker or the program."""
        folder, draw = Folder(self), drawing("test_stops")
        trace = folder.write("trace.csv", generated(*TRACE))
        expected, took = marple.run(QUERY, trace).text, 0.0
        for number in range(5 * TIMES):
            command = [sys.executable, "-m", "marple.parts", str(QUERY), trace, "--parts", "12", "--workers", "2"]
            command += ["--work", folder.path(f"work-{number}")]
            begun, pause = time.monotonic(), draw.random()
            call = subprocess.Popen(command, stdout=subprocess.DEVNULL, stderr=subprocess.DEVNULL)
            if took:
                time.sleep(took * pause)
                family = family_of(call.pid)
                with suppress(ProcessLookupError):
                    os.kill(draw.choice(family), signal.SIGKILL)
                while any(map(is_running, family[1:])):
                    self.assertLess(time.monotonic() - begun, SLOW + took)
                    time.sleep(0.02)
            call.wait(timeout=SLOW)
            took = took or time.monotonic() - begun
            done = subprocess.run(command, capture_output=True, text=True, check=False)
            self.assertEqual((done.returncode, done.stdout), (0, expected), done.stderr)


class NoRoom(unittest.TestCase):
    def setUp(self):
        self.folder = Folder(self)
        self.trace = self.folder.write("trace.csv", generated(*TRACE))

    def call(self, *words: str, **options) -> tuple[int, str]:
        command = [sys.executable, "-m", "marple.parts", str(QUERY), self.trace, *words]
        done = subprocess.run(command, stderr=subprocess.PIPE, text=True, check=False, **options)
        return done.returncode, done.stderr

    def test_at_standard_output(self):
        with open("/dev/full", "wb") as full:
            status, err = self.call(stdout=full)
        self.assertEqual(status, 6)
        self.assertRegex(err, r"\nmarple: cannot write\n\Z")
        self.assertNotIn("Traceback", err)

    def test_for_files(self):
        """A process may write no more than so many bytes: as on a disk that is full."""
        def limited() -> None:
            import resource
            resource.setrlimit(resource.RLIMIT_FSIZE, (3_000, resource.RLIM_INFINITY))
            signal.signal(signal.SIGXFSZ, signal.SIG_IGN)

        for words in ((), ("--workers", "2"), ("--work", self.folder.path("work"))):
            with self.subTest(words=words):
                status, err = self.call(*words, stdout=subprocess.DEVNULL, preexec_fn=limited)
                self.assertEqual(status, 6, err)
                self.assertRegex(err, r"\nmarple: cannot write in .*: File too large\n\Z")
                self.assertNotIn("Traceback", err)
        self.assertFalse([name for name in os.listdir(self.folder.path("work")) if re.fullmatch(r".*\.[0-9a-f]{32}", name)])


if __name__ == "__main__":
    unittest.main()
