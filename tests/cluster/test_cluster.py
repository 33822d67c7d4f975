"""Runs in parts on a cluster of four processes: the same tables, also where a worker dies, and of large traces."""

import logging
import os
import re
import subprocess
import sys
import threading
import time
import unittest
from pathlib import Path

import distributed
from support import TOP, Folder, but_for_epochs, choices, generated

import marple
from marple import parts
from marple.parts.engine import OnCluster

REFUSED = ("FieldNeeded", "FinalGroupby", "FinalOfTop")
FLOWS = TOP / "examples" / "cookbook" / "flows.query"
BENCH = TOP / "bench" / "parts"
TRACE = (2000, 17)
PACKETS = int(os.environ["MARPLE_TEST_PACKETS"])


def local_cluster(workers: int) -> distributed.LocalCluster:
    """A cluster of this many processes of this machine."""
    # What fails is reported by the tasks themselves; memory_limit 0 is none, since the runs of the program aren't in its
    # count.
    return distributed.LocalCluster(
        n_workers=workers, threads_per_worker=1, processes=True, dashboard_address=None, memory_limit=0,
        silence_logs=logging.CRITICAL,
    )  # fmt: skip


class OnACluster(unittest.TestCase):
    @classmethod
    def setUpClass(cls):
        cluster = local_cluster(4)
        cls.addClassCleanup(cluster.close)
        cls.client = distributed.Client(cluster)
        cls.addClassCleanup(cls.client.close)

    def setUp(self):
        self.folder = Folder(self)


class JoinedTables(OnACluster):
    def test_are_those_of_the_whole(self):
        whole = self.folder.write("whole.csv", generated(*TRACE))
        traces = self.folder.traces(generated(*TRACE), 3)
        for name in (name for name, chosen in choices().items() if chosen not in REFUSED):
            with self.subTest(query=name):
                expected = marple.run(TOP / name, whole)
                answer = parts.run(TOP / name, traces, client=self.client, piece=40_000)
                self.assertEqual([but_for_epochs(table) for table in answer.values()],
                                 [but_for_epochs(table) for table in expected.values()])  # fmt: skip
                self.assertGreaterEqual(answer.parts, 3)

    def test_of_a_fault(self):
        bad = self.folder.write("bad.csv", generated(*TRACE).replace(b"\n", b"\n1,2\n", 1))
        with self.assertRaises(marple.TraceRefused) as refused:
            parts.run(FLOWS, [self.folder.write("good.csv", generated(*TRACE)), bad], client=self.client)
        self.assertEqual((refused.exception.shown, refused.exception.path), ("FieldCount(1)", bad))

    def test_of_the_command(self):
        traces = self.folder.traces(generated(*TRACE), 3)
        expected = marple.run(FLOWS, generated(*TRACE)).text
        scheduler = self.client.scheduler.address
        command = [sys.executable, "-m", "marple.parts", str(FLOWS), *traces, "--scheduler", scheduler]
        done = subprocess.run(command, capture_output=True, text=True, check=False)
        self.assertEqual((done.returncode, done.stdout), (0, expected), done.stderr)

    def test_of_a_scheduler_that_isn_t_there(self):
        trace = self.folder.write("whole.csv", generated(*TRACE))
        environment = os.environ | {"DASK_DISTRIBUTED__COMM__TIMEOUTS__CONNECT": "1s"}
        for address in ("tcp://127.0.0.1:9", "no-such-host.invalid:8786", "nonsense://here", ""):
            command = [sys.executable, "-m", "marple.parts", str(FLOWS), trace, "--scheduler", address]
            with self.subTest(address):
                done = subprocess.run(command, capture_output=True, text=True, env=environment, timeout=120, check=False)
                line = f"marple: ClusterLost: no scheduler answers at {address}\n"
                self.assertEqual((done.returncode, done.stdout, done.stderr), (1, "", line))

    def test_of_a_scheduler_that_ends(self):
        """While a run waits for it."""
        trace = self.folder.write("whole.csv", generated(*TRACE))
        cluster = local_cluster(1)
        gate = Path(self.folder.path("began"))
        text = f'#!/bin/sh\nif [ "$1" = run ]; then\n    [ ! -e {gate}.header ] || {{ touch {gate}; sleep 30; }}\n'
        text += f'    touch {gate}.header\nfi\nexec {marple.find_program()} "$@"\n'
        program = self.folder.write("program", text.encode())
        os.chmod(program, 0o755)
        environment = os.environ | {"DASK_DISTRIBUTED__COMM__TIMEOUTS__CONNECT": "1s", "MARPLE": program}
        command = [sys.executable, "-m", "marple.parts", str(FLOWS), trace, "--scheduler", cluster.scheduler_address]
        call = subprocess.Popen(command, stdout=subprocess.PIPE, stderr=subprocess.PIPE, text=True, env=environment)
        while not gate.exists() and call.poll() is None:
            time.sleep(0.1)
        cluster.close()
        out, err = call.communicate(timeout=120)
        self.assertEqual((call.returncode, out), (1, ""), err)
        self.assertRegex(err, r"(?m)^marple: ClusterLost: .*\n\Z")
        self.assertIsNone(re.search("Traceback", err), err)


class AWorkerThatDies(OnACluster):
    """The program waits in the first runs until a worker was killed, and says which runs there were."""

    def test_costs_its_task_again(self):
        log, gate = Path(self.folder.path("log")), Path(self.folder.path("gate"))
        program = self.folder.write("program", (
            f'#!/bin/sh\n[ "$1" != run ] || echo "$PPID" >>{log}\n'
            f'while [ "$1" = run ] && [ "$(wc -l <{log})" -gt 1 ] && [ ! -e {gate} ]; do sleep 0.1; done\n'
            f'exec {marple.find_program()} "$@"\n').encode())  # fmt: skip
        os.chmod(program, 0o755)
        killer = threading.Thread(target=self.kill_one, args=(log, gate))
        killer.start()
        traces = self.folder.traces(generated(*TRACE), 2)
        answer = parts.run(FLOWS, traces, parts=8, client=self.client, work=self.folder.path("work"), program=program)
        killer.join()
        self.assertEqual(answer.text, marple.run(FLOWS, generated(*TRACE)).text)
        runs = log.read_text().split()
        self.assertIn(str(self.killed), runs[1:])
        self.assertGreater(len(runs), 1 + 8)

    def kill_one(self, log: Path, gate: Path) -> None:
        """Kills a worker that runs the program, and lets all go on."""
        workers = set(self.client.run(os.getpid).values())
        while not (running := workers & {int(pid) for pid in (log.read_text().split() if log.exists() else [])[1:]}):
            time.sleep(0.1)
        self.killed = running.pop()
        os.kill(self.killed, 9)
        time.sleep(1)
        gate.write_text("open")


class LargeTraces(OnACluster):
    def test_have_the_tables_of_a_plain_program(self):
        plain = self.folder.path("plain")
        subprocess.run(["cc", "-O2", "-o", plain, str(BENCH / "plain.c")], check=True)
        room = self.folder.path("traces")
        os.mkdir(room)
        files = max(1, PACKETS // 1_000_000)
        subprocess.run([plain, "make", str(PACKETS), str(max(1, PACKETS // 20)), str(files), room], check=True)
        traces = sorted(str(path) for path in Path(room).iterdir())
        self.assertEqual(len(traces), files)
        with open(self.folder.path("expected"), "wb") as file:
            subprocess.run([plain, "count", *traces], stdout=file, check=True)
        joined, choice, _ = parts.tables_file(
            (BENCH / "keys.query").read_bytes(), traces, by=None, parts=4, engine=OnCluster(self.client),
            work=self.folder.path("work"), sums=True, given={}, program=None, piece=parts.PIECE, report=lambda line: None,
        )  # fmt: skip
        self.assertEqual(choice.by, ("srcip",))
        with open(joined, "rb") as own, open(self.folder.path("expected"), "rb") as expected:
            heading = [own.readline(), own.readline()]
            rows = 0
            for line in expected:
                self.assertEqual(own.readline(), line)
                rows += 1
            self.assertEqual(own.read(), b"")
        self.assertEqual(heading, [b"table both final %d\n" % rows, b"srcip,packets,bytes,last,n\n"])
        self.assertGreater(rows, PACKETS // 40)


if __name__ == "__main__":
    unittest.main()
