"""The folder of the work, where a second call goes on; and the command that prints the tables."""

import io
import os
import pty
import subprocess
import sys
import unittest
from collections.abc import Callable
from contextlib import suppress
from pathlib import Path

from support import TOP, Folder, generated

import marple
from marple import parts
from marple.parts.__main__ import Progress
from marple.program import find_program

QUERY = TOP / "examples" / "cookbook" / "flows.query"
TRACE = (300, 3)


class Logged:
    """The program, with a log of its commands; a run fails whose number stands in the file `fails`."""

    def __init__(self, folder: Folder):
        self.log, self.fails = Path(folder.path("log")), Path(folder.path("fails"))
        self.fails.write_text("none")
        number = f"$(grep -c '^run' {self.log})"
        fail = f'[ "$1" = run ] && [ "{number}" = "$(cat {self.fails})" ] && echo "marple: out of memory" >&2 && exit 1'
        text = f'#!/bin/sh\necho "$1" >>{self.log}\n{fail}\nexec {find_program()} "$@"\n'
        self.path = folder.write("program", text.encode())
        os.chmod(self.path, 0o755)

    def runs(self) -> int:
        """How many runs there were since the last call."""
        count = self.log.read_text().splitlines().count("run") if self.log.exists() else 0
        self.log.unlink(missing_ok=True)
        return count


class ASecondCall(unittest.TestCase):
    def setUp(self):
        self.folder = Folder(self)
        self.trace = self.folder.write("trace.csv", generated(*TRACE))
        self.work = self.folder.path("work")
        self.expected = parts.run(QUERY, [self.trace], parts=4).text

    def run_parts(self, program: Logged, **options) -> str:
        given = {"parts": 4, "piece": 8_000, "work": self.work, "program": program.path} | options
        return parts.run(QUERY, [self.trace], **given).text

    def test_runs_nothing_twice(self):
        program = Logged(self.folder)
        self.assertEqual(self.run_parts(program), self.expected)
        self.assertEqual(program.runs(), 5)  # the header, and four parts
        self.assertEqual(self.run_parts(program), self.expected)
        self.assertEqual(program.runs(), 0)

    def test_makes_what_is_missing(self):
        program = Logged(self.folder)
        self.run_parts(program)
        program.runs()
        for name in os.listdir(self.work):
            if name in ("part-2.json", "split-whole-0.json", "tables"):
                os.unlink(os.path.join(self.work, name))
        Path(self.work, "part-2").write_text("half a ta")
        self.assertEqual(self.run_parts(program), self.expected)
        self.assertEqual(program.runs(), 1)

    def test_goes_on_after_a_failure(self):
        program = Logged(self.folder)
        program.fails.write_text("4")
        with self.assertRaises(marple.OutOfMemory):
            self.run_parts(program)
        self.assertEqual(program.runs(), 5)
        program.fails.write_text("none")
        self.assertEqual(self.run_parts(program), self.expected)
        self.assertEqual(program.runs(), 1)

    def test_leaves_no_half_of_a_file(self):
        self.run_parts(Logged(self.folder))
        kinds = {name.split("-")[0].split(".")[0] for name in os.listdir(self.work)}
        self.assertEqual(kinds, {"header", "part", "query", "split", "tables", "work"})
        self.assertFalse([name for name in os.listdir(self.work) if len(name.rsplit(".", 1)[-1]) == 32])

    def test_believes_no_file_that_was_cut(self):
        """Nor one that has the same size and other bytes, or whose record was cut."""
        program = Logged(self.folder)
        self.run_parts(program)
        program.runs()
        found = [path for path in Path(self.work).rglob("*") if path.is_file()]
        names = sorted(str(path.relative_to(self.work)) for path in found)
        names = [name for name in names if name.startswith(("part-", "split-"))]
        self.assertGreater(len(names), 8)
        for name in names:
            path = Path(self.work, name)
            whole = path.read_bytes()
            half = whole[: whole.rfind(b"\n", 0, len(whole) // 2) + 1]
            for content in (half, whole[:-2] + b"7\n"):
                if name.startswith("split-"):
                    for part in Path(self.work).glob("part-*"):
                        part.unlink()  # so that what was split is read again
                path.write_bytes(content)
                with self.subTest(name=name, size=len(content)):
                    self.assertEqual(self.run_parts(program), self.expected)
                    self.assertTrue(path.read_bytes() == whole or name.endswith(".json"))

    def test_ends_where_a_file_of_it_is_cut_meanwhile(self):
        """What the runs read may be gone or shorter than it was when it was split."""
        def cut_one(line: str) -> None:
            if line.startswith("split ") and line.split()[1] == line.split()[3]:
                path = Path(self.work, "split-whole-0", "part-1.csv")
                path.write_bytes(path.read_bytes()[:1000])

        with self.assertRaises(parts.TraceChanged):
            self.run_parts(Logged(self.folder), report=cut_one)

    def test_is_one_at_a_time(self):
        def another(line: str) -> None:
            if line.startswith("ran"):
                with self.assertRaisesRegex(parts.WorkTaken, "another call works"):
                    self.run_parts(program)
                tried.append(line)

        program, tried = Logged(self.folder), []
        self.assertEqual(self.run_parts(program, report=another), self.expected)
        self.assertEqual(len(tried), 4)

    def test_puts_away_what_was_left_half_made(self):
        program = Logged(self.folder)
        self.run_parts(program)
        for name in ("part-2", "part-0.json", "split-whole-0.json", "query", "query-1", "tables", "work.json", "trace-0"):
            Path(self.work, f"{name}.0123456789abcdef0123456789abcdef").write_text("half")
        half = Path(self.work, "split-whole-1.0123456789abcdef0123456789abcdef")
        half.mkdir()
        (half / "part-0.csv").write_text("half")
        self.run_parts(program)
        self.assertFalse([name for name in os.listdir(self.work) if len(name.rsplit(".", 1)[-1]) == 32])

    def test_with_another_work_is_refused(self):
        program = Logged(self.folder)
        self.run_parts(program)
        for options in ({"by": ("srcip",)}, {"buckets": 4}, {"parts": 5}):
            with self.subTest(options), self.assertRaises(parts.WorkTaken):
                self.run_parts(program, **options)
        other = self.folder.write("other.csv", generated(*TRACE))
        with self.assertRaisesRegex(parts.WorkTaken, "its traces differs"):
            parts.run(QUERY, [other], parts=4, piece=8_000, work=self.work, program=program.path)
        foreign = self.folder.path("foreign")
        os.mkdir(foreign)
        Path(foreign, "note").write_text("mine")
        with self.assertRaises(parts.WorkTaken):
            self.run_parts(program, work=foreign)
        self.assertEqual(os.listdir(foreign), ["note"])


class ATraceThatChanges(unittest.TestCase):
    """While it is read: then there is no answer, whatever the runs gave."""

    def setUp(self):
        self.folder = Folder(self)
        self.content = generated(*TRACE)
        self.trace = Path(self.folder.write("trace.csv", self.content))

    def check(self, stage: str, change: Callable[[], None], *earlier: str) -> None:
        self.trace.write_bytes(self.content)
        changes = iter([change])

        def report(line: str) -> None:
            if line.startswith(stage):
                next(changes, lambda: None)()

        with self.assertRaises(parts.TraceChanged) as refused:
            parts.run(QUERY, [*earlier, self.trace], parts=3, piece=8_000, report=report)
        self.assertIsNone(next(changes, None))
        self.assertEqual(refused.exception.status, 3)
        self.assertIn(str(self.trace), str(refused.exception))

    def test_is_refused(self):
        half = self.content[: self.content.index(b"\n", len(self.content) // 2) + 1]
        for stage in ("split", "ran", "joining"):
            for content in (half, self.content + b"x\n", self.content[:-2] + b"7\n"):
                with self.subTest(stage=stage, size=len(content)):
                    self.check(stage, lambda content=content: self.trace.write_bytes(content))

    def test_is_refused_though_it_has_a_fault_now(self):
        earlier = self.folder.write("earlier.csv", self.content)
        self.check("split", lambda: self.trace.write_bytes(self.content.replace(b"\n", b"\nx,", 1)), earlier)


class TheCommand(unittest.TestCase):
    def setUp(self):
        self.folder = Folder(self)
        self.traces = self.folder.traces(generated(*TRACE), 2)

    def call(self, *words: str) -> tuple[int, str, str]:
        command = [sys.executable, "-m", "marple.parts", *words]
        done = subprocess.run(command, capture_output=True, text=True, stdin=subprocess.DEVNULL, check=False)
        return done.returncode, done.stdout, done.stderr

    def test_prints_as_a_run_does(self):
        status, out, err = self.call(str(QUERY), *self.traces, "--parts", "3", "--by", "srcip,dstport")
        self.assertEqual((status, out), (0, marple.run(QUERY, generated(*TRACE)).text))
        self.assertIn("marple: by srcip,dstport: as asked for\n", err)
        self.assertIn("marple: split 2 of 2\n", err)
        self.assertIn("marple: ran 3 of 3\n", err)

    def test_takes_options_of_a_run(self):
        small = ("--buckets", "1", "--ways", "1", "--pipe", "1", "--lag", "9")
        status, out, _ = self.call(str(QUERY), *self.traces, "--parts", "2", *small)
        whole = marple.run(QUERY, generated(*TRACE))["r"]
        self.assertEqual(status, 0)
        self.assertGreater(marple.read_tables(out)["r"].epochs, 2 * whole.epochs)

    def test_reports_faults_with_its_statuses(self):
        bad = self.folder.write("bad.csv", generated(*TRACE).replace(b"\n", b"\n1,2\n", 1))
        printed = self.folder.write("no.query", b"print z;")
        many = self.folder.write("sum.query", b"def f([],[]) { }\nm = map(pktstream, [a = 0]); r = groupby(m, [a], f);"
                                 b" final t = filter(r, a > 0); print t;")  # fmt: skip
        for words, expected, line in (
            ((str(QUERY), self.traces[0], bad), 5, f"marple: trace: FieldCount(1) in {bad}\n"),
            ((printed, *self.traces), 4, "marple: query: UnknownName at 6, line 1, column 7:\nprint z;\n      ^\n"),
            ((many, *self.traces), 4, "marple: FieldNeeded: no field"),
            ((str(QUERY), *self.traces, "--every", "5"), 2, "marple: OptionRefused: --every counts"),
            ((str(QUERY), *self.traces, "--refresh", "5"), 2, "marple: OptionRefused: --refresh counts"),
            ((str(QUERY), *self.traces, "--by", "tin"), 4, "marple: FieldRefused: the packets of a key"),
            ((str(QUERY), *self.traces, "--ways", "3"), 2, "marple: bad command line\n"),
            ((str(QUERY), "no-such-trace"), 3, "marple: cannot read the trace"),
        ):
            with self.subTest(words=words):
                status, out, err = self.call(*words)
                self.assertEqual((status, out), (expected, ""))
                self.assertIn(line, err)

    def test_goes_on_in_its_folder(self):
        work = self.folder.path("work")
        first = self.call(str(QUERY), *self.traces, "--parts", "2", "--work", work)
        self.assertEqual(self.call(str(QUERY), *self.traces, "--parts", "2", "--work", work)[:2], first[:2])
        self.assertEqual(self.call(str(QUERY), *self.traces, "--work", work)[:2], first[:2])


class Lines(unittest.TestCase):
    def test_of_tables_begin_after_those_of_progress(self):
        """At a terminal, where both are shown."""
        folder = Folder(self)
        trace = folder.write("trace.csv", generated(*TRACE))
        ours, theirs = pty.openpty()
        command = [sys.executable, "-m", "marple.parts", str(QUERY), trace]
        call = subprocess.Popen(command, stdin=subprocess.DEVNULL, stdout=theirs, stderr=theirs)
        os.close(theirs)
        shown = b""
        with suppress(OSError):  # at the end
            while block := os.read(ours, 65536):
                shown += block
        os.close(ours)
        self.assertEqual(call.wait(), 0)
        self.assertIn(b"joining", shown)
        self.assertRegex(shown, rb"parts *\r\ntable r ")

    def test_of_progress_are_one_at_a_terminal(self):
        class Terminal(io.StringIO):
            def isatty(self):
                return True

        stream = Terminal()
        progress = Progress(stream)
        for line in ("unpacked 1 of 2", "unpacked 2 of 2", "ran 1 of 1"):
            progress.report(line)
        progress.end()
        self.assertEqual(stream.getvalue(), "\runpacked 1 of 2\runpacked 2 of 2\rran 1 of 1     \n")

    def test_of_progress_are_few_elsewhere(self):
        stream = io.StringIO()
        progress = Progress(stream)
        for line in ("by srcip: asked", *(f"split {done} of 50" for done in range(1, 51)), "joining"):
            progress.report(line)
        self.assertEqual(stream.getvalue(), "marple: by srcip: asked\nmarple: split 50 of 50\nmarple: joining\n")


if __name__ == "__main__":
    unittest.main()
