"""What may be given as a query, a trace, an option and a program, and what is said of anything else."""

import gzip
import io
import os
import queue
import subprocess
import sys
import threading
import time
import unittest
from pathlib import Path
from unittest import mock

from support import TOP, Folder

import marple
from marple import program, sources

COUNT = b"def count([c],[]) { c = c + 1; }\nr = groupby(pktstream, [srcip], count);\nprint r;\n"
TRACE = b"srcip\n7\n7\n8\n"
ROWS = [(7, 0, 0, 1, 2), (8, 0, 0, 1, 1)]
# A program that says how many lines the query and the trace have
LINES = b"""#!/bin/sh
printf 'table r final 1\\nquery,trace\\n%s,%s\\n' "$(wc -l <"$2" | tr -d ' ')" "$(wc -l <"$3" | tr -d ' ')"
"""


class Case(unittest.TestCase):
    def setUp(self):
        self.folder = Folder(self)

    def script(self, content: bytes, name: str = "program") -> str:
        path = self.folder.write(name, content)
        os.chmod(path, 0o755)
        return path


class Queries(Case):
    def test_of_a_name_with_a_semicolon_are_files(self):
        path = self.folder.write("a;b\n.query", COUNT)
        for query in (path, Path(path)):
            self.assertEqual(marple.run(query, TRACE).get("r").rows, ROWS)

    def test_of_texts_are_named_so(self):
        self.assertEqual(marple.run(query_text=COUNT.decode(), trace=TRACE)["r"].rows, ROWS)
        with self.assertRaisesRegex(marple.InputError, r"No such file.*query_text= or as bytes"):
            marple.run("print r;", TRACE)
        with self.assertRaisesRegex(marple.InputError, r"plan_text= or as bytes"):
            marple.run_plan("marple-plan 1\nreads\n", TRACE)

    def test_that_cannot_be_read_are_named_with_the_reason(self):
        place = self.folder.place.name
        for path, reason in ((f"{place}/none.query", "No such file or directory"), (place, "Is a directory")):
            with self.assertRaises(marple.InputError) as refused:
                marple.run(path, TRACE)
            self.assertEqual(str(refused.exception), f"cannot read the query {path}: {reason}")

    def test_are_given_once_and_of_a_known_type(self):
        for arguments, shown in (
            ((), "given as one of these"), (({"query": COUNT, "query_text": COUNT.decode()}), "given as one of these"),
            ({"query": 7}, "not int"), ({"query_text": COUNT}, "query_text is a str, not bytes"),
        ):  # fmt: skip
            with self.subTest(shown), self.assertRaisesRegex(TypeError, shown):
                marple.run(trace=TRACE, **dict(arguments))

    def test_that_are_refused_have_the_remedy_of_explain(self):
        texts = (
            b"def f([],[]) { }\nr = groupby(pktstream, [srcip, dstpi], f);\nprint r;\n",
            b"r = filter(pktstream, srcip == 10.0.0.1);\nprint r;\n",
            b"def f([c],[]) { c = c + 1 }\nr = groupby(pktstream, [srcip], f);\nprint r;\n",
        )
        for text in texts:
            path = self.folder.write("refused.query", text)
            explained = subprocess.run([sys.executable, TOP / "explain", path], capture_output=True, text=True, check=False)
            self.assertEqual(explained.returncode, 4)
            said = explained.stdout.splitlines()[3:]
            with self.assertRaises(marple.QueryRefused) as refused:
                marple.plan(path)
            self.assertGreater(len(said), 0)
            self.assertEqual(refused.exception.remedy.splitlines(), [line.replace(f"{path}:", "line ") for line in said])
            self.assertTrue(str(refused.exception).endswith(refused.exception.remedy))


class Traces(Case):
    def test_are_paths_bytes_or_open_files(self):
        path = self.folder.write("trace.csv", b"not a header\n" + TRACE)
        own = self.folder.write("own.csv", TRACE)
        with open(path, "rb") as binary, open(path) as text:
            binary.readline()
            text.readline()
            kept = (TRACE, bytearray(TRACE), memoryview(TRACE), io.BytesIO(TRACE), io.StringIO(TRACE.decode()))
            for trace in (own, Path(own), *kept, binary, text):
                with self.subTest(type=type(trace).__name__):
                    self.assertEqual(marple.run(COUNT, trace)["r"].rows, ROWS)

    def test_of_another_type_say_which_are_right(self):
        for trace in (None, 7, [1, 2], {"srcip": [1]}):
            with self.assertRaisesRegex(TypeError, "a path .*, bytes, an open file, a DataFrame of pandas"):
                marple.run(COUNT, trace)

    def test_of_gzip_are_unpacked(self):
        """A query that reads no field took the lines of the packed file for packets."""
        path = self.folder.write("trace.csv.gz", gzip.compress(TRACE))
        packets = b"def count([c],[]) { c = c + 1; } m = map(pktstream, [a = 0]); r = groupby(m, [a], count); print r;"
        self.assertEqual(marple.run(packets, path)["r"].rows, [(0, 0, 0, 1, 3)])
        self.assertEqual(marple.run(COUNT, path, timeout=60)["r"].rows, ROWS)
        self.folder.write("trace.csv.gz", gzip.compress(TRACE)[:-9])
        with self.assertRaisesRegex(marple.InputError, f"cannot read the trace {path}: .*end-of-stream"):
            marple.run(COUNT, path)

    def test_of_standard_input_are_that_of_this_process(self):
        """The program, which has none, took it for an empty file."""
        script = f"import marple; print(marple.run({COUNT!r}, '/dev/stdin')['r'].rows)"
        with open(self.folder.write("trace.csv", TRACE), "rb") as file:
            done = subprocess.run([sys.executable, "-c", script], stdin=file, capture_output=True, text=True, check=False)
        self.assertIn("(7, <Mark.EXACT: 0>, 0, 1, 2)", done.stdout, done.stderr)

    def test_of_names_that_are_no_text_are_read(self):
        """The program doesn't take such a word."""
        path = os.path.join(os.fsencode(self.folder.place.name), b"\xff.csv")
        Path(os.fsdecode(path)).write_bytes(TRACE)
        self.assertEqual(marple.run(COUNT, os.fsdecode(path))["r"].rows, ROWS)

    def test_that_are_open_are_waited_for_no_longer_than_the_timeout(self):
        reader, writer = os.pipe()
        self.addCleanup(os.close, writer)
        os.write(writer, TRACE)
        for buffering in (-1, 0):
            file = open(os.dup(reader), "rb", buffering=buffering)
            done = queue.SimpleQueue()
            threading.Thread(target=lambda: done.put(self.fault(file, timeout=0.3)), daemon=True).start()  # noqa: B023
            self.assertIsInstance(done.get(timeout=30), marple.TimedOut)

    def test_that_are_open_and_do_not_wait_are_refused(self):
        """What they had until then was taken for the whole."""
        reader, writer = os.pipe()
        self.addCleanup(os.close, writer)
        os.set_blocking(reader, False)
        os.write(writer, TRACE)
        with open(reader, "rb", buffering=0) as file:
            refused = self.fault(file)
        self.assertRegex(str(refused), "cannot read the trace of an open file: it doesn't wait")

    def fault(self, trace, **options) -> Exception | None:
        try:
            marple.run(COUNT, trace, **options)
        except marple.MarpleError as fault:
            return fault

    def test_that_cannot_be_read_are_named_with_the_reason(self):
        place = self.folder.place.name
        for path, reason in ((f"{place}/none.csv", "No such file or directory"), (place, "Is a directory")):
            with self.assertRaises(marple.InputError) as refused:
                marple.run(COUNT, path)
            self.assertEqual(str(refused.exception), f"cannot read the trace {path}: {reason}")
        with self.assertRaisesRegex(marple.InputError, "cannot read the trace 'a.*b': embedded null byte"):
            marple.run(COUNT, "a\0b")

    def test_that_are_refused_are_named(self):
        path = self.folder.write("trace.csv", b"srcip\nx\n")
        with self.assertRaises(marple.TraceRefused) as refused:
            marple.run(COUNT, path)
        self.assertEqual(str(refused.exception), f"trace: BadNumber(1,srcip) in {path}")


class Fifos(Case):
    def setUp(self):
        super().setUp()
        self.program = self.script(LINES)
        self.fifos = [self.folder.path(name) for name in ("query", "trace")]
        for path in self.fifos:
            os.mkfifo(path)

    def test_are_read_to_their_ends(self):
        def write(path: str, content: bytes, pause: float):
            with open(path, "wb") as file:
                time.sleep(pause)
                file.write(content)

        # more than a pipe holds, and nothing for a while
        contents = (b"query\n" * 3, b"packet\n" * 200_000)
        writers = [threading.Thread(target=write, args=(path, content, 0.3)) for path, content in zip(self.fifos, contents)]
        for writer in writers:
            writer.start()
        answer = marple.run_plan(*self.fifos, program=self.program)
        for writer in writers:
            writer.join()
        self.assertEqual(answer["r"].rows, [(3, 200_000)])

    def test_that_nobody_writes_are_refused(self):
        with mock.patch.object(sources, "NO_WRITER", 0.2):
            with self.assertRaisesRegex(marple.InputError, f"cannot read the query {self.fifos[0]}: .*nothing wrote to it"):
                marple.run(self.fifos[0], TRACE, program=self.program)
            with self.assertRaisesRegex(marple.InputError, f"cannot read the trace {self.fifos[1]}: .*nothing wrote to it"):
                marple.run(COUNT, self.fifos[1], program=self.program)

    def test_are_waited_for_no_longer_than_the_timeout(self):
        holder = os.open(self.fifos[1], os.O_RDWR)  # a writer that writes nothing
        self.addCleanup(os.close, holder)
        for query, trace in ((self.fifos[0], TRACE), (COUNT, self.fifos[1])):
            begun = time.monotonic()
            with self.assertRaisesRegex(marple.TimedOut, "timeout of 0.3 s"):
                marple.run(query, trace, program=self.program, timeout=0.3)
            self.assertLess(time.monotonic() - begun, 5)


class Options(Case):
    def test_out_of_their_bounds_are_named_with_them(self):
        for given, shown in (
            ({"ways": 3}, "ways=3; ways is 1, 2, 4, 8, 16 or 32"),
            ({"buckets": 0}, "buckets=0; buckets is 1 to 65,536"),
            ({"lag": 1_000_001}, "lag=1000001; lag is 1 to 1,000,000"),
            ({"every": -1}, "every=-1; every is 0 to 4,194,304"),
        ):
            with self.subTest(shown), self.assertRaises(marple.UsageError) as refused:
                marple.run(COUNT, TRACE, **given)
            self.assertIn(shown, str(refused.exception))
        with self.assertRaisesRegex(marple.UsageError, "`net` doesn't take buckets=1025; .*1,024 for each switch"):
            marple.net(COUNT, b"switch,srcip\n1,2\n", buckets=1025)
        with self.assertRaisesRegex(marple.UsageError, "packets=0, start=1; 1 to 1,000,000 packets"):
            marple.gen(0, 1)

    def test_of_another_type_are_refused(self):
        for value in (1.0, "1", True):
            with self.assertRaisesRegex(TypeError, "buckets is an int, not "):
                marple.run(COUNT, TRACE, buckets=value)

    def test_timeout_ends_the_program_and_what_it_started(self):
        path = self.script(b"#!/bin/sh\nsleep 77 &\necho $! >%s\nwait\n" % self.folder.path("child").encode())
        with self.assertRaises(marple.TimedOut):
            marple.run(COUNT, TRACE, program=path, timeout=1)
        child = int(Path(self.folder.path("child")).read_text())
        deadline = time.monotonic() + 5
        while is_running(child) and time.monotonic() < deadline:
            time.sleep(0.05)
        self.assertFalse(is_running(child))
        for wrong in (0, -1):
            with self.assertRaisesRegex(ValueError, "timeout is a number of seconds above 0"):
                marple.run(COUNT, TRACE, timeout=wrong)
        self.assertEqual(marple.run(COUNT, TRACE, timeout=float("inf"))["r"].rows, ROWS)


def is_running(process: int) -> bool:
    """Whether a process runs; one that ended and is waited for by nobody doesn't."""
    try:
        return Path(f"/proc/{process}/stat").read_text().rpartition(")")[2].split()[0] != "Z"
    except OSError:
        return False


class Programs(Case):
    def test_of_a_path_are_that_file_and_no_other(self):
        other = Path(self.folder.path("bin"))
        other.mkdir()
        here = Path(self.folder.path("here"))
        here.mkdir()
        for place in (other, here):
            (place / "measured").write_bytes(LINES)
            (place / "measured").chmod(0o755)
        self.addCleanup(os.chdir, os.getcwd())
        os.chdir(here)
        with mock.patch.dict(os.environ, {"PATH": str(other)}):
            for named in (Path("./measured"), Path("measured"), "./measured"):
                self.assertEqual(marple.find_program(named), str(here.resolve() / "measured"))
            self.assertEqual(marple.find_program("measured"), str(other / "measured"))
            (here / "measured").unlink()
            with self.assertRaisesRegex(marple.ProgramMissing, f"{here.resolve()}/measured .*no such file"):
                marple.find_program(Path("./measured"))

    def test_that_cannot_start_are_named(self):
        path = self.script(b"no program\n")
        with self.assertRaisesRegex(marple.ProgramFailed, f"cannot start {path}: Exec format error"):
            marple.run(COUNT, TRACE, program=path)
        os.chmod(path, 0o644)
        with self.assertRaisesRegex(marple.ProgramMissing, f"{path} .*isn't executable"):
            marple.run(COUNT, TRACE, program=path)

    def test_that_are_missing_name_all_places(self):
        top = Path(self.folder.path("top"))
        environment = {"MARPLE": "", "PATH": f"{top}/one:{top}/two", "HOME": str(top / "home")}
        with mock.patch.dict(os.environ, environment), mock.patch.object(program, "CHECKOUT", top):
            with self.assertRaises(marple.ProgramMissing) as missing:
                marple.find_program()
        for place in ("crates/marple/out/marple", "one/marple", "two/marple", "home/.local/bin/marple"):
            self.assertIn(f"{top}/{place}", str(missing.exception))

    def test_are_looked_for_once(self):
        top = Path(self.folder.path("top"))
        built, asked = top / "crates" / "marple" / "out" / "marple", top / "tools" / "building" / "is-proved"
        for path, text in ((built, LINES), (asked, b"#!/bin/sh\necho asked >>\"$0.log\"\n")):
            path.parent.mkdir(parents=True)
            path.write_bytes(text)
            path.chmod(0o755)
        with mock.patch.dict(os.environ, {"MARPLE": ""}), mock.patch.object(program, "CHECKOUT", top):
            for _ in range(3):
                self.assertEqual(marple.find_program(), str(built))
        self.assertEqual(asked.with_suffix(".log").read_text(), "asked\n")

    def test_calls_are_logged(self):
        path = self.script(LINES.replace(b"#!/bin/sh\n", b"#!/bin/sh\necho 'not proved yet' >&2\n"))
        with self.assertLogs("marple", "DEBUG") as logged:
            marple.run_plan(COUNT, TRACE, program=path)
        self.assertRegex("\n".join(logged.output), r"DEBUG:marple:.*run-plan .* ended with status 0")
        self.assertRegex("\n".join(logged.output), r"INFO:marple:.* said: not proved yet")

    def test_run_from_the_command_line(self):
        stub = self.script(b"#!/bin/sh\necho \"$@\"\nexit 5\n")
        environment = os.environ | {"PYTHONPATH": str(TOP / "python"), "MARPLE": stub}
        ask = [sys.executable, "-m", "marple"]
        done = subprocess.run([*ask, "run", "a b", "c"], env=environment, capture_output=True, text=True, check=False)
        self.assertEqual((done.returncode, done.stdout, done.stderr), (5, "run a b c\n", ""))
        done = subprocess.run([*ask, "--version"], env=environment, capture_output=True, text=True, check=False)
        self.assertEqual(done.stdout, f"marple {(TOP / 'VERSION').read_text().strip()}, {stub}\n")


if __name__ == "__main__":
    unittest.main()
