"""What the options of a run in parts take, and what they ask for; and traces that are compressed."""

import bz2
import csv
import gzip
import io
import lzma
import re
import subprocess
import sys
import unittest
from unittest import mock

from support import TOP, Folder, but_for_epochs, generated

import marple
from marple import parts
from marple.parts import compression

QUERY = TOP / "examples" / "cookbook" / "flows.query"
COUNT = b"def count([c],[]) { c = c + 1; }\n"
SUMS = COUNT + b"m = map(pktstream, [all = 0]); r = groupby(m, [all], count); print r;"
TRACE = (300, 3)


class Bounds(unittest.TestCase):
    def setUp(self):
        self.folder = Folder(self)
        self.trace = self.folder.write("trace.csv", generated(*TRACE))

    def test_are_named(self):
        for options in (
            {"parts": 0}, {"parts": -3}, {"parts": 65_537}, {"parts": 2.0}, {"parts": True}, {"parts": "2"}, {"workers": 0},
            {"workers": -1}, {"workers": 1_025}, {"piece": 0}, {"piece": -5},
        ):  # fmt: skip
            [(name, value)] = options.items()
            with self.subTest(options), self.assertRaises(parts.OptionRefused) as refused:
                parts.run(QUERY, [self.trace], **options)
            expected = rf"OptionRefused: {name} is a whole number from 1 to \d+, and {re.escape(repr(value))} was given"
            self.assertRegex(str(refused.exception), expected)

    def test_are_those_of_the_command_too(self):
        for words in (("--workers", "-1"), ("--workers", "0"), ("--parts", "0"), ("--parts", "-2"), ("--workers", "9999")):
            command = [sys.executable, "-m", "marple.parts", str(QUERY), self.trace, *words]
            done = subprocess.run(command, capture_output=True, text=True, timeout=60, check=False)
            line = f"marple: OptionRefused: {words[0][2:]} is a whole number from 1 to "
            self.assertEqual((done.returncode, done.stdout), (2, ""))
            self.assertTrue(done.stderr.startswith(line) and done.stderr.count("\n") == 1, done.stderr)

    def test_of_the_program_are_its_own(self):
        with self.assertRaises(marple.UsageError):
            parts.run(QUERY, [self.trace], buckets=-1)

    def test_of_by(self):
        self.assertEqual(parts.run(QUERY, [self.trace], by="srcip").by, ("srcip",))
        for by in ("", "srcip,dstip", "tin", []):
            with self.subTest(by), self.assertRaises(parts.FieldRefused):
                parts.run(QUERY, [self.trace], by=by)

    def test_of_traces(self):
        self.assertEqual(parts.run(QUERY, self.trace).text, marple.run(QUERY, self.trace).text)
        self.assertEqual(parts.run(query_text=SUMS.decode(), traces=[self.trace])["r"].rows, parts.run(SUMS, self.trace)["r"].rows)
        self.assertEqual(parts.run(QUERY, (one for one in [self.trace])).text, marple.run(QUERY, self.trace).text)
        with self.assertRaises(parts.OptionRefused):
            parts.run(QUERY, [])
        frame = mock.Mock(spec=["__dataframe__", "__iter__"], __iter__=lambda frame: iter(["srcip"]))
        for traces in (None, 7, generated(*TRACE), io.StringIO("a\nb\n"), [self.trace, 7], frame):
            with self.assertRaisesRegex(TypeError, "traces are a path .*os.PathLike.* or several; not [a-zA-Z]+$"):
                parts.run(QUERY, traces)

    def test_of_a_client_and_workers(self):
        with self.assertRaises(parts.OptionRefused):
            parts.run(QUERY, [self.trace], client=object(), workers=2)


class AsAskedFor(unittest.TestCase):
    def setUp(self):
        self.folder = Folder(self)
        self.trace = self.folder.write("trace.csv", generated(*TRACE))

    def test_are_the_parts_of_sums(self):
        quoted = self.folder.write("quoted.csv", generated(*TRACE).replace(b"\n", b"\n", 1).replace(b",6,", b',"6",'))
        for trace in (self.trace, quoted):
            expected = but_for_epochs(marple.run(SUMS, trace)["r"])
            for number in (1, 2, 5, 20):
                with self.subTest(trace=trace, parts=number):
                    answer = parts.run(SUMS, [trace], parts=number)
                    self.assertEqual((answer.by, answer.parts), ((), number))
                    self.assertEqual(but_for_epochs(answer["r"]), expected)

    def test_are_the_workers(self):
        expected = marple.run(QUERY, self.trace).text
        lines: list[str] = []
        answer = parts.run(QUERY, [self.trace, self.trace], workers=3, piece=8_000, report=lines.append)
        whole = marple.run(QUERY, generated(*TRACE) + generated(*TRACE).split(b"\n", 1)[1])
        self.assertEqual(but_for_epochs(answer["r"]), but_for_epochs(whole["r"]))
        self.assertIn("ran 3 of 3", lines)
        self.assertEqual(parts.run(QUERY, [self.trace], workers=2).text, expected)

    def test_are_the_faults_of_workers(self):
        bad = self.folder.write("bad.csv", generated(*TRACE).replace(b"\n", b"\n1,2\n", 1))
        with self.assertRaises(marple.TraceRefused) as refused:
            parts.run(QUERY, [self.trace, bad], workers=2)
        self.assertEqual((refused.exception.shown, refused.exception.path), ("FieldCount(1)", bad))


class TheLimitOfFields(unittest.TestCase):
    def test_is_that_of_the_caller(self):
        """The module `csv` has one limit for the whole process."""
        self.addCleanup(csv.field_size_limit, csv.field_size_limit(4))
        folder = Folder(self)
        trace = folder.write("trace.csv", b'srcip,note\n5,"a note,\nlonger than that"\n6,"' + b"x" * 200_000)
        self.assertEqual(parts.run(COUNT + b"r = groupby(pktstream, [srcip], count); print r;", [trace])["r"].epochs, 2)
        self.assertEqual(parts.run(SUMS, [trace])["r"].rows[0][-1], 2)
        self.assertEqual(csv.field_size_limit(), 4)


class Compressed(unittest.TestCase):
    def setUp(self):
        self.folder = Folder(self)
        self.plain = self.folder.write("plain.csv", generated(*TRACE))

    def test_by_gzip_is_read(self):
        content = generated(*TRACE)
        packed = self.folder.write("packed.csv.gz", gzip.compress(content[:9_000]) + gzip.compress(content[9_000:]))
        expected = marple.run(QUERY, content + content.split(b"\n", 1)[1])
        for traces in ([packed, self.plain], [self.plain, packed]):
            answer = parts.run(QUERY, traces, parts=3, piece=8_000)
            self.assertEqual(but_for_epochs(answer["r"]), but_for_epochs(expected["r"]))
        self.assertEqual(parts.run(SUMS, [packed, self.plain])["r"].rows[0][-1], 2 * TRACE[0])

    def test_by_gzip_has_its_name_in_faults(self):
        bad = generated(*TRACE).replace(b"\n", b"\n1,2\n", 1)
        for content, shown in ((bad, "FieldCount(1)"), (b"\n", "NoHeader")):
            packed = self.folder.write("bad.csv.gz", gzip.compress(content))
            with self.assertRaises(marple.TraceRefused) as refused:
                parts.run(QUERY, [packed])
            self.assertEqual((refused.exception.shown, refused.exception.path), (shown, packed))

    def test_by_gzip_and_damaged_is_refused(self):
        whole = gzip.compress(generated(*TRACE))
        for content in (whole[:-9], whole[:5_000], whole[:2_000] + b"damage" + whole[2_006:], whole + b"more", whole[:4]):
            packed = self.folder.write("cut.csv.gz", content)
            with self.subTest(size=len(content)), self.assertRaises(marple.InputError) as refused:
                parts.run(QUERY, [packed])
            self.assertTrue(str(refused.exception).startswith(f"cannot read the trace {packed}: "))

    def test_by_others_is_refused(self):
        content = generated(*TRACE)
        zstd = b"\x28\xb5\x2f\xfd\x04\x00\x09\x00\x00a\n"
        for name, packed in (
            ("xz", lzma.compress(content)), ("bzip2", bz2.compress(content)), ("bzip2", bz2.compress(b"")), ("zstd", zstd),
        ):  # fmt: skip
            path = self.folder.write("trace.packed", packed)
            with self.subTest(name), self.assertRaises(parts.CompressionRefused) as refused:
                parts.run(QUERY, [self.plain, path])
            self.assertIn(f"{path} is compressed by {name}", str(refused.exception))
            self.assertEqual(refused.exception.status, 3)
        column = self.folder.write("BZh.csv", b"BZh9,srcip\n1,5\n")
        self.assertEqual(parts.run(COUNT + b"r = groupby(pktstream, [srcip], count); print r;", [column])["r"].epochs, 1)

    def test_that_cannot_be_opened_is_refused(self):
        """A trace that can't be read isn't a folder that can't be written."""
        def fail(*words) -> None:
            raise PermissionError(13, "Permission denied")

        with mock.patch("builtins.open", fail), self.assertRaises(marple.InputError) as refused:
            compression.is_compressed(self.plain)
        self.assertEqual(str(refused.exception), f"cannot read the trace {self.plain}: Permission denied")
        with mock.patch("gzip.open", fail), self.assertRaises(marple.InputError):
            compression.unpack(self.plain, self.folder.path("unpacked"), False)

    def test_in_a_pipe_is_refused(self):
        """A trace is read from several places at once. One that can't be was taken for an empty one."""
        command = [sys.executable, "-m", "marple.parts", str(QUERY), "/dev/stdin"]
        done = subprocess.run(command, input=generated(*TRACE), capture_output=True, check=False)
        self.assertEqual((done.returncode, done.stdout), (3, b""))
        self.assertIn(b"marple: cannot read the trace /dev/stdin", done.stderr)


if __name__ == "__main__":
    unittest.main()
