"""The tables of parts, joined, are those of one run over the whole trace."""

import os
import shutil
import unittest
from collections import Counter
from pathlib import Path
from unittest import mock

from support import TIMES, TOP, Folder, but_for_epochs, choices, drawing, generated

import marple
from marple import Mark, parts
from marple.parts import job

REFUSED = ("FieldNeeded", "FinalGroupby", "FinalOfTop")
TRACE = (600, 11)
SMALL = {"buckets": 2, "ways": 2}  # of 64 flows most leave such a cache and come back


def partable() -> list[str]:
    return [name for name, chosen in choices().items() if chosen not in REFUSED]


def epochs_of(table: marple.Table) -> dict[tuple[int, ...], int]:
    """How many epochs each key has."""
    at = table.columns.index("epochs")
    return {row[: len(table.keys)]: row[at] for row in table.rows}


def valid_rows(table: marple.Table) -> dict[tuple[int, ...], tuple[int, ...]]:
    """The rows of the keys that have one epoch."""
    at = table.columns.index("mark")
    return {row[: len(table.keys)]: row for row in table.rows if row[at] == Mark.VALID}


class JoinedTables(unittest.TestCase):
    def setUp(self):
        self.folder = Folder(self)
        self.whole = self.folder.write("whole.csv", generated(*TRACE))

    def test_are_those_of_the_whole(self):
        for name in partable():
            query = TOP / name
            expected = marple.run(query, self.whole)
            for number in (2, 3, 7):
                traces = self.folder.traces(generated(*TRACE), number % 3 + 1)
                with self.subTest(query=name, parts=number):
                    size = len(generated(*TRACE)) // number + 1
                    answer = parts.run(query, traces, parts=number, piece=size)
                    self.assertEqual(answer.by, tuple(choices()[name].split(",")) if choices()[name] != "sums" else ())
                    self.check_same(answer, expected)
                    self.assertTrue(answer.parts >= number if answer.by else answer.parts > 1)

    def test_are_those_of_the_whole_at_random(self):
        draw = drawing("test_parts")
        for number in range(8 * TIMES):
            name, trace = draw.choice(partable()), marple.gen(draw.randint(1, 3_000), draw.randrange(2**31))
            options = {"parts": draw.randint(1, 60), "workers": draw.choice((None, 2)), "piece": draw.randint(2_000, 200_000)}
            with self.subTest(number=number, query=name, **options):
                answer = parts.run(TOP / name, self.folder.traces(trace, draw.randint(1, 5)), **options)
                self.check_same(answer, marple.run(TOP / name, trace))

    def check_same(self, answer: marple.Answer, expected: marple.Answer):
        self.assertEqual(list(answer), list(expected))
        for name, table in expected.items():
            own = answer[name]
            shape = (table.kind, table.depth, table.keys, table.columns)
            self.assertEqual((own.kind, own.depth, own.keys, own.columns), shape)
            self.assertEqual(but_for_epochs(own), but_for_epochs(table), name)
            if table.kind != "final":
                self.assertEqual(own.epochs, sum(epochs_of(own).values()))

    def test_of_small_caches(self):
        """Where keys leave the caches, exact rows are still those of the whole, and so is each row that is valid there."""
        others = 0
        for name in partable():
            query = TOP / name
            whole, apart = marple.run(query, self.whole, **SMALL), marple.run(query, self.whole)
            answer = parts.run(query, [self.whole], parts=3, piece=20_000, **SMALL)
            for table in (one for one in whole.values() if one.kind != "final"):
                with self.subTest(query=name, table=table.name):
                    own = answer[table.name]
                    if table.kind == "linear":
                        self.assertEqual(but_for_epochs(own), but_for_epochs(table))
                        continue
                    others += 1
                    self.assertEqual(epochs_of(own).keys(), epochs_of(table).keys())
                    self.assertLessEqual(valid_rows(table).items(), valid_rows(own).items())
                    self.assertLessEqual(valid_rows(own).items(), valid_rows(apart[table.name]).items())
                    most = epochs_of(table)
                    self.assertTrue(all(epochs <= most[key] for key, epochs in epochs_of(own).items()))
        self.assertGreater(others, 10)

    def test_of_fields_asked_for(self):
        query = TOP / "examples" / "cookbook" / "flows.query"
        expected = marple.run(query, self.whole)
        for by in (("dstip",), ("proto", "srcport")):
            answer = parts.run(query, [self.whole], by=by, parts=3)
            self.assertEqual(answer.by, by)
            self.check_same(answer, expected)

    def test_over_no_packets(self):
        header = generated(*TRACE).split(b"\n")[0]
        for name in ("examples/cookbook/flows.query", "examples/cookbook/total.query", "examples/cookbook/heavy.query"):
            empty = self.folder.write("empty.csv", header)
            self.assertEqual(parts.run(TOP / name, [empty, empty], parts=2).text, marple.run(TOP / name, empty).text)

    def test_of_starts_other_than_0(self):
        query = (
            b"def sums([n = 5, m = 18446744073709551615, d = 1],[pkt_len]) { n = n + 1; m = m - pkt_len; }\n"
            b"m = map(pktstream, [parity = uid & 1]); r = groupby(m, [parity], sums); print r;"
        )
        answer = parts.run(query, [self.whole], piece=2_000)
        self.assertEqual(answer.by, ())
        self.assertGreater(answer.parts, 1)
        self.check_same(answer, marple.run(query, self.whole))

    def test_of_several_splits(self):
        """Parts that come out too large are split again."""
        query = TOP / "examples" / "count.query"
        with mock.patch.multiple(job, PACKETS=40, ROOM=2, AGAIN=5):
            lines: list[str] = []
            answer = parts.run(query, [self.whole], piece=20_000, report=lines.append)
        self.check_same(answer, marple.run(query, self.whole))
        self.assertTrue(any("splitting it again" in line for line in lines), lines)
        self.assertGreater(answer.parts, 15)

    def test_of_small_parts(self):
        """There are more parts than the limits of a run ask for, but not so many that there would be many small files."""
        query, traces = TOP / "examples" / "count.query", self.folder.traces(generated(*TRACE), 2)
        expected, size = marple.run(query, self.whole), sum(map(os.path.getsize, traces))
        for bounds, number in (
            ({"SMALL": 4_000, "FILE": 1}, size // 4_000),
            ({"SMALL": 4_000, "FILE": 3_000}, size // 6_000),
            ({"SMALL": 4_000, "FILE": 1, "MOST": 3}, 3),
        ):
            with self.subTest(**bounds), mock.patch.multiple(job, **bounds):
                answer = parts.run(query, traces)
                self.check_same(answer, expected)
                self.assertEqual(answer.parts, number)

    def test_of_ranges_side_by_side(self):
        """A trace for several workers is split in ranges, also where the records have quotes."""
        trace = generated(*TRACE)
        header, *records = trace.splitlines()
        quoted = b"\n".join([header, *(b'"%s"' % line.replace(b",", b'","') for line in records)])
        noted = b"\n".join([header + b",note", *(line + b',"a\n1,2""\n"' for line in records)])
        with mock.patch.multiple(job, LEAST=1_000):
            for name in ("examples/count.query", "examples/cookbook/total.query", "examples/cookbook/heavy.query"):
                expected = marple.run(TOP / name, trace)
                for text in (trace, quoted, noted, trace.replace(b"\n", b"\r\n"), trace.replace(b"\n", b"\r")):
                    lines: list[str] = []
                    path = self.folder.write("ranges.csv", text)
                    self.check_same(parts.run(TOP / name, path, workers=3, report=lines.append), expected)
                    self.assertIn("split 3 of 3", lines)

    def test_of_a_fault_in_a_range(self):
        """The fault of a range is that of the whole trace."""
        lines = generated(*TRACE).splitlines()
        lines[500] = lines[500].replace(b",", b";")
        path = self.folder.write("fault.csv", b"\n".join(lines))
        with self.assertRaises(marple.TraceRefused) as whole:
            marple.run(TOP / "examples" / "count.query", path)
        with mock.patch.multiple(job, LEAST=1_000), self.assertRaises(marple.TraceRefused) as refused:
            parts.run(TOP / "examples" / "count.query", path, workers=3)
        self.assertEqual((refused.exception.fault, refused.exception.record), (whole.exception.fault, 500))

    def test_of_one_key_that_is_too_large(self):
        records = generated(*TRACE).splitlines()[1:]
        address, most = Counter(line.split(b",")[3] for line in records).most_common(1)[0]
        with mock.patch.multiple(job, PACKETS=most - 1, AGAIN=5), self.assertRaises(parts.KeyTooLarge) as refused:
            parts.run(TOP / "examples" / "count.query", [self.whole], piece=20_000)
        self.assertIn(f"srcip {address.decode()} has {most} packets", str(refused.exception))
        with mock.patch.multiple(job, BYTES=60), self.assertRaises(parts.KeyTooLarge):
            parts.run(TOP / "examples" / "count.query", [self.whole], piece=20_000)


class KeysWithoutNumbers(unittest.TestCase):
    """More records than one run takes have no number in a field that they are split by: that is the trace's fault."""

    QUERY = b"def count([c],[]) { c = c + 1; }\nr = groupby(pktstream, [srcip, dstip], count); print r;"
    HEADER = b"srcip,dstip,uid\n"

    def setUp(self):
        self.folder = Folder(self)
        patch = mock.patch.multiple(job, PACKETS=40, AGAIN=5)
        patch.start()
        self.addCleanup(patch.stop)

    def refused(self, *contents: bytes, **options) -> tuple[str, str | None]:
        """The fault in these files, and its file; with the bytes of the work looked at."""
        traces = [self.folder.write(f"{number}.csv", self.HEADER + text) for number, text in enumerate(contents)]
        work = self.folder.path("work")
        with self.assertRaises(marple.TraceRefused) as refused:
            parts.run(self.QUERY, traces, work=work, piece=2_000, **options)
        size = sum(path.stat().st_size for path in Path(work).rglob("split-*/*"))
        self.assertLessEqual(size, 3 * sum(map(len, contents)))
        shutil.rmtree(work)
        return refused.exception.shown, os.path.basename(refused.exception.path)

    def test_are_the_first_fault(self):
        good = b"".join(b"%d,%d,1\n" % (key % 50, key) for key in range(200))
        wide = b"".join(b"%d,fe80::%d,1\n" % (key % 50, key) for key in range(200))
        self.assertEqual(self.refused(wide), ("BadNumber(1,dstip)", "0.csv"))
        self.assertEqual(self.refused(good + wide), ("BadNumber(201,dstip)", "0.csv"))
        self.assertEqual(self.refused(good, good + wide + good), ("BadNumber(201,dstip)", "1.csv"))
        self.assertEqual(self.refused(good, wide, by="dstip"), ("BadNumber(1,dstip)", "1.csv"))
        self.assertEqual(self.refused(good + b"1,2\n" + wide), ("FieldCount(201)", "0.csv"))
        self.assertEqual(self.refused(good, b"x,y,1\n" + wide, b"z"), ("BadNumber(1,srcip)", "1.csv"))
        self.assertEqual(self.refused(b"::1,::2,1\n" * 200), ("BadNumber(1,srcip)", "0.csv"))

    def test_that_only_one_program_refuses_give_no_table(self):
        """What marple and marple-tools read otherwise is never left out of a table."""
        lines = (
            '#!/bin/sh', f'[ "$1" = run ] && [ -e {self.folder.path("header")} ] || {{',
            f'    [ "$1" != run ] || touch {self.folder.path("header")}', f'    exec {marple.find_program()} "$@"', '}',
            'echo "marple: trace: BadNumber(2,dstip)" >&2', 'exit 5',
        )  # fmt: skip
        program = self.folder.write("program", "\n".join([*lines, ""]).encode())
        os.chmod(program, 0o755)
        with self.assertRaisesRegex(marple.ProgramFailed, "BadNumber"):
            self.refused(b"5,6,1\n5,1001,1\n5,7,1\n", program=program)


class PacketsInOrder(unittest.TestCase):
    def test_of_a_key_over_files_and_pieces(self):
        """The fold keeps the last eight packets of a key, so their order shows."""
        folder = Folder(self)
        fold = (
            b"def last([a, b, c, d],[uid]) { d = c; c = b; b = a; a = uid; }\n"
            b"def digest([h],[uid]) { h = h * 31 + uid; }\n"
            b"r = groupby(pktstream, [srcip], last); s = groupby(pktstream, [srcip, dstip], digest); print r; print s;"
        )
        trace = generated(*TRACE)
        traces = folder.traces(trace, 4)
        answer = parts.run(fold, traces, parts=5, piece=4_000)
        expected = marple.run(fold, trace)
        for name in ("r", "s"):
            self.assertEqual(but_for_epochs(answer[name]), but_for_epochs(expected[name]))
        backwards = parts.run(fold, traces[::-1], parts=5, piece=4_000)
        self.assertNotEqual(backwards["s"].column("h"), expected["s"].column("h"))


if __name__ == "__main__":
    unittest.main()
