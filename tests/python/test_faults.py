"""A fault of a trace is reported with its file, and otherwise as by a run over only that file."""

import random
import unittest
from unittest import mock

from support import Folder

import marple
from marple import parts
from marple.parts import job

BY_KEY = b"def f([m],[tin]) { m = max(m, tin); } r = groupby(pktstream, [srcip], f); print r;"
BY_SUMS = b"def f([m],[tin]) { m = m + tin; } a = map(pktstream, [all = srcip / 7]); r = groupby(a, [all], f); print r;"
HEADERS = (b"srcip,tin\n", b'"srcip","tin"\r\n', b"x, tin ,srcip\n")
RECORDS = {
    2: (b"1,2\n", b"7,8\r\n", b"10.0.0.1,4\n", b'"3",5\n', b" 9 ,010\n", b"\n", b"12,3\r", b'"1\n2",3\n'),
    3: (b"y,2,1\n", b'"a,b",3,9\n', b'"c""\n",4,3\r\n', b"\r\n", b"z,5,10.1.1.1\r", b',8,"7"\n'),
}
FAULTS = {
    2: (b"1\n", b"1,2,3\n", b"x,2\n", b"1,inf\n", b'"1,2\n', b",\n"),
    3: (b"y,2\n", b"y,x,1\n", b"y,2,1.2\n", b"a,b,c,d\n"),
}


def answer_of(call, *arguments, **options) -> tuple:
    """The tables but for epochs, or the fault."""
    try:
        answer = call(*arguments, **options)
    except marple.TraceRefused as refused:
        return refused.fault, refused.record, refused.field
    return tuple((row[0], row[-1]) for row in answer["r"].rows)


def random_trace(draw: random.Random, faults: int) -> bytes:
    header = draw.choice(HEADERS)
    columns = header.count(b",") + 1
    records = [draw.choice(RECORDS[columns]) for _ in range(draw.randint(0, 25))]
    for _ in range(faults):
        records.insert(draw.randint(0, len(records)), draw.choice(FAULTS[columns]))
    return header + b"".join(records)


class OneFile(unittest.TestCase):
    def test_gives_what_a_run_gives(self):
        draw, folder, kinds = random.Random(6), Folder(self), set()
        for number in range(60):
            trace = random_trace(draw, number % 3)
            query = (BY_KEY, BY_SUMS)[number % 2]
            path = folder.write("trace.csv", trace)
            expected = answer_of(marple.run, query, path)
            own = answer_of(parts.run, query, [path], parts=draw.randint(1, 4), piece=draw.randint(5, 60))
            self.assertEqual(own, expected, trace)
            kinds.add(expected[0] if expected and isinstance(expected[0], str) else "tables")
        self.assertEqual(kinds, {"tables", "FieldCount", "BadNumber"})


class SeveralFiles(unittest.TestCase):
    def setUp(self):
        self.folder = Folder(self)

    def refused(self, traces: list[bytes], query: bytes = BY_KEY, **options) -> marple.TraceRefused:
        self.paths = [self.folder.write(f"{number}.csv", trace) for number, trace in enumerate(traces)]
        with self.assertRaises(marple.TraceRefused) as refused:
            parts.run(query, self.paths, **options)
        return refused.exception

    def check(self, fault: marple.TraceRefused, file: int, shown: str):
        self.assertEqual((fault.path, fault.shown), (self.paths[file], shown))
        self.assertEqual(str(fault), f"trace: {shown} in {self.paths[file]}")

    def test_the_first_fault_is_reported(self):
        good = HEADERS[0] + b"".join(b"%d,%d\n" % (number % 9, number) for number in range(40))
        late, early = good + b"5,x\n" + b"6,x\n", HEADERS[0] + b"1,1\n4,\n" + b"5,1,1\n"
        for query in (BY_KEY, BY_SUMS):
            self.check(self.refused([good, late, early], query, parts=3, piece=70), 1, "BadNumber(41,tin)")
            self.check(self.refused([good, early, late], query, parts=3, piece=70), 1, "BadNumber(2,tin)")
            self.check(self.refused([good, HEADERS[0] + b"1\n", late], query, parts=3, piece=70), 1, "FieldCount(1)")

    def test_before_parts_are_split_again(self):
        records = [b"%d,%d\n" % (number % 30, number) for number in range(400)]
        records[333] = b"3,x\n"
        with mock.patch.multiple(job, PACKETS=20, ROOM=4, AGAIN=4):
            lines: list[str] = []
            traces = [HEADERS[0] + b"".join(own) for own in (records[:200], records[200:])]
            self.check(self.refused(traces, piece=500, report=lines.append), 1, "BadNumber(134,tin)")
            self.assertFalse(any("splitting it again" in line for line in lines), lines)
            traces[1] = traces[1].replace(b"x", b"333")
            paths = [self.folder.write(f"{number}.csv", trace) for number, trace in enumerate(traces)]
            self.assertEqual(parts.run(BY_KEY, paths, report=lines.append)["r"].column("m")[3], 393)
        self.assertTrue(any("splitting it again" in line for line in lines), lines)

    def test_of_more_faults_than_a_run_takes(self):
        trace = HEADERS[0] + b"".join(b"%d,1\n" % number for number in range(70)) + b"x,1\n" * 60
        with mock.patch.multiple(job, PACKETS=20, ROOM=4, AGAIN=4):
            self.check(self.refused([trace], piece=500), 0, "BadNumber(71,srcip)")

    def test_of_headers(self):
        self.check(self.refused([b"srcip,tout\n1,2\n"]), 0, "FieldMissing(tin)")
        self.check(self.refused([b"srcip,tin,srcip\n1,2,3\n"]), 0, "FieldTwice(srcip)")
        self.check(self.refused([b"srcip,tin\n1,2\n", b"\n"]), 1, "NoHeader")

    def test_of_other_columns(self):
        """Each file has a header of its own."""
        for query, expected in ((BY_KEY, {1: 3, 4: 2}), (BY_SUMS, {0: 9})):
            contents = (b"srcip,tin\n1,2\n", b'"srcip", tin\n1,3\n', b"tin,note,srcip\n2,x,4\n2,y,1\n5,,4\n"[:-6])
            paths = [self.folder.write(f"{number}.csv", content) for number, content in enumerate(contents)]
            rows = parts.run(query, paths)["r"].rows
            self.assertEqual({row[0]: row[-1] for row in rows}, expected)
        self.check(self.refused([b"srcip,tin\n1,2\n", b"tin,note\n1,2\n"]), 1, "FieldMissing(srcip)")

    def test_of_files_that_are_not_there(self):
        with self.assertRaisesRegex(marple.InputError, "cannot read the trace .*/none.csv"):
            parts.run(BY_KEY, [self.folder.path("none.csv")])
        with self.assertRaisesRegex(marple.InputError, "cannot read the query"):
            parts.run("no-such-query", [self.folder.write("0.csv", b"srcip,tin\n")])


if __name__ == "__main__":
    unittest.main()
