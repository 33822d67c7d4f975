"""Files of any bytes give in parts what runs over each of them give: the same counts, or the same first fault."""

import random
import unittest
from collections import Counter
from pathlib import Path
from unittest import mock

from support import TIMES, Folder, drawing

import marple
from marple import parts
from marple.parts import job

MARK = b"\xef\xbb\xbf"
COUNT = b"def count([c],[]) { c = c + 1; }\n"
KEYS = COUNT + b"r = groupby(pktstream, [srcip], count); print r;"
SUMS = COUNT + b"m = map(pktstream, [half = srcip / 2]); r = groupby(m, [half], count); print r;"
ENDS = (b"\n", b"\n", b"\r\n", b"\r", b"\n\n", b"\r\n\r\n", b"\n\r")
NOTES = (b"x", b"", MARK, b" ", b'a"b', b"\xff", MARK + b"y", b"9" * 40)
QUOTED = (b'""', b'"\n"', b'"\r\n5,6\r\n"', b'","', b'"a""b"', b'"%s"' % MARK, b'"c"d', b'" "', b'"\r"')
LAST = (b"", b"5,z", b'5,"', b'5,"a\n\nb', b'5,""', b'6,"a""', b"5,\r", b"5," + MARK, b"\n", b"\r\n\n")


def random_file(draw: random.Random) -> bytes:
    """A trace of keys and notes, with marks, quotes and empty lines at any places; one in eight has any bytes somewhere."""
    text = draw.choice((b"", b"", MARK, b"\n", b"\r\n")) + draw.choice((b"srcip,note", b'"srcip",note')) + draw.choice(ENDS)
    has_quotes = draw.random() < 0.7
    for _ in range(draw.randint(0, 12)):
        key = draw.choice((b"1", b"2", b" 3", b"004", b"10.0.0.1", b'"5"' if has_quotes else b"5"))
        note = draw.choice(QUOTED if has_quotes and draw.random() < 0.3 else NOTES)
        text += key + b"," + note + draw.choice(ENDS)
    if draw.random() < 0.125:
        at = draw.randint(text.index(b"note") + 5, len(text))
        text = text[:at] + draw.choice((b",", b"\n", b'"', b"x", MARK, b"\r1")) + text[at:]
    return text + draw.choice(LAST)


class AnyFiles(unittest.TestCase):
    def setUp(self):
        self.folder = Folder(self)
        patch = mock.patch.object(job, "LEAST", 1)
        patch.start()
        self.addCleanup(patch.stop)

    def whole(self, query: bytes, traces: list[str]) -> tuple[dict[int, int], tuple | None]:
        """The counts of runs over each file, added; and the first fault with its file."""
        counts: Counter[int] = Counter()
        for trace in traces:
            try:
                counts.update({row[0]: row[-1] for row in marple.run(query, trace)["r"].rows})
            except marple.TraceRefused as refused:
                return {}, (refused.shown, trace)
        return dict(counts), None

    def in_parts(self, query: bytes, traces: list[str], **options) -> tuple[dict[int, int], tuple | None]:
        try:
            answer = parts.run(query, traces, **options)
        except marple.TraceRefused as refused:
            return {}, (refused.shown, refused.path)
        return {row[0]: row[-1] for row in answer["r"].rows}, None

    def check(self, query: bytes, traces: list[str], **options) -> bool:
        """Whether there was a fault."""
        expected = self.whole(query, traces)
        content = [Path(trace).read_bytes() for trace in traces]
        self.assertEqual(self.in_parts(query, traces, **options), expected, (content, options))
        return expected[1] is not None

    def test_a_hundred_in_random_pieces(self):
        draw, made, faults = drawing("test_files"), 0, 0
        while made < 100 * TIMES:
            traces = [self.folder.write(f"{made}-{number}", random_file(draw)) for number in range(draw.randint(1, 4))]
            made += len(traces)
            piece = draw.choice((1, 3, 10, 30, 100))
            faults += self.check(draw.choice((KEYS, KEYS, SUMS)), traces, parts=draw.randint(1, 3), piece=piece)
        self.assertLess(faults, made // 4)

    def test_whose_last_byte_is_a_quote(self):
        first = self.folder.write("a.csv", b'srcip,note\n5,x\n5,"')
        second = self.folder.write("b.csv", b"srcip,note\n5,y\n5,z\n")
        for query in (KEYS, SUMS):
            for piece in (1, 4, 1000):
                counts, fault = self.in_parts(query, [first, second], piece=piece)
                self.assertEqual((sum(counts.values()), fault), (4, None))

    def test_that_have_no_last_line_end(self):
        contents = [b"srcip,note\n5,x\n6,y", b"srcip,note\r\n5,x", MARK + b"srcip,note\r5,x\r6,", b"\nsrcip,note"]
        traces = [self.folder.write(str(number), content) for number, content in enumerate(contents)]
        self.check(KEYS, traces)
        self.check(SUMS, traces, piece=5)

    def test_whose_header_has_marks(self):
        """A run takes off the mark at the beginning of a file, and no other one."""
        for content in (MARK + MARK + b"srcip,note\n5,x\n", b"\n" + MARK + b"srcip,note\n5,x\n"):
            self.assertTrue(self.check(KEYS, [self.folder.write("marks", content)]))
        self.assertFalse(self.check(KEYS, [self.folder.write("marks", MARK + b"srcip,note\n5," + MARK)]))


if __name__ == "__main__":
    unittest.main()
