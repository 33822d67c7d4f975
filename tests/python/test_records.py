"""What the program splits by is what docs/FORMATS.md takes for a record, a field and a number, whatever the bytes."""

import itertools
import random
import re
import unittest
from pathlib import Path

from support import Folder, generated

from marple.faults import refusal_of
from marple.parts import tasks
from marple.parts.choice import Choice
from marple.parts.tasks import Split
from marple.program import find_tools

ALPHABET = [b",", b",", b"\n", b"\n", b"\r", b"\r\n", b'"', b'""', b" ", b"\t", b"1", b"2", b"07", b"10.0.0.1", b"x"]
ALPHABET += [b"\xff"]
MARK = b"\xef\xbb\xbf"
MOST = 2**64 - 1
QUAD = re.compile(rb"([0-9]{1,3})\.([0-9]{1,3})\.([0-9]{1,3})\.([0-9]{1,3})")
NAMES, PLACES = (b"srcip", b"note", b"tout"), ((0, "srcip"), (2, "tout"))


def states(data: bytes) -> list[list[bytes]]:
    """The records of RFC 4180 as the crate `csv` reads them, byte by byte, one state after another."""
    made, fields, field, state = [], [], b"", "record"
    for byte in (data[at : at + 1] for at in range(len(data))):
        if state == "record" and byte in b"\r\n":
            continue
        if state == "quoted":
            state, field = ("quote", field) if byte == b'"' else (state, field + byte)
        elif byte == b'"' and state in ("record", "field"):
            state = "quoted"
        elif byte == b'"' and state == "quote":
            state, field = "quoted", field + byte
        elif byte == b",":
            fields, field, state = [*fields, field], b"", "field"
        elif byte in b"\r\n":
            made, fields, field, state = [*made, [*fields, field]], [], b"", "record"
        else:
            field, state = field + byte, "text"
    return made if state == "record" else [*made, [*fields, field]]


def number_of(text: bytes, field: str) -> int | None:
    """The number that a field's text is, or None."""
    text = text.strip(b" \t")
    if re.fullmatch(rb"[0-9]{1,20}", text):
        return int(text) if int(text) <= MOST else None
    if field in ("srcip", "dstip") and (quad := QUAD.fullmatch(text)):
        first, second, third, fourth = map(int, quad.groups())
        return first << 24 | second << 16 | third << 8 | fourth if max(first, second, third, fourth) <= 255 else None
    return MOST if field == "tout" and text == b"inf" else None


def expected_of(data: bytes) -> tuple[str, list[tuple[int, ...]]]:
    """The first fault of the records after a header, if there is one, and the numbers of each record."""
    keys = []
    for number, fields in enumerate(states(data), 1):
        if len(fields) != len(NAMES):
            return f"FieldCount({number})", []
        words = [(number_of(fields[at], name), name) for at, name in PLACES]
        if bad := [name for word, name in words if word is None]:
            return f"BadNumber({number},{bad[0]})", []
        keys.append(tuple(word for word, _ in words))
    return "", keys


def random_bytes(draw: random.Random, size: int, quotes: bool = True) -> bytes:
    letters = ALPHABET if quotes else [letter for letter in ALPHABET if b'"' not in letter]
    return b"".join(draw.choice(letters) for _ in range(size))


def random_records(draw: random.Random, count: int, quotes: bool = True) -> bytes:
    """Records with numbers in their first and third field, but for a few, and anything in the second."""
    text = b""
    for _ in range(count):
        key, time = (draw.choice((b"1", b" 2\t", b"07", b"10.0.0.1", b"x" if draw.random() < 0.05 else b"3")) for _ in "ab")
        note = random_bytes(draw, draw.randint(0, 5), quotes=False).translate(None, b"\r\n,")
        if quotes and draw.random() < 0.5:
            key, note = b'"%s"' % key, b'"%s"' % random_bytes(draw, 4).replace(b'"', b'""')
        fields = [key, note, time.replace(b"10.0.0.1", b"inf"), *[b"4"] * (draw.random() < 0.05)]
        text += b",".join(fields) + draw.choice((b"\n", b"\r\n", b"\r", b"\n\n", b"\r\r\n"))
    return text + draw.choice((b"", b"", b"5", b"5,,6", b'5,,"6' if quotes else b"5,,6"))


class ASplit(unittest.TestCase):
    """Traces are split by two fields of three columns."""

    def setUp(self):
        self.folder, self.names = Folder(self), itertools.count()
        self.query("srcip", "tout")

    def query(self, *by: str) -> None:
        [text] = Choice(by, (), "", by).splitting(b"")
        self.queries = [self.folder.write("query", text)]

    def split(self, trace: bytes, parts: int = 3, level: int = 1) -> Split:
        path = self.folder.write("trace", trace)
        return tasks.split(find_tools(), self.queries, path, parts, level, self.folder.path(f"parts-{next(self.names)}"), True)

    def keys(self, split: Split) -> list[list[tuple[int, ...]]]:
        """The numbers of the records of each part."""
        lines = [Path(text.records.path).read_text().splitlines()[1:] for text in split.texts]
        for own, text in zip(lines, split.texts, strict=True):
            self.assertEqual(len(own), text.records.packets)
        return [[tuple(MOST if cell == "inf" else int(cell) for cell in line.split(",")) for line in own] for own in lines]

    def shown(self, trace: bytes) -> str:
        """The fault of a trace; nothing if it has none."""
        split = self.split(trace)
        return refusal_of(split.status, split.complaint).shown if split.status else ""


class Records(ASplit):
    def check(self, data: bytes) -> int:
        """How many records were split."""
        fault, keys = expected_of(data)
        split = self.split(b",".join(NAMES) + b"\n" + data)
        if fault:
            self.assertEqual((split.status, split.complaint, split.texts), (5, f"marple: trace: {fault}\n", ()), data)
            return 0
        self.assertEqual((split.status, split.complaint), (0, ""), data)
        parts = self.keys(split)
        for at, own in enumerate(parts):
            others = {key for place, other in enumerate(parts) for key in other if place != at}
            self.assertFalse(others & set(own), data)
            self.assertEqual(own, [key for key in keys if key in own], data)
        self.assertEqual(sum(map(len, parts)), len(keys), data)
        return len(keys)

    def test_with_quotes(self):
        draw = random.Random(1)
        checked = [self.check(random_bytes(draw, draw.randint(0, 60))) for _ in range(150)]
        checked += [self.check(random_records(draw, draw.randint(0, 9))) for _ in range(300)]
        self.assertGreater(sum(checked), 500)

    def test_without_quotes(self):
        draw = random.Random(2)
        checked = [self.check(random_bytes(draw, draw.randint(0, 60), quotes=False)) for _ in range(150)]
        checked += [self.check(random_records(draw, draw.randint(0, 9), quotes=False)) for _ in range(300)]
        self.assertGreater(sum(checked), 500)

    def test_of_lines_alone(self):
        draw = random.Random(3)
        checked = 0
        for _ in range(60):
            most = (2**64, 9, 2**64)
            checked += self.check(b"".join(b"%d,%d,%d\n" % tuple(draw.randrange(size) for size in most) for _ in range(8)))
        self.assertEqual(checked, 480)


class OtherForms(ASplit):
    def test_have_the_same_parts(self):
        """Neither quotes nor another form of a number changes the part of a record."""
        self.query("srcip", "dstip", "tout", "qsize")
        header, _, rest = generated(3000, 9).partition(b"\n")
        strange = re.sub(rb"(?<![^,\n])([0-9]+)(?=,)", rb" 00\g<1>\t", rest)
        quoted = re.sub(rb"[^,\n]+", rb'"\g<0>"', rest)
        plain = self.keys(self.split(header + b"\n" + rest, 7))
        for other in (strange, quoted):
            self.assertNotEqual(other, rest)
            self.assertEqual(self.keys(self.split(header + b"\n" + other, 7)), plain)
        self.assertEqual(sum(map(len, plain)), 3000)


class Headers(ASplit):
    def test_are_the_first_record(self):
        for header in (b"srcip,tout\n", MARK + b'"srcip",tout\r\n', b'\n\r\n "x",srcip , tout\t\n', b'"src""ip",tout,srcip\n'):
            self.assertEqual(self.shown(header), "", header)
            self.assertEqual(self.shown(header + b",".join([b"1"] * (header.count(b",") + 1))), "", header)
        for header in (b"srcip", b'"src""ip', MARK + MARK + b"srcip,tout\n", b"\n" + MARK + b"srcip,tout\n"):
            self.assertIn(self.shown(header), ("FieldMissing(srcip)", "FieldMissing(tout)"), header)
        for header in (b"", b"\n\r\n\n", MARK):
            self.assertEqual(self.shown(header), "NoHeader")


class Numbers(ASplit):
    def test_are_those_of_the_formats(self):
        expected = {
            (b"7", "tin"): 7, (b" \t007\t", "tin"): 7, (b"", "tin"): None, (b"-1", "tin"): None, (b"1.0", "tin"): None,
            (b"%d" % MOST, "tin"): MOST, (b"%d" % (MOST + 1), "tin"): None, (b"0" * 20, "tin"): 0, (b"0" * 21, "tin"): None,
            (b"10.0.0.1", "srcip"): 167772161, (b"010.000.0.001", "dstip"): 167772161, (b"10.0.0.1", "tin"): None,
            (b"10.0.0.256", "srcip"): None, (b"10.0.0", "srcip"): None, (b"10.0.0.1.", "srcip"): None,
            (b"10.0.0.0001", "srcip"): None, (b"inf", "tout"): MOST, (b"inf", "tin"): None, (b" inf ", "tout"): MOST,
            (b"Inf", "tout"): None, (b"1\n", "tin"): None, (b"\xb2", "tin"): None,
        }  # fmt: skip
        for (text, field), value in expected.items():
            self.assertEqual(number_of(text, field), value, (text, field))
            self.query(field)
            split = self.split(b'%s\n"%s"\n' % (field.encode(), text), parts=1)
            found = self.keys(split) if split.status == 0 else split.complaint
            wrong = f"marple: trace: BadNumber(1,{field})\n"
            self.assertEqual(found, wrong if value is None else [[(value,)]], (text, field))


class Parts(ASplit):
    def test_are_even_and_differ_between_levels(self):
        self.query("srcip")
        trace = b"srcip\n" + b"".join(b"%d\n" % (167772160 + number) for number in range(80_000))
        first, second = (self.keys(self.split(trace, 8, level)) for level in (1, 2))
        sizes = list(map(len, first))
        self.assertTrue(all(9_500 < size < 10_500 for size in sizes), sizes)
        parts = {key: at for at, own in enumerate(first) for key in own}
        moved = sum(parts[key] != at for at, own in enumerate(second) for key in own)
        self.assertTrue(68_000 < moved < 72_000, moved)

    def test_are_not_the_buckets_of_a_cache(self):
        self.query("srcip")
        parts = self.keys(self.split(b"srcip\n" + b"".join(b"%d\n" % word for word in range(8_192)), 8))
        for own in parts:
            self.assertEqual(len({((word * 0x9E3779B97F4A7C15 % 2**64) >> 32) % 64 for (word,) in own}), 64)


class Cuts(unittest.TestCase):
    """Cutting lines at any bytes gives them again, each once."""

    def setUp(self):
        self.folder = Folder(self)

    def test_are_at_their_ends(self):
        draw = random.Random(4)
        for _ in range(200):
            lines = [b"%d\n" % draw.randrange(10 ** draw.randint(1, 9)) for _ in range(draw.randint(1, 30))]
            text = tasks.text_of(self.folder.write("data", b"srcip\n" + b"".join(lines)))
            self.assertEqual((text.header, text.records.packets), (b"srcip\n", len(lines)))
            most = draw.randint(1, 9)
            spans = tasks.cut(text.records, draw.randint(1, 5), most)
            content = Path(text.records.path).read_bytes()
            read = [content[span.start : span.end].splitlines(True) for span in spans]
            self.assertEqual([line for own in read for line in own], lines)
            self.assertEqual([len(own) for own in read], [span.packets for span in spans])
            self.assertTrue(all(0 < span.packets <= most for span in spans))

    def test_are_as_many_as_asked_for(self):
        """A record that ends a little later than a piece does makes no piece of its own."""
        text = tasks.text_of(self.folder.write("data", b"srcip\n" + b"1,2,3\n" * 97))
        for pieces in (1, 2, 3, 5, 40):
            self.assertEqual(len(tasks.cut(text.records, pieces, 1000)), pieces)

if __name__ == "__main__":
    unittest.main()
