"""Traces that are DataFrames: what is taken, what is refused, and the text that is made of them.

The expected texts are those that the module csv reads, and the expected tables those of the trace's own file.
"""

import array
import csv
import decimal
import fractions
import importlib.util
import io
import ipaddress
import math
import random
import unittest
from unittest import mock

from support import TOP, drawing

import marple
from marple.columns import text_of
from marple.frames import columns_of, since_1970

HAS_PANDAS = importlib.util.find_spec("pandas") is not None
if HAS_PANDAS:
    import numpy
    import pandas

COUNT = b"def count([c],[]) { c = c + 1; }\nr = groupby(pktstream, [srcip], count);\nprint r;\n"
WAITED = (
    b"def waited([longest],[d]) { longest = max(longest, d); }\nalive = filter(pktstream, tout != infinity);\n"
    b"times = map(alive, [d = tout - tin]);\nr = groupby(times, [srcip], waited);\nprint r;\n"
)


class OnlyTheProtocol:
    """A DataFrame of which nothing is known but the interchange protocol."""

    def __init__(self, frame):
        self.frame = frame

    def __dataframe__(self, nan_as_null: bool = False, allow_copy: bool = True):
        return self.frame.__dataframe__(nan_as_null, allow_copy)


def trace_of(frame) -> bytes:
    return text_of(columns_of(frame))


def records(trace: bytes) -> list[list[str]]:
    return list(csv.reader(io.StringIO(trace.decode(), newline="")))


@unittest.skipUnless(HAS_PANDAS, "pandas")
class Times(unittest.TestCase):
    """Times in nanoseconds since 1970, of which floats lose the last digits."""

    def setUp(self):
        draw = drawing("test_dataframes")
        start = 1_760_000_000_000_000_000
        self.lines = ["srcip,tin,tout"]
        for number in range(200):
            left = "inf" if number and draw.random() < 0.2 else start + number * 1000 + draw.randrange(100)
            self.lines.append(f"{draw.randrange(5)},{start + number * 1000},{left}")
        self.text = "".join(f"{line}\n" for line in self.lines)
        self.expected = marple.run(WAITED, self.text.encode()).text

    def test_as_floats_are_refused(self):
        frame = pandas.read_csv(io.StringIO(self.text))
        self.assertEqual(str(frame["tout"].dtype), "float64")
        with self.assertRaises(marple.TraceRefused) as refused:
            marple.run(WAITED, frame)
        self.assertEqual(refused.exception.shown, "BadNumber(1,tout)")
        self.assertRegex(str(refused.exception), r"column 'tout' \(float64\), row 1: 1\.76e\+18 is a float of 2\^53 or more")

    def test_as_whole_numbers_or_texts_are_exact(self):
        texts = pandas.read_csv(io.StringIO(self.text), dtype={"tout": str})
        self.assertEqual(str(texts["tin"].dtype), "int64")
        numbers = [None if text == "inf" else int(text) for text in texts["tout"]]
        columns = [texts["tout"], *(pandas.Series(numbers, dtype=name) for name in ("UInt64", "Int64", object))]
        for column in columns:
            with self.subTest(type=str(column.dtype)):
                self.assertEqual(marple.run(WAITED, texts.assign(tout=column)).text, self.expected)

    def test_with_a_time_zone_are_nanoseconds(self):
        frame = pandas.read_csv(io.StringIO(self.text), dtype=str)
        for name in ("tin", "tout"):
            times = numpy.array(["NaT" if text == "inf" else int(text) for text in frame[name]], dtype="datetime64[ns]")
            frame[name] = pandas.Series(times).dt.tz_localize("UTC").dt.tz_convert("Europe/Paris")
        self.assertEqual(marple.run(WAITED, frame).text, self.expected)

    def test_as_the_cookbook_reads_them(self):
        path = TOP / "examples" / "captures" / "queue.csv"
        types = {"tin": "UInt64", "tout": "UInt64"}
        frame = pandas.read_csv(path, dtype=types, na_values={"tout": ["inf"]})
        for query in ("loss.query", "histogram.query"):
            query = TOP / "examples" / "cookbook" / query
            self.assertEqual(marple.run(query, frame).text, marple.run(query, path).text)


@unittest.skipUnless(HAS_PANDAS, "pandas")
class Random(unittest.TestCase):
    """A trace drawn at random gives the same answer, or the same refusal, as a file and as a DataFrame of its texts."""

    QUERY = (
        b"def f([n, last],[tout, qsize]) { n = n + qsize; last = max(last, tout); }\n"
        b"r = groupby(pktstream, [srcip, dstip], f);\nprint r;\n"
    )
    NAMES = ("srcip", "dstip", "tout", "qsize", "note")

    def cell(self, draw: random.Random, name: str) -> str:
        if draw.random() < 0.01:
            return draw.choice(("-1", "1.5", "x", "18446744073709551616", "inf", "10.0.0"))
        if name == "note":
            return draw.choice(("a,b", 'say "so"', "two\nlines", "NA", "1.5"))
        words = [str(draw.randrange(3)), str(draw.randrange(2**64)), " 7\t", "007"]
        special = {"tout": ["inf"], "srcip": ["10.0.0.1"], "dstip": ["255.255.255.255"]}
        return draw.choice(words + special.get(name, []))

    def test_gives_what_its_file_gives(self):
        draw, kinds = drawing("test_dataframes"), set()
        for _ in range(40):
            names = draw.sample(self.NAMES, len(self.NAMES))
            rows = [[self.cell(draw, name) for name in names] for _ in range(draw.randrange(30))]
            file = io.StringIO(newline="")
            csv.writer(file, lineterminator="\n").writerows([names, *rows])
            frame = pandas.DataFrame(rows, columns=names, dtype=object)
            for name in names:
                if draw.random() < 0.3:
                    frame[name] = frame[name].astype("category")
            answers = [self.answer(trace) for trace in (file.getvalue().encode(), frame)]
            self.assertEqual(*answers)
            kinds.add(answers[0][0])
        self.assertEqual(kinds, {"tables", "refused"})

    def answer(self, trace) -> tuple[str, str]:
        try:
            return "tables", marple.run(self.QUERY, trace).text
        except marple.TraceRefused as refused:
            return "refused", refused.shown


@unittest.skipUnless(HAS_PANDAS, "pandas")
class NoNumbers(unittest.TestCase):
    def refused(self, values, name: str = "srcip") -> str:
        query = COUNT.replace(b"srcip", name.encode())
        with self.assertRaises(marple.TraceRefused) as refused:
            marple.run(query, pandas.DataFrame({name: values}))
        self.assertEqual(refused.exception.shown, f"BadNumber(2,{name})")
        return refused.exception.why

    def test_are_refused_by_column_row_and_type(self):
        series, times = pandas.Series, pandas.to_datetime(["2026-11-29", "2026-11-30"])
        cases = {
            "float64), row 2: 1.5 has a fraction": [1.0, 1.5],
            "float64), row 2: -1.0 is negative": [1.0, -1.0],
            "float64), row 2: inf stands for a dropped packet": [1.0, math.inf],
            "float64), row 2: 9007199254740992.0 is a float of 2^53 or more": [9007199254740991.0, 9007199254740992.0],
            "float32), row 2: 16777216.0 is a float of 2^24 or more": series([16777215, 16777216], dtype="float32"),
            "float64), row 2: there is no value": [1.0, math.nan],
            "object), row 2: there is no value": series([1, None], dtype=object),
            "Int64), row 2: there is no value": series([1, None], dtype="Int64"),
            "int64), row 2: -7 is negative": [1, -7],
            "object), row 2: 18446744073709551616 is 2^64 or more": [1, 2**64],
            "object), row 2: True is a boolean": [1, True],
            "object), row 2: 2026-11-30 00:00:00 has no time zone": series([1, times[1]], dtype=object),
            "object), row 2: 'x' is no number": [1, "x"],
            "category), row 2: 'x' is no number": series(["1", "x"], dtype="category"),
            "Float32), row 2: 16777216.0 is a float of 2^24 or more": series([5, 16777217], dtype="Float32"),
            "object), row 2: 16777216.0 is a float of 2^24 or more": series([1, numpy.float32(16777217)], dtype=object),
            "object), row 2: 100000000000000001/100000000000000000 has a fraction": [1, fractions.Fraction(10**17 + 1, 10**17)],
            "object), row 2: 1.5 has a fraction": [1, decimal.Decimal("1.5")],
            "object), row 2: b'7' is no number": [1, b"7"],
            "object), row 2: Period('2026', 'A-DEC') is no number": [1, pandas.Period("2026", "A-DEC")],
            "object), row 2: numpy.datetime64('2026') is no number": [1, numpy.datetime64("2026")],
            "object), row 2: numpy.timedelta64(7,'ns') is no number": [1, numpy.timedelta64(7, "ns")],
        }
        for shown, values in cases.items():
            with self.subTest(shown):
                self.assertIn(f"column 'srcip' ({shown}", self.refused(values))

    def test_are_refused_from_the_first_row(self):
        times = pandas.Series(pandas.to_datetime(["2026-11-29"]))
        years, lengths = pandas.Series(pandas.period_range("2026", periods=1, freq="A")), pandas.to_timedelta([7], unit="ns")
        for values, shown in (
            (times, "datetime64[ns]), row 1: 2026-11-29"), ([False], "bool), row 1: False is a boolean"),
            (years, "period[A-DEC]), row 1: Period('2026', 'A-DEC') is no number"),
            (lengths, "timedelta64[ns]), row 1: Timedelta('0 days 00:00:00.000000007') is no number"),
        ):  # fmt: skip
            with self.subTest(shown), self.assertRaises(marple.TraceRefused) as refused:
                marple.run(COUNT, pandas.DataFrame({"srcip": values}))
            self.assertIn(f"column 'srcip' ({shown}", str(refused.exception))

    def test_are_nothing_where_they_are_not_read(self):
        frame = pandas.DataFrame({"srcip": [1], "qsize": [1.5], "tin": [None], "ok": [True], "text": ['a,"b"\r\n']})
        self.assertEqual(marple.run(COUNT, frame)["r"].column("c"), [1])

    def test_of_dropped_packets_are_infinite(self):
        query = b"def f([d],[tout]) { if (tout == infinity) { d = d + 1; } } r = groupby(pktstream, [srcip], f); print r;"
        lacking = pandas.Series([pandas.NA, 5], dtype="UInt64")
        others = [[one, 5] for one in (decimal.Decimal("NaN"), decimal.Decimal("Infinity"), numpy.datetime64("NaT"))]
        for values in ([math.nan, 5.0], [math.inf, 5.0], ["inf", 5], [None, "5"], lacking, lacking.astype(object), *others):
            with self.subTest(values=str(values)):
                for name in ("tout", " tout"):
                    frame = pandas.DataFrame({"srcip": [1, 2], name: values})
                    self.assertEqual(marple.run(query, frame)["r"].column("d"), [1, 0])


@unittest.skipUnless(HAS_PANDAS, "pandas")
class Columns(unittest.TestCase):
    def test_are_written_as_csv_reads_them(self):
        draw = drawing("test_dataframes")
        marks = ["a", '"', ",", "\n", "\r", " ", "é", "'", "x", "0"]
        for _ in range(300):
            word = lambda most: "".join(draw.choice(marks) for _ in range(draw.randint(0, most)))  # noqa: E731
            names = list(dict.fromkeys(word(6) for _ in range(draw.randint(1, 5))))
            rows = [[draw.choice((word(4), draw.randrange(2**64))) for _ in names] for _ in range(draw.randint(0, 6))]
            frame = pandas.DataFrame(rows, columns=names, dtype=object)
            self.assertEqual(records(trace_of(frame)), [names, *([str(cell) for cell in row] for row in rows)])

    def test_with_a_quote_keep_their_rows(self):
        frame = pandas.DataFrame({'a "quoted" name': [1, 2, 3], "srcip": [7, 7, 8]})
        self.assertEqual(marple.run(COUNT, frame)["r"].rows, [(7, 0, 0, 1, 2), (8, 0, 0, 1, 1)])

    def test_of_addresses(self):
        words = [167772161, 4294967295, 0]
        expected = marple.run(COUNT, pandas.DataFrame({"srcip": words})).text
        texts = [str(ipaddress.IPv4Address(word)) for word in words]
        for values in (texts, list(map(ipaddress.IPv4Address, words)), pandas.Series(texts, dtype="category")):
            self.assertEqual(marple.run(COUNT, pandas.DataFrame({"srcip": values})).text, expected)

    def test_of_decimals_and_texts_of_own_types(self):
        class Text(str):
            def __str__(self) -> str:
                return "other"

        words = [5, 2**64 - 1, 7_000]
        expected = marple.run(COUNT, pandas.DataFrame({"srcip": words})).text
        numbers = [decimal.Decimal("5.00"), decimal.Decimal(2**64 - 1), decimal.Decimal("7E+3")]
        for values in (numbers, [Text(word) for word in words], [fractions.Fraction(word) for word in words]):
            self.assertEqual(marple.run(COUNT, pandas.DataFrame({Text("srcip"): values}, dtype=object)).text, expected)

    def test_of_times_are_nanoseconds_in_any_unit(self):
        for unit, number in {"s": 2**34, "ms": 2**44, "us": 2**54, "ns": 2**63 - 1}.items():
            times = numpy.array([number, 5], dtype=f"datetime64[{unit}]")
            one = {"s": 10**9, "ms": 10**6, "us": 10**3, "ns": 1}[unit]
            self.assertEqual(since_1970(times), [number * one, 5 * one])

    def test_are_levels_of_the_index_too(self):
        frame = pandas.DataFrame({"srcip": [1, 2, 1], "dstip": [5, 6, 5], "tin": [0, 1, 2]})
        query = COUNT.replace(b"[srcip]", b"[srcip, dstip]")
        expected = marple.run(query, frame).text
        self.assertEqual(marple.run(query, frame.set_index(["srcip", "dstip"])).text, expected)
        self.assertEqual(marple.run(query, frame.set_index("dstip", append=True)).text, expected)

    def test_of_one_name_are_refused(self):
        twice = pandas.DataFrame([[1, 2]], columns=["srcip", "srcip"])
        indexed = pandas.DataFrame({"srcip": [1]}, index=pandas.Index([2], name="srcip"))
        for frame in (twice, indexed):
            with self.assertRaisesRegex(marple.TraceRefused, "two columns of the DataFrame have the name 'srcip'"):
                marple.run(COUNT, frame)

    def test_of_a_frame_without_any_are_refused(self):
        with self.assertRaises(marple.TraceRefused):
            marple.run(COUNT, pandas.DataFrame())

    def test_of_other_names_are_named(self):
        for names, shown in ((["src", "tin"], "'src', 'tin'"), ([("srcip", "min"), ("srcip", "max")], "\"('srcip', 'min')\", ")):
            with self.assertRaises(marple.TraceRefused) as refused:
                marple.run(COUNT, pandas.DataFrame([[1, 2]], columns=names))
            self.assertIn(f"FieldMissing(srcip): the columns of the DataFrame are {shown}", str(refused.exception))


@unittest.skipUnless(HAS_PANDAS, "pandas")
class OfTheProtocol(unittest.TestCase):
    """Other libraries are read by the interchange protocol, as pandas is by itself."""

    def test_give_the_same_trace(self):
        draw = drawing("test_dataframes")
        for _ in range(100):
            size = draw.randint(1, 40)
            whole = [draw.randrange(2 ** draw.choice((7, 31, 63))) for _ in range(size)]
            frame = pandas.DataFrame({
                "srcip": numpy.array(whole, dtype="uint64"), "tin": numpy.array(whole, dtype="int64"),
                "qid": numpy.array([word % 128 for word in whole], dtype="int8"),
                "tout": [draw.choice((math.nan, math.inf, float(word % 2**53))) for word in whole],
                "dstip": [draw.choice(("10.0.0.1", "é,", "")) for _ in whole],
                "proto": pandas.Categorical([draw.choice(("6", "17")) for _ in whole]),
                "flag": [draw.random() < 0.5 for _ in whole],
            }).iloc[draw.randrange(size):]  # fmt: skip
            self.assertEqual(records(trace_of(OnlyTheProtocol(frame))), records(trace_of(frame)))

    def test_are_refused_by_column_and_type(self):
        frame = OnlyTheProtocol(pandas.DataFrame({"srcip": [1.0, 1.5]}))
        with self.assertRaisesRegex(marple.TraceRefused, r"column 'srcip' \(float64\), row 2: 1\.5 has a fraction"):
            marple.run(COUNT, frame)

    def test_of_polars(self):
        if importlib.util.find_spec("polars") is None:
            self.skipTest("polars")
        import polars

        schema = {"srcip": polars.Int64, "tin": polars.UInt64}
        frame = polars.DataFrame({"srcip": [1, 2, 1], "tin": [None, 2**64 - 1, 0]}, schema=schema)
        self.assertEqual(records(trace_of(frame)), [["srcip", "tin"], ["1", ""], ["2", str(2**64 - 1)], ["1", "0"]])

    def test_of_arrow(self):
        if importlib.util.find_spec("pyarrow") is None:
            self.skipTest("pyarrow")
        import pyarrow

        columns = {"srcip": [1, None], "tout": [None, 5]}
        frame = pyarrow.table({name: pyarrow.array(own, pyarrow.uint64()) for name, own in columns.items()})
        self.assertEqual(records(trace_of(frame)), [["srcip", "tout"], ["1", "inf"], ["", "5"]])


class WithoutALibrary(unittest.TestCase):
    def test_a_column_with_bits_for_missing_values_is_read(self):
        """Polars and Arrow say by a bit which values are there."""
        from marple.interchange import interchange_columns

        content = FakeBuffer([5, 6, 7], "Q")
        buffers = {"data": (content, (1, 64, "L", "=")), "validity": (FakeBuffer([0b101], "B"), None)}
        column = FakeColumn((1, 64, "L", "="), 3, (3, 0), buffers)
        names, *rows = records(text_of(interchange_columns(FakeFrame({"tout": column}))))
        self.assertEqual((names, rows), (["tout"], [["5"], ["inf"], ["7"]]))
        later = FakeColumn((1, 64, "L", "="), 1, (0, None), {"data": buffers["data"], "validity": None}, 2)
        frame = FakeFrame({"tout": column}, FakeFrame({"tout": later}))
        self.assertEqual(records(text_of(interchange_columns(frame)))[1:], [["5"], ["inf"], ["7"], ["7"]])

    def test_texts_with_long_offsets_are_read(self):
        from marple.interchange import interchange_columns

        buffers = {
            "data": (FakeBuffer(list("10.0.0.1é".encode()), "B"), (21, 8, "u", "=")),
            "offsets": (FakeBuffer([0, 8, 8, 10], "q"), (0, 64, "l", "=")),
            "validity": (FakeBuffer([0b111], "B"), None),
        }  # fmt: skip
        column = FakeColumn((21, 8, "U", "="), 3, (3, 0), buffers)
        self.assertEqual(records(text_of(interchange_columns(FakeFrame({"a": column})))), [["a"], ["10.0.0.1"], [""], ["é"]])


    def test_floats_of_categories_are_exact(self):
        """They have as many digits as their own type, not as that of their numbers."""
        from marple.interchange import interchange_columns

        floats = FakeColumn((2, 32, "f", "="), 2, (0, None), {"data": (FakeBuffer([5.0, 16777217.0], "f"), (2, 32, "f", "="))})
        codes = {"data": (FakeBuffer([0, 1, -1], "b"), (0, 8, "c", "="))}
        column = FakeColumn((23, 8, "c", "="), 3, (2, -1), codes)
        column.describe_categorical = {"is_ordered": False, "is_dictionary": True, "categories": floats}
        rows = records(text_of(interchange_columns(FakeFrame({"tout": column}))))
        self.assertEqual(rows, [["tout"], ["5"], ["16777216.0"], ["inf"]])


    def test_other_columns_that_cannot_be_read_are_left_out(self):
        """Polars and Arrow have lists, decimals and more, for which the protocol has no place."""
        from marple.interchange import interchange_columns

        numbers = FakeColumn((1, 64, "L", "="), 2, (0, None), {"data": (FakeBuffer([5, 6], "Q"), (1, 64, "L", "="))})
        lists = mock.Mock(spec=["dtype"])
        type(lists).dtype = mock.PropertyMock(side_effect=ValueError("no such type in the protocol"))
        self.assertEqual(text_of(interchange_columns(FakeFrame({"lists": lists, "tin": numbers}))), b"tin\n5\n6\n")
        with self.assertRaisesRegex(ValueError, "no such type"):
            interchange_columns(FakeFrame({"tin": numbers, "qsize": lists}))


class FakeBuffer:
    """A buffer of the protocol over an array of the standard library."""

    def __init__(self, values: list[int], code: str):
        self.kept = array.array(code, values)
        self.ptr, size = self.kept.buffer_info()
        self.bufsize = size * self.kept.itemsize


class FakeColumn:
    """A column of the protocol."""

    def __init__(self, dtype, size: int, null, buffers, offset: int = 0):
        self.dtype, self.count, self.describe_null, self.buffers, self.offset = dtype, size, null, buffers, offset

    def size(self) -> int:
        return self.count

    def get_buffers(self):
        return self.buffers


class FakeFrame:
    """A DataFrame of the protocol, of one piece or more."""

    def __init__(self, columns, *later):
        self.columns, self.later = columns, later

    def __dataframe__(self, nan_as_null: bool = False, allow_copy: bool = True):
        return self

    def get_chunks(self):
        return [self, *self.later]

    def column_names(self):
        return list(self.columns)

    def get_column(self, at: int):
        return list(self.columns.values())[at]


if __name__ == "__main__":
    unittest.main()
