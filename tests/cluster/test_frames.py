"""Tables and traces as DataFrames."""

import io
import unittest

import numpy
import pandas
from support import CASES, TOP, cases, content, words

import marple

PRINTING = ("run", "net", "enclose", "run-plan", "trial")


class EveryTable(unittest.TestCase):
    def test_is_a_frame_of_its_words(self):
        """The frame has what pandas reads of the table's text by itself."""
        framed = 0
        for folder in cases():
            text = content(folder, "stdout").decode()
            if not text or words(folder)[0] not in PRINTING or text.startswith("view"):
                continue
            for table in marple.read_tables(text).values():
                with self.subTest(case=folder.name, table=table.name):
                    read = pandas.read_csv(io.StringIO(table.text), skiprows=1, dtype=str, keep_default_na=False)
                    frame = table.frame().reset_index() if table.keys else table.frame()
                    shown = frame.astype(str)
                    if "epoch" in shown and table.kind != "final":
                        shown.loc[shown["mark"] == "exact", "epoch"] = "*"
                    pandas.testing.assert_frame_equal(shown, read.astype(str), check_index_type=False)
                    framed += 1
        self.assertGreater(framed, 200)


class AFrame(unittest.TestCase):
    def test_has_words_keys_and_marks(self):
        folder = CASES / "run" / "greatest-word"
        frame = marple.run(folder / "query", folder / "trace")["r"].frame()
        self.assertEqual({str(frame[name].dtype) for name in frame.columns if name not in ("mark", "epoch")}, {"uint64"})
        self.assertEqual(str(frame["mark"].dtype), "category")
        self.assertEqual(list(frame["mark"].cat.categories), ["exact", "valid", "invalid", "within"])
        self.assertEqual(list(frame.index.names), ["srcip"])
        self.assertEqual(str(frame.index.dtype), "uint64")
        self.assertEqual(int(frame.iloc[:, -1].max()), 2**64 - 1)

    def test_of_no_rows(self):
        frame = marple.run(TOP / "examples" / "count.query", b"srcip\n")["r"].frame()
        self.assertEqual((len(frame), list(frame.columns)), (0, ["mark", "epoch", "epochs", "c"]))
        self.assertEqual(str(frame["c"].dtype), "uint64")

    def test_of_several_keys(self):
        trace = TOP / "examples" / "captures" / "queue.csv"
        frame = marple.run(TOP / "examples" / "cookbook" / "loss.query", trace)["loss"].frame()
        self.assertEqual(list(frame.index.names), ["srcip", "dstip", "srcport", "dstport", "proto"])
        self.assertEqual(int(frame.loc[(167772418, 167772674, 40002, 5002, 6), "lost"]), 80)


class ATrace(unittest.TestCase):
    QUERY = TOP / "examples" / "cookbook" / "loss.query"

    def test_as_a_frame_is_that_of_its_file(self):
        path = TOP / "examples" / "captures" / "queue.csv"
        expected = marple.run(self.QUERY, path).text
        self.assertEqual(marple.run(self.QUERY, pandas.read_csv(path)).text, expected)
        self.assertEqual(marple.run(self.QUERY, pandas.read_csv(path, dtype=str)).text, expected)

    def test_of_dropped_packets(self):
        frame = pandas.DataFrame({"srcip": ["10.0.0.1", 7], "tout": [numpy.inf, 4.0], "note": ['a,"b"\n', "c"]})
        query = b"def f([d],[tout]) { if (tout == infinity) { d = d + 1; } } r = groupby(pktstream, [srcip], f); print r;"
        self.assertEqual(marple.run(query, frame)["r"].frame()["d"].to_dict(), {7: 0, 167772161: 1})

    def test_of_no_numbers_is_refused(self):
        for value in (1.5, -1, numpy.nan, None, "", "x"):
            with self.subTest(value), self.assertRaises(marple.TraceRefused) as refused:
                marple.run(TOP / "examples" / "count.query", pandas.DataFrame({"srcip": [1, value]}))
            self.assertEqual(refused.exception.shown, "BadNumber(2,srcip)")


if __name__ == "__main__":
    unittest.main()
