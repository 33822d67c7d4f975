"""Tables for other libraries, as files and as they are shown, compared with the modules csv and ipaddress and with pandas."""

import array
import csv
import importlib.util
import io
import ipaddress
import os
import pickle
import random
import subprocess
import sys
import unittest
from pathlib import Path
from unittest import mock

from support import TOP, Folder, drawing

import marple

HAS_PANDAS = importlib.util.find_spec("pandas") is not None
GREATEST = 2**64 - 1
SMALL = b"""table r other 0 4
srcip,dstip,mark,epoch,epochs,n
167772161,7,invalid,1,2,5
167772161,7,invalid,2,2,6
167772162,18446744073709551615,valid,1,1,7
4294967296,0,valid,1,1,8
table f final 1
dstip,n
1,8
"""


def random_table(draw: random.Random) -> tuple[str, list[list[str]]]:
    """The text of a table and its cells."""
    keys = [f"k{number}" for number in range(draw.randint(1, 5))]
    states = [f"s{number}" for number in range(draw.randint(0, 4))]
    kind = draw.choice(("linear", "other", "bounds", "final"))
    word = lambda: draw.choice((0, draw.randrange(10), draw.randrange(2**32), draw.randrange(2**64), GREATEST))  # noqa: E731
    middle = {"final": [], "bounds": ["mark", "epochs"]}.get(kind, ["mark", "epoch", "epochs"])
    rows = []
    for _ in range(draw.choice((0, 1, 2, 30, 400))):
        cells = [str(word()) for _ in (*keys, *states)]
        if kind == "linear":
            shown = ["exact", "*", str(draw.randrange(1, 9))]
        elif kind == "other":
            several = ["invalid", str(draw.randrange(1, 99)), str(draw.randrange(2, 99))]
            shown = draw.choice((["valid", "1", "1"], several, ["exact", "*", "2"]))
        else:
            shown = [draw.choice(("exact", "within")), str(draw.randrange(1, 9))][: len(middle)]
        rows.append([*cells[: len(keys)], *shown, *cells[len(keys) :]])
    head = f"table t final {len(rows)}" if kind == "final" else f"table t {kind} 2 17"
    text = f"{head}\n" + "".join(",".join(line) + "\n" for line in ([*keys, *middle, *states], *rows))
    return text, [[*keys, *middle, *states], *rows]


class Random(unittest.TestCase):
    """Tables with rows drawn at random, whole and in pieces."""

    def setUp(self):
        self.draw = drawing("test_exports")

    def check(self, table: marple.Table, lines: list[list[str]]):
        columns = list(zip(*lines[1:])) or [() for _ in lines[0]]
        self.assertEqual((list(table.columns), len(table)), (lines[0], len(lines) - 1))
        for at, cells in enumerate(columns):
            name = lines[0][at]
            if name == "mark":
                self.assertEqual([str(mark) for mark in table.column(name)], list(cells))
                continue
            words = [0 if cell == "*" else int(cell) for cell in cells]
            self.assertEqual(table.column(name), words)
            self.assertEqual(table.words(name), array.array("Q", words))
        rows = [tuple(cell if cell != "*" else "0" for cell in line) for line in lines[1:]]
        self.assertEqual([tuple(map(str, row)) for row in table.rows], rows)

    def test_are_read_as_they_are(self):
        for _ in range(300):
            text, lines = random_table(self.draw)
            table = marple.read_tables(text)["t"]
            self.check(table, lines)
            self.assertEqual(table.text, text)
            read = list(csv.reader(io.StringIO(table.to_csv())))
            self.assertEqual(read, [["" if cell == "*" else cell for cell in line] for line in lines])
            self.assertEqual(pickle.loads(pickle.dumps(table)), table)

    def test_are_the_same_in_pieces_and_from_a_file(self):
        folder = Folder(self)
        for _ in range(100):
            text, lines = random_table(self.draw)
            path = folder.write("tables", text.encode())
            table = marple.tables_of_file(path)["t"]
            Path(path).unlink()
            pieces = list(table.pieces(self.draw.choice((1, 50, 1000))))
            self.assertEqual([row for piece in pieces for row in piece.rows], table.rows)
            self.assertLessEqual(len(pieces), max(len(lines) - 1, 1))
            self.check(table, lines)

    def test_are_refused_where_a_byte_changed_the_form(self):
        """A changed byte is refused, or gives the text that was changed."""
        for _ in range(600):
            text, _ = random_table(self.draw)
            at = self.draw.randrange(len(text))
            changed = text[:at] + self.draw.choice("0,\n19*- _ev") + text[at + 1 :]
            try:
                answer = marple.read_tables(changed)
            except marple.TableFault:
                continue
            self.assertEqual(answer.text, changed)
            for table in answer.values():
                for row in table.rows:
                    self.assertTrue(all(0 <= word <= GREATEST for word in row))

    @unittest.skipUnless(HAS_PANDAS, "pandas")
    def test_are_the_frames_that_pandas_reads(self):
        import pandas

        for _ in range(150):
            text, lines = random_table(self.draw)
            table = marple.read_tables(text)["t"]
            frame = table.to_pandas()
            read = pandas.read_csv(io.StringIO(text), skiprows=1, dtype=str, keep_default_na=False)
            flat = frame.reset_index() if table.keys else frame
            types = {"mark": "category", "epoch": "UInt64"}
            self.assertEqual([str(flat[name].dtype) for name in flat], [types.get(name, "uint64") for name in lines[0]])
            shown = flat.astype(object).where(flat.notna(), "*").astype(str)
            pandas.testing.assert_frame_equal(shown, read.astype(str), check_index_type=False)
            self.assertEqual(table.to_csv(), flat.to_csv(index=False))

    @unittest.skipUnless(HAS_PANDAS, "pandas")
    def test_do_not_change_with_their_frames(self):
        table = marple.read_tables(SMALL)["r"]
        table.to_pandas().iloc[:, -1] = 0
        table.to_pandas().loc[:, "epochs"] += 1
        self.assertEqual((table.column("n"), table.column("epochs")), ([5, 6, 7, 8], [2, 2, 1, 1]))

    @unittest.skipUnless(importlib.util.find_spec("pyarrow"), "pyarrow")
    def test_are_tables_of_arrow(self):
        self.check_arrow()

    def test_are_tables_of_a_library_like_arrow(self):
        """One that has the same calls, and takes no other arguments."""
        kept: dict[str, object] = {}
        parquet = mock.Mock(read_table=kept.get, write_table=lambda table, path: kept.update({path: table}))
        with mock.patch.dict(sys.modules, {"pyarrow": LikeArrow, "pyarrow.parquet": parquet}):
            self.check_arrow()

    def check_arrow(self) -> None:
        parquet, folder = importlib.import_module("pyarrow.parquet"), Folder(self)
        for _ in range(50):
            text, lines = random_table(self.draw)
            table = marple.read_tables(text)["t"]
            made = table.to_arrow()
            table.to_parquet(folder.path("t.parquet"))
            for one in (made, parquet.read_table(folder.path("t.parquet"))):
                cells = [one.column(name).to_pylist() for name in lines[0]]
                shown = [["*" if cell is None else str(cell) for cell in column] for column in cells]
                self.assertEqual([list(row) for row in zip(*shown)], lines[1:])


class LikeArrow:
    """What of pyarrow makes a table: the same names, arguments and refusals, over lists."""

    @staticmethod
    def uint64() -> range:
        return range(2**64)

    @staticmethod
    def int8() -> range:
        return range(-(2**7), 2**7)

    @staticmethod
    def string() -> type:
        return str

    @staticmethod
    def py_buffer(thing) -> memoryview:
        return memoryview(thing).cast("B")

    @staticmethod
    def array(values, type=None) -> mock.Mock:
        """A column of what a sequence has, one by one, and None where there is nothing."""
        own = [value for value in values]
        for value in own:
            fits = isinstance(value, str) if type in (None, str) else value is None or value in type
            if not fits:
                raise ValueError(f"{value!r} is not of {type}")
        return mock.Mock(to_pylist=lambda: own, spec=["to_pylist"])

    class Array:
        @staticmethod
        def from_buffers(type: range, length: int, buffers: list):
            validity, data = buffers
            if validity is not None or len(data) < 8 * length:
                raise ValueError("the buffers don't fit")
            return LikeArrow.array(data.cast("Q")[:length].tolist(), type)

    class DictionaryArray:
        @staticmethod
        def from_arrays(indices, dictionary):
            return LikeArrow.array([dictionary.to_pylist()[at] for at in indices.to_pylist()])

    class Table:
        @staticmethod
        def from_arrays(arrays: list, names: list):
            if len({len(one.to_pylist()) for one in arrays}) > 1 or len(arrays) != len(names):
                raise ValueError("columns of different lengths")
            return mock.Mock(column=dict(zip(names, arrays)).__getitem__, spec=["column"])


class Addresses(unittest.TestCase):
    def test_are_texts_where_asked_for(self):
        table = marple.read_tables(SMALL)["r"]
        lines = list(csv.DictReader(io.StringIO(table.to_csv(addresses=True))))
        for line, source, destination in zip(lines, table.column("srcip"), table.column("dstip")):
            for shown, word in ((line["srcip"], source), (line["dstip"], destination)):
                self.assertEqual(shown, str(ipaddress.IPv4Address(word)) if word < 2**32 else str(word))

    @unittest.skipUnless(HAS_PANDAS, "pandas")
    def test_are_texts_in_frames(self):
        table = marple.read_tables(SMALL)["r"]
        flat = table.to_pandas(addresses=True).reset_index()
        self.assertEqual(table.to_csv(addresses=True), flat.to_csv(index=False))


class Shown(unittest.TestCase):
    def test_of_a_table_are_its_kind_and_first_rows(self):
        table = marple.read_tables(SMALL)["r"]
        lines = repr(table).splitlines()
        self.assertEqual(lines[0], "table r: other, 4 rows")
        self.assertEqual(lines[1].split(), list(table.columns))
        self.assertEqual(lines[2].split(), ["10.0.0.1", "0.0.0.7", "invalid", "1", "2", "5"])
        many = "".join(f"{number},1\n" for number in range(1000))
        shown = repr(marple.read_tables(f"table f final 1000\na,b\n{many}")["f"])
        self.assertLess(len(shown.splitlines()), 20)
        self.assertTrue(shown.endswith("..."))

    def test_as_html_has_the_same_cells(self):
        answer = marple.read_tables(SMALL)
        for text in (answer["r"]._repr_html_(), answer._repr_html_()):
            self.assertIn("<td>10.0.0.1</td><td>0.0.0.7</td><td>invalid</td>", text)
        self.assertEqual(answer["r"]._repr_html_().count("<tr>"), 5)

    def test_of_an_answer_are_its_tables(self):
        answer = marple.read_tables(SMALL)
        self.assertEqual(repr(answer), "Answer, tables: 2\n  table r other 0 4, rows: 4\n  table f final 1, rows: 1")
        self.assertEqual((len(answer), len(answer["r"])), (2, 4))

    def test_that_are_not_there_say_which_are(self):
        answer = marple.read_tables(SMALL)
        with self.assertRaisesRegex(KeyError, "the tables are r, f"):
            answer["s"]
        self.assertIsNone(answer.get("s"))
        with self.assertRaisesRegex(KeyError, "its columns are dstip, n"):
            answer["f"].column("m")


class Files(unittest.TestCase):
    def test_of_all_tables(self):
        folder = Folder(self)
        answer = marple.read_tables(SMALL)
        answer.to_csv(folder.place.name)
        for name in ("r", "f"):
            self.assertEqual(Path(folder.path(f"{name}.csv")).read_text(), answer[name].to_csv())

    def test_of_any_size_are_not_held(self):
        """A table of 80 MB is written as CSV, and read in pieces, by a process that may take 40 MB more."""
        folder = Folder(self)
        line = "18446744073709551615,exact,*,1,18446744073709551615\n"
        block = line * (10**6 // len(line))
        with open(folder.path("tables"), "w") as file:
            file.write("table r linear 0 3\nsrcip,mark,epoch,epochs,c\n")
            file.writelines([block] * 80)
        script = (
            "import marple, resource, sys\n"
            "taken = int(open('/proc/self/status').read().split('VmData:')[1].split()[0]) << 10\n"
            "resource.setrlimit(resource.RLIMIT_DATA, (taken + (40 << 20),) * 2)\n"
            "table = marple.tables_of_file(sys.argv[1])['r']\n"
            "table.to_csv(sys.argv[2])\n"
            "print(len(table), sum(len(piece.words('c')) for piece in table.pieces()))\n"
        )
        environment = os.environ | {"PYTHONPATH": str(TOP / "python")}
        command = [sys.executable, "-c", script, folder.path("tables"), folder.path("csv")]
        done = subprocess.run(command, capture_output=True, text=True, env=environment, check=True)
        rows = 80 * block.count("\n")
        self.assertEqual(done.stdout, f"{rows} {rows}\n")
        self.assertEqual(Path(folder.path("csv")).stat().st_size, len("srcip,mark,epoch,epochs,c\n") + rows * (len(line) - 1))

    def test_that_are_no_tables_are_refused_as_they_are_read(self):
        folder = Folder(self)
        whole = marple.tables_of_file(folder.write("tables", SMALL.replace(b"7,invalid,1,2,5", b"07,invalid,1,2,5")))
        self.assertEqual(whole["f"].rows, [(1, 8)])
        for ask in (lambda: whole["r"].rows, lambda: list(whole["r"].pieces()), lambda: whole["r"].to_csv()):
            with self.assertRaisesRegex(marple.TableFault, "a leading zero"):
                ask()
        for text in (SMALL[:-1], SMALL.replace(b"final 1", b"final 2"), b"words\n"):
            with self.assertRaises(marple.TableFault):
                marple.tables_of_file(folder.write("other", text))
        self.assertEqual(len(marple.tables_of_file(folder.write("none", b""))), 0)

    def test_of_libraries_that_are_not_there_say_what_to_install(self):
        hidden = mock.patch.dict(sys.modules, {"pyarrow": None})
        with hidden, self.assertRaisesRegex(ImportError, "tables of Arrow need pyarrow: pip install pyarrow"):
            marple.read_tables(SMALL)["r"].to_parquet("never.parquet")


class LeftOut(unittest.TestCase):
    """A final has only the keys whose rows cover all their packets."""

    FOLD = b"def last([a],[uid]) { if (uid > a) { a = uid; } else { a = a / 2; } }\n"

    def run_over(self, prints: bytes, call=marple.run) -> marple.Answer:
        query = self.FOLD + b"r = groupby(pktstream, [srcip], last);\nfinal f = top(r, a, 100);\n" + prints
        trace = b"srcip,uid\n" + b"".join(b"%d,%d\n" % (key, 1 + at) for at, key in enumerate((1, 2, 1, 3, 2, 4, 4)))
        return call(query, trace, buckets=1, ways=1)

    def test_are_counted_and_warned_of(self):
        """Keys 1 and 2 leave a cache of one key and come back."""
        for prints in (b"print f;", b"print r;\nprint f;", b"print f;  # the best"):
            with self.subTest(prints), self.assertWarnsRegex(marple.KeysLeftOut, "final f lacks 2 keys of r") as warned:
                answer = self.run_over(prints)
            self.assertEqual(warned.filename, __file__)
            self.assertEqual((answer["f"].left_out, list(answer)), (2, ["r", "f"] if b"print r" in prints else ["f"]))
            self.assertEqual(answer["f"].column("srcip"), [3, 4])
            self.assertIn("2 keys left out", repr(answer["f"]))

    def test_are_known_of_parts(self):
        """In one part as in one run. Where each key is a part, none leaves its cache."""
        from marple import parts

        def over_parts(query: bytes, trace: bytes, **options: int) -> marple.Answer:
            return parts.run(query, Folder(self).write("trace.csv", trace), parts=number, **options)

        for prints in (b"print f;", b"print r;\nprint f;"):
            number = 1
            with self.subTest(prints), self.assertWarnsRegex(marple.KeysLeftOut, "final f lacks 2 keys of r") as warned:
                answer = self.run_over(prints, over_parts)
            self.assertEqual(warned.filename, __file__)
            self.assertEqual((answer["f"].left_out, list(answer)), (2, ["r", "f"] if b"print r" in prints else ["f"]))
            self.assertEqual(answer["f"].column("srcip"), [3, 4])
            number = 10
            answer = self.run_over(prints, over_parts)
            self.assertEqual((answer["f"].left_out, len(answer["f"])), (0, 4))

    def test_are_none_of_linear_folds_and_of_large_caches(self):
        import warnings

        with warnings.catch_warnings():
            warnings.simplefilter("error")
            query = b"def count([c],[]) { c = c + 1; }\nr = groupby(pktstream, [srcip], count);\nfinal f = top(r, c, 1);\nprint f;"
            for text, options in ((query, {"buckets": 1, "ways": 1}), (query.replace(b"c + 1", b"c / 2 + 1"), {})):
                answer = marple.run(text, b"srcip\n1\n2\n1\n", **options)
                self.assertEqual((answer["f"].left_out, list(answer)), (0, ["f"]))

    def test_are_known_of_each_view(self):
        query = self.FOLD + b"r = groupby(pktstream, [srcip], last);\nfinal f = filter(r, a >= 0);\nprint f;"
        with self.assertWarns(marple.KeysLeftOut):
            answer = marple.run(query, b"srcip,uid\n1,1\n2,2\n1,3\n2,4\n", buckets=1, ways=1, every=1)
        self.assertEqual([view["f"].left_out for view in answer.views], [0, 0, 1, 2])
        self.assertEqual(answer["f"].left_out, 2)

    def test_of_tables_alone_are_not_known(self):
        self.assertIsNone(marple.read_tables(SMALL)["f"].left_out)


if __name__ == "__main__":
    unittest.main()
