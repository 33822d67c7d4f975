"""Tables are read and written exactly."""

import unittest

from support import cases, content, words

from marple import Mark, read_tables
from marple.facts import facts_of, keys_of, tables_of
from marple.tables import TableFault

PRINTING = ("run", "net", "enclose", "run-plan", "trial")


class EveryTable(unittest.TestCase):
    def test_is_the_same_after_reading(self):
        read = 0
        for folder in cases():
            text = content(folder, "stdout")
            if not text or words(folder)[0] not in PRINTING:
                continue
            with self.subTest(case=folder.name):
                self.assertEqual(read_tables(text).text.encode(), text)
                read += 1
        self.assertGreater(read, 150)


LATE = b"""table r other 1 3
srcip,mark,epoch,epochs,last,n
1,invalid,1,2,5,0
1,invalid,2,2,18446744073709551615,1
2,valid,1,1,1,0
table worst final 1
srcip,last,n
2,1,0
"""
VIEWS = b"""view 2
table r linear 0 2
srcip,mark,epoch,epochs,c
1,exact,*,1,1
2,exact,*,1,1
view 4
table r linear 0 3
srcip,mark,epoch,epochs,c
1,exact,*,2,3
2,exact,*,1,1
table r linear 0 3
srcip,mark,epoch,epochs,c
1,exact,*,2,4
2,exact,*,1,1
"""
BOUNDS = b"""table r bounds 0 3
srcip,mark,epochs,e.lo,e.hi
1,within,2,8,9223372036854775816
2,exact,1,0,0
"""


class ATable(unittest.TestCase):
    def test_of_a_groupby(self):
        table = read_tables(LATE)["r"]
        self.assertEqual((table.name, table.kind, table.depth, table.epochs), ("r", "other", 1, 3))
        self.assertEqual((table.keys, table.columns), (("srcip",), ("srcip", "mark", "epoch", "epochs", "last", "n")))
        self.assertEqual(table.rows[1], (1, Mark.INVALID, 2, 2, 18446744073709551615, 1))
        self.assertEqual(table.column("mark"), [Mark.INVALID, Mark.INVALID, Mark.VALID])

    def test_of_a_final(self):
        query = (
            b"def late([last, n], []) { n = n + last; last = 1; } "
            b"r = groupby(pktstream, [srcip], late); final worst = top(r, n, 1); print r; print worst;"
        )
        table = read_tables(LATE, {"worst": keys_of(tables_of(facts_of(query))["worst"])})["worst"]
        self.assertEqual((table.kind, table.depth, table.epochs), ("final", None, None))
        self.assertEqual((table.keys, table.rows), (("srcip",), [(2, 1, 0)]))
        self.assertIsNone(read_tables(LATE)["worst"].keys)

    def test_of_bounds(self):
        table = read_tables(BOUNDS)["r"]
        self.assertEqual((table.kind, table.keys), ("bounds", ("srcip",)))
        self.assertEqual(table.rows, [(1, Mark.WITHIN, 2, 8, 9223372036854775816), (2, Mark.EXACT, 1, 0, 0)])

    def test_exact_rows_have_epoch_0(self):
        self.assertEqual(read_tables(VIEWS)["r"].rows[0], (1, Mark.EXACT, 0, 2, 4))


class Views(unittest.TestCase):
    def test_come_in_order_before_the_whole(self):
        answer = read_tables(VIEWS)
        self.assertEqual([view.packets for view in answer.views], [2, 4])
        self.assertEqual([view["r"].column("c") for view in answer.views], [[1, 1], [3, 1]])
        self.assertEqual(answer["r"].column("c"), [4, 1])
        self.assertEqual(answer.text.encode(), VIEWS)


class AnotherText(unittest.TestCase):
    def test_is_refused(self):
        wrong = {
            "no line end": LATE[:-1],
            "a leading zero": LATE.replace(b"2,1,0\n", b"02,1,0\n"),
            "a word of 2^64": LATE.replace(b"18446744073709551615", b"18446744073709551616"),
            "a sign": LATE.replace(b"2,1,0\n", b"-2,1,0\n"),
            "a blank": LATE.replace(b"2,1,0\n", b"2, 1,0\n"),
            "a cell too few": LATE.replace(b"2,1,0\n", b"2,1\n"),
            "a cell too many": LATE.replace(b"2,valid,1,1,1,0\n", b"2,valid,1,1,1,0,0\n"),
            "another mark": LATE.replace(b"valid", b"Valid"),
            "an exact row with an epoch": VIEWS.replace(b"1,exact,*,2,4", b"1,exact,1,2,4"),
            "a valid row without": LATE.replace(b"2,valid,1,", b"2,valid,*,"),
            "another number of rows": LATE.replace(b"final 1", b"final 2"),
            "no heading": b"table r linear 0 0\n",
            "another class": VIEWS.replace(b"linear", b"affine"),
            "words alone": b"srcip,c\n",
            "an empty line": LATE + b"\n",
            "a view without tables after it": VIEWS[: VIEWS.rindex(b"table")],
            "two tables of one name": LATE.replace(b"worst", b"r"),
        }
        for what, text in wrong.items():
            with self.subTest(what), self.assertRaises(TableFault):
                read_tables(text)


if __name__ == "__main__":
    unittest.main()
