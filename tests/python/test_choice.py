"""How each query may run in parts, or why it can't."""

import unittest

from support import TOP, choices

from marple import QueryRefused
from marple.parts import FieldNeeded, FieldRefused, FinalGroupby, FinalOfTop, PartsRefused, choose

COUNT = b"def count([c],[]) { c = c + 1; }\ndef most([m],[qsize]) { m = max(m, qsize); }\n"


def shown(query: bytes) -> str:
    """The choice as the list of choices writes it."""
    try:
        chosen = choose(query, None)
    except PartsRefused as refused:
        return type(refused).__name__
    return ",".join(chosen.by) or "sums"


class EveryQuery(unittest.TestCase):
    """Each query of the cases and the cookbook that the program accepts. The list `choices` was made by another reader
    of queries, which knows types and columns.
    """

    def test_is_chosen_for(self):
        for name, expected in choices().items():
            with self.subTest(query=name):
                self.assertEqual(shown((TOP / name).read_bytes()), expected)


class Choices(unittest.TestCase):
    def check(self, items: bytes, expected: str):
        self.assertEqual(shown(COUNT + items), expected, items)

    def test_are_of_printed_tables_alone(self):
        two = b"r = groupby(pktstream, [srcip, qid], count); s = groupby(pktstream, [dstip, qid], most);"
        self.check(two + b"print r;", "qid,srcip")
        self.check(two + b"print r; print s;", "qid")
        two = b"r = groupby(pktstream, [srcip], count); s = groupby(pktstream, [dstip], %s); print r; print s;"
        self.check(two % b"most", "FieldNeeded")
        self.check(two % b"count", "sums")

    def test_follow_finals(self):
        two = b"r = groupby(pktstream, [srcip, qid], most); s = groupby(pktstream, [qid, srcip], count);"
        self.check(two + b"final t = filter(r, m > 3); final u = top(t, m, 2); print u;", "qid,srcip")
        one = b"r = groupby(pktstream, [srcip], most); s = groupby(pktstream, [srcip], count);"
        self.check(one + b"final t = join(r, s); final u = map(t, [d = m - c]); print u;", "srcip")
        self.check(one + b"final t = top(r, m, 2); final u = map(t, [d = m + 1]); print t;", "srcip")
        self.check(one + b"final t = top(r, m, 2); final u = map(t, [d = m + 1]); print u;", "FinalOfTop")
        self.check(one + b"final t = top(r, m, 2); final u = top(t, m, 1); print u;", "FinalOfTop")
        self.check(one + b"final t = groupby(r, [srcip], count); print t;", "FinalGroupby")
        self.check(one + b"final t = groupby(r, [m], count); final u = filter(t, c > 1); print u;", "FinalGroupby")

    def test_of_sums_print_no_final(self):
        one = b"m = map(pktstream, [all = 0]); r = groupby(m, [all], %s);"
        self.check(one % b"count" + b"print r;", "sums")
        self.check(one % b"count" + b"final t = top(r, c, 1); print t;", "FieldNeeded")
        self.check(one % b"most" + b"print r;", "FieldNeeded")

    def test_go_by_names_of_fields(self):
        self.check(b"m = map(pktstream, [from = srcip]); r = groupby(m, [from], most); print r;", "FieldNeeded")
        chain = (
            b"def pass([],[]) { emit(); }\n"
            b"b = groupby(pktstream, [srcip, qid], pass); m = map(b, [dstip = srcip]); r = groupby(m, [dstip, qid], count);"
        )
        self.check(chain + b"print r;", "qid")
        self.check(chain + b"print b;", "qid,srcip")

    def test_pass_over_comments(self):
        items = b"# print s; final t = groupby(\nr = groupby(pktstream, [ #dstip\nsrcip], most);# }\nprint r;# 5tuple"
        self.check(items, "srcip")

    def test_of_the_longest_query(self):
        """The text by which the program is asked for the keys is no longer than the query."""
        items = b"r=groupby(pktstream,[srcip],most);s=groupby(pktstream,[srcip],count);final j=join(r,s);print j;#"
        self.check(items + b"x" * (65536 - len(COUNT + items)), "srcip")
        items = items.replace(b"final j=join(r,s);print j;", b"print r;print s;")
        self.check(items + b"x" * (65536 - len(COUNT + items)), "srcip")

    def test_of_a_query_that_is_none(self):
        with self.assertRaises(QueryRefused) as refused:
            choose(b"print z;", None)
        self.assertEqual((refused.exception.kind, refused.exception.offset), ("UnknownName", 6))


class FieldsAskedFor(unittest.TestCase):
    QUERY = COUNT + b"r = groupby(pktstream, [srcip, qid], count); print r;"

    def test_are_taken(self):
        self.assertEqual(choose(self.QUERY, ("qid",)).by, ("qid",))
        self.assertEqual(choose(self.QUERY, ("srcip", "qid")).by, ("srcip", "qid"))

    def test_have_to_keep_the_keys(self):
        for by in (("dstip",), ("srcip", "dstip"), ("source",), ("srcip", "srcip"), ()):
            with self.subTest(by=by), self.assertRaises(FieldRefused):
                choose(self.QUERY, by)


class Refusals(unittest.TestCase):
    def refused(self, kind: type[PartsRefused], items: bytes) -> str:
        with self.assertRaises(kind) as refused:
            choose(COUNT + items, None)
        return str(refused.exception)

    def test_say_what_would_make_it_possible(self):
        text = self.refused(
            FieldNeeded,
            b"r = groupby(pktstream, [srcip], most); s = groupby(pktstream, [dstip], most);"
            b"t = groupby(pktstream, [srcip], count); print r; print s; print t;",
        )
        self.assertIn("group s by srcip too", text)
        self.assertIn("make the fold of r, s additive", text)
        one = b"m = map(pktstream, [a = 0]); r = groupby(m, [a], count);"
        text = self.refused(FieldNeeded, one + b"final t = top(r, c, 1); print t;")
        self.assertIn("group r by srcip too, or print no final", text)

    def test_name_the_final(self):
        one = b"r = groupby(pktstream, [srcip], most);"
        text = self.refused(FinalGroupby, one + b"final t = groupby(r, [m], count); print t;")
        self.assertTrue(text.startswith("FinalGroupby: t groups rows"), text)
        self.assertIn("print r", text)
        text = self.refused(FinalOfTop, one + b"final t = top(r, m, 2); final u = filter(t, m > 1); print u;")
        self.assertTrue(text.startswith("FinalOfTop: u is made from t"), text)


class Sums(unittest.TestCase):
    """Where no field is a key of every groupby, what the folds do decides."""

    QUERY = "def f([x, y],[qsize]) { %s } m = map(pktstream, [all = 0]); r = groupby(m, [all], f); print r;"

    def test_are_of_states_that_only_add(self):
        expected = {
            "": True,
            "x = x + 1;": True,
            "x = x - qsize * qsize;": True,
            "y = y + (qsize >> 1);": True,
            "if (qsize > 2) { x = x + 1; }": True,
            "if (x > 2) { }": True,
            "if (x > 2) { x = x + 1; }": False,
            "if (qsize > 2) { if (y > 0) { } else { x = x + 1; } }": False,
            "x = 1 + x;": False,
            "x = y + 1;": False,
            "x = x + y;": False,
            "x = x + 2 * x;": False,
            "x = x * 1;": False,
            "x = max(x, qsize);": False,
            "x = qsize;": False,
            "x = x + 1; y = x;": False,
        }
        for body, adds in expected.items():
            with self.subTest(body):
                self.assertEqual(shown((self.QUERY % body).encode()), "sums" if adds else "FieldNeeded")


if __name__ == "__main__":
    unittest.main()
