"""The page of marple.report: its numbers compared with a plain program's, and that nothing of a capture gets into its markup.

What needs jinja2, matplotlib or tshark is skipped where that isn't there.
"""

import importlib.util
import os
import re
import shutil
import subprocess
import sys
import unittest
from html.parser import HTMLParser
from pathlib import Path
from unittest import mock

from support import TOP, Folder, generated

sys.path.insert(0, str(TOP / "tests"))
import plain_report as plain

import marple
from marple.report import captures, page, recipes

QUEUE = TOP / "examples" / "captures" / "queue.csv"
ORDER = TOP / "examples" / "cookbook" / "order.csv"
LIBRARY = next((name for name in page.LIBRARIES if importlib.util.find_spec(name) is None), "")
NEEDED = unittest.skipIf(LIBRARY, LIBRARY)
HOSTILE = "<img src=x onerror=alert(1)>\"'&{{7*7}}"


class Reader(HTMLParser):
    """What a page has: its tables as rows of texts, its tiles, all tags with their attributes, and its text."""

    def __init__(self, text: str):
        super().__init__()
        self.tags: list[tuple[str, dict[str, str]]] = []
        self.tables: dict[str, list[list[str]]] = {}
        self.tiles: dict[str, str] = {}
        self.text = ""
        self._section = self._title = self._place = ""
        self.feed(text)

    def handle_starttag(self, tag, attributes):
        given = dict(attributes)
        self.tags.append((tag, given))
        if tag == "section":
            self._section = given.get("id", "")
        elif tag == "tbody":
            self.tables[self._section] = []
        elif tag == "tr" and self._section in self.tables:
            self.tables[self._section].append([])
        self._place = given.get("class", tag)

    def handle_endtag(self, tag):
        self._place = ""

    def handle_data(self, data):
        self.text += data
        if self._place in ("text", "td") and self.tables.get(self._section):
            self.tables[self._section][-1].append(data)
        elif self._place == "h2":
            self._title = data
        elif self._place == "value":
            self.tiles[self._title] = data.strip()


def made(*words: object, status: int = 0) -> subprocess.CompletedProcess:
    """The outcome of the command, whose page goes to standard output."""
    command = [sys.executable, "-m", "marple.report", *map(str, words)]
    done = subprocess.run(command, capture_output=True, text=True, check=False)
    if done.returncode != status:
        raise AssertionError(f"status {done.returncode}: {done.stderr}")
    return done


def page_of(trace: Path) -> str:
    return page.page(captures.Made(trace, (trace.name,)))


@NEEDED
class Numbers(unittest.TestCase):
    def compare(self, trace: Path, names=("volume", "latency", "order")):
        shown, packets = Reader(page_of(trace)), plain.packets_of(trace)
        for name in names:
            with self.subTest(table=name):
                self.assertEqual(shown.tables[name], plain.sheet(packets, getattr(plain, name)))
        return shown, packets

    def test_of_the_captures(self):
        shown, packets = self.compare(QUEUE)
        longest = max(packet["qsize"] for packet in packets)
        wanted = [*plain.volume(packets)[:3], *plain.latency(packets)[:4], f"{longest}"]
        titles = ("Packets", "Bytes", "Lost", "Latency, p50", "Latency, p95", "Latency, p99", "Greatest latency", "Longest queue")
        self.assertEqual([shown.tiles[title] for title in titles], wanted)
        self.assertEqual(shown.tiles["Flows"], str(len(plain.flows(packets))))
        counts = [[int(cell) for cell in plain.order(group)] for group in plain.flows(packets).values()]
        sums = [str(sum(column)) for column in zip(*counts)][1:]
        self.assertEqual([shown.tiles[title] for title in ("Sent again", "Out of order", "Reordered")], sums)

    def test_of_a_trace_with_reordering(self):
        shown, _ = self.compare(ORDER)
        self.assertEqual([shown.tiles[title] for title in ("Sent again", "Out of order", "Reordered")], ["5", "4", "7"])

    def test_of_random_traces(self):
        for start in (3, 2026):
            with self.subTest(start=start):
                trace = Path(Folder(self).write("random.csv", generated(3_000, start)))
                self.compare(trace, ("volume", "latency"))

    def test_of_a_percentile_at_a_bin_s_end(self):
        """A hundred packets, of 0 to 99 ms: exactly 50 of them are below 50 ms."""
        header = "switch,qid,uid,srcip,dstip,srcport,dstport,proto,pkt_len,payload_len,tcpseq,tin,tout,qsize"
        lines = [f"1,0,{at},7,8,9,10,17,100,80,0,{at},{at * 1000001},0" for at in range(100)]
        trace = Path(Folder(self).write("hundred.csv", "\n".join([header, *lines, ""]).encode()))
        shown, _ = self.compare(trace, ("latency",))
        self.assertEqual([shown.tiles[f"Latency, p{p}"] for p in (50, 95, 99)], ["49–50", "94–95", "98–99"])

    def test_are_of_the_queries_that_they_name(self):
        text = page_of(QUEUE)
        shown = Reader(text)
        links = [given["href"] for tag, given in shown.tags if tag == "a"]
        queries = [given["id"] for tag, given in shown.tags if tag == "details"]
        self.assertEqual(sorted({link.removeprefix("#") for link in links}), sorted(queries))
        for name in page.RECIPES:
            self.assertIn((TOP / "examples" / "cookbook" / f"{name}.query").read_text(), shown.text)

    def test_come_again(self):
        self.assertEqual(page_of(QUEUE), page_of(QUEUE))

    def test_of_no_packets(self):
        trace = Path(Folder(self).write("empty.csv", QUEUE.read_bytes().splitlines(keepends=True)[0]))
        shown = Reader(page_of(trace))
        self.assertEqual(shown.tables["volume"], [])
        self.assertIn("The trace has no packets.", shown.text)
        self.assertNotIn("svg", [tag for tag, _ in shown.tags])

    def test_of_one_capture_have_no_queue(self):
        header, *lines = QUEUE.read_text().splitlines()
        cells = [line.split(",") for line in lines]
        text = "".join(",".join([*line[:-2], line[-3], "0"]) + "\n" for line in cells)
        trace = Path(Folder(self).write("one.csv", f"{header}\n{text}".encode()))
        shown = Reader(page_of(trace))
        self.assertIn("No queue can be seen in this trace", shown.text)
        self.assertEqual(sorted(shown.tables), ["order", "volume"])
        self.assertLess({"Lost", "Latency, p50", "Longest queue", "Reordered"} & set(shown.tiles), {"Lost"})


@NEEDED
class Pictures(unittest.TestCase):
    def pictures(self, trace: Path):
        from marple.report import pictures

        answers = recipes.run_recipes(page.RECIPES, trace)
        return {one.name: one for one in pictures.pictures_of(answers, None, True)}

    def test_have_the_numbers_of_the_captures(self):
        found, packets = self.pictures(QUEUE), plain.packets_of(QUEUE)
        depth, wait, throughput, losses = (found[name] for name in ("depth", "wait", "throughput", "losses"))
        (queue,) = plain.series([{**packet, **dict.fromkeys(plain.FLOW, 0)} for packet in packets], "tin", 10**8,
                                lambda group: max(packet["qsize"] for packet in group)).values()  # fmt: skip
        self.assertEqual(depth.lines[0].values, queue)
        waited = plain.series(plain.left(packets), "tin", 10**8, lambda group: sum(plain.waits(group)) / len(group) / 10**6)
        self.assertEqual([line.values for line in wait.lines], [waited[flow] for flow in plain.flows(packets)])
        bits = plain.series(plain.left(packets), "tout", 10**8, lambda group: sum(packet["pkt_len"] for packet in group) * 8 / 10**5)
        shown = [{place: value for place, value in line.values.items() if value} for line in throughput.lines]
        self.assertEqual(shown, [bits[flow] for flow in plain.flows(packets)])
        (gone,) = plain.series([{**packet, **dict.fromkeys(plain.FLOW, 0)} for packet in packets], "tin", 2 * 10**8,
                               plain.lost).values()  # fmt: skip
        self.assertEqual(losses.lines[0].values, gone)

    def test_put_the_bins_of_a_long_trace_together(self):
        """Two hours, whose packets come each second: no picture has more than its most steps, and no loss is missed."""
        from marple.report.pictures import MOST_STEPS

        fields = "switch,qid,uid,srcip,dstip,srcport,dstport,proto,pkt_len,payload_len,tcpseq,tin,tout,qsize"
        start = 1795789722
        lines = [f"1,0,{at},7,8,9,10,17,100,80,0,{start + at}000000000,{'inf' if at % 3 else f'{start + at}000000007'},{9 if at % 20 == 7 else at % 5}"
                 for at in range(7_200)]  # fmt: skip
        found = self.pictures(Path(Folder(self).write("long.csv", "\n".join([fields, *lines, ""]).encode())))
        for picture in found.values():
            for line in picture.lines:
                self.assertTrue(100 < len(line.values) <= MOST_STEPS, (picture.name, len(line.values)))
        self.assertEqual(sum(found["losses"].lines[0].values.values()), 4_800)
        *deepest, last = found["depth"].lines[0].values.values()
        self.assertEqual((set(deepest), last), ({9}, 4))  # the last step has two packets
        self.assertIn("seconds after second 1795789722 of the trace", found["depth"].svg)
        self.assertIn("20 s", found["depth"].caption)

    def test_show_few_flows_and_the_others_together(self):
        from marple.report.pictures import MOST_LINES

        trace = Path(Folder(self).write("random.csv", generated(3_000, 3)))
        packets, line = plain.packets_of(trace), self.pictures(trace)["throughput"].lines
        self.assertEqual(len(line), MOST_LINES + 1)
        self.assertEqual(line[-1].name, f"{len(plain.flows(packets)) - MOST_LINES:,} other flows, together")
        width = (max(packet["tin"] for packet in packets) // 10**8 + 1) * 10**8
        self.assertLessEqual(width, 10**10)
        sizes = sum(packet["pkt_len"] for packet in plain.left(packets))
        self.assertAlmostEqual(sum(sum(one.values.values()) for one in line) * 10**5 / 8, sizes, places=3)


@NEEDED
class Hostile(unittest.TestCase):
    def check(self, text: str):
        """No tag, attribute or address is of the hostile text."""
        shown = Reader(text)
        for tag, given in shown.tags:
            self.assertNotIn(tag, ("img", "iframe", "link", "object", "embed", "base"))
            self.assertEqual([name for name in given if name.startswith("on") or name in ("src", "action", "srcdoc")], [])
            self.assertRegex(given.get("href", "#"), "^#")
        self.assertEqual(sum(tag == "script" for tag, _ in shown.tags), 1)
        self.assertEqual(set(re.findall("https?:[^\"' ]*", text)), {"http://www.w3.org/2000/svg"})
        self.assertNotRegex(text.replace("url(#", ""), r"url\(|@import")
        self.assertNotIn("<img src=x", text)
        self.assertIn("default-src 'none'", text)
        return shown

    def test_names_of_files_are_escaped(self):
        trace = Path(Folder(self).path(HOSTILE))
        shutil.copy(QUEUE, trace)
        shown = self.check(page_of(trace))
        self.assertIn(HOSTILE, shown.text)

    def test_names_that_are_no_text_are_shown(self):
        folder = Folder(self)
        trace = os.path.join(os.fsencode(folder.place.name), b"\xff\xfe.csv")
        shutil.copy(QUEUE, trace)
        made(os.fsdecode(trace), "-o", folder.path("page"))
        self.check(Path(folder.path("page")).read_text(encoding="utf-8"))

    def test_fields_are_not_shown(self):
        lines = QUEUE.read_text().splitlines()
        rows = [f"{line},{HOSTILE.replace(chr(34), '')}" for line in lines]
        trace = Path(Folder(self).write("fields.csv", "\n".join([*rows, ""]).encode()))
        self.assertNotIn("onerror", self.check(page_of(trace)).text)

    def test_words_of_the_capture_script_are_escaped(self):
        said = (f"{HOSTILE} ends in the middle of a packet", "time 0 is </script><script>alert(1)</script>, second 1")
        text = page.page(captures.Made(QUEUE, (HOSTILE, "after.pcap"), "trace-from-captures", ("--shift", HOSTILE), said))
        shown = self.check(text)
        for line in said:
            self.assertIn(line, shown.text)


class Marks(unittest.TestCase):
    def recipe(self, name: str, **options: int) -> recipes.Recipe:
        with mock.patch("warnings.warn"):
            (table, *_) = marple.run(recipes.query_text(name).encode(), ORDER, **options).values()
        return recipes.Recipe(name, recipes.query_text(name), table)

    def test_say_the_worst_row_and_leave_out_what_is_not_covered(self):
        valid, invalid = self.recipe("late"), self.recipe("late", buckets=1, ways=1)
        self.assertEqual((valid.mark, valid.mark_words), ("valid", f"{len(valid.table)} rows, each valid"))
        self.assertEqual(invalid.mark, "invalid")
        keys = {recipes.flow_of(row) for row in valid.rows()}
        covered = {recipes.flow_of(row) for row in invalid.rows()}
        self.assertLess(covered, keys)
        self.assertIn(f"{len(keys - covered)} key", invalid.mark_words)
        self.assertEqual(self.recipe("flows", buckets=1, ways=1).mark, "exact")

    def test_say_of_a_final_whether_keys_were_left_out(self):
        text = recipes.query_text("late")
        for options, mark in (({}, "all keys"), ({"buckets": 1, "ways": 1}, "keys left out")):
            with self.subTest(mark=mark), mock.patch("warnings.warn"):
                final = marple.run(text.encode(), ORDER, **options)["reordered"]
                shown = recipes.Recipe("late", text, final)
                self.assertEqual(shown.mark, mark)
                self.assertIn("no keys" if mark == "all keys" else f"{final.left_out} key", shown.mark_words)

    def test_of_the_page_are_exact_for_any_cache(self):
        """So that a page of a large trace leaves nothing out: each groupby of each query is linear."""
        for name in page.RECIPES:
            kinds = {groupby.kind for groupby in marple.plan(recipes.query_text(name).encode()).groupbys}
            self.assertEqual(kinds, {"linear"}, name)


class TheCommand(unittest.TestCase):
    def test_says_what_to_install(self):
        with mock.patch.dict(sys.modules, {"jinja2": None, "matplotlib": None}):
            self.assertEqual(
                page.missing_libraries(),
                "needs jinja2 and matplotlib: apt-get install python3-jinja2 python3-matplotlib (Debian), "
                "or pip install jinja2 matplotlib",
            )

    @NEEDED
    def test_has_the_statuses_of_the_program(self):
        folder = Folder(self)
        made(folder.path("nowhere.csv"), "-o", "-", status=3)
        self.assertIn("FieldMissing(pkt_len)", made(folder.write("lacks.csv", b"srcip\n7\n"), "-o", "-", status=5).stderr)
        made(QUEUE, QUEUE, QUEUE, status=2)
        made(QUEUE, "--", "--shift", "5", status=2)
        made(QUEUE, "-o", folder.path("no/folder/report.html"), status=6)

    @NEEDED
    def test_reads_a_trace_that_comes_once(self):
        with subprocess.Popen(["cat", QUEUE], stdout=subprocess.PIPE) as source:
            command = [sys.executable, "-m", "marple.report", f"/dev/fd/{source.stdout.fileno()}", "-o", "-"]
            done = subprocess.run(command, pass_fds=[source.stdout.fileno()], capture_output=True, text=True, check=True)
        self.assertEqual(Reader(done.stdout).tables, Reader(page_of(QUEUE)).tables)


@NEEDED
@unittest.skipUnless(shutil.which("tshark"), "tshark")
class Captures(unittest.TestCase):
    BEFORE, AFTER = (TOP / "examples" / "captures" / f"{name}.pcap" for name in ("before", "after"))

    def test_give_the_page_of_their_trace_with_what_was_said(self):
        folder = Folder(self)
        done = made(self.BEFORE, self.AFTER, "-o", folder.path("report.html"))
        self.assertEqual(done.stdout, f"{folder.path('report.html')}\n")
        shown = Reader(Path(folder.path("report.html")).read_text(encoding="utf-8"))
        self.assertEqual(shown.tables, Reader(page_of(QUEUE)).tables)
        self.assertEqual(len(done.stderr.splitlines()), 2)
        for line in done.stderr.splitlines():
            self.assertIn(line.removeprefix("trace-from-captures: "), shown.text)
        self.assertIn("seconds after 2026-11-27 14:28:42 UTC", shown.text)

    def test_that_cannot_be_believed_give_no_page(self):
        folder = Folder(self)
        done = made(self.BEFORE, self.BEFORE, "-o", folder.path("report.html"), status=1)
        self.assertIn("no trace", done.stderr)
        self.assertFalse(Path(folder.path("report.html")).exists())

    def test_take_the_options_of_their_script(self):
        shown = Reader(made(self.BEFORE, self.AFTER, "-o", "-", "--", "--queue", "7").stdout)
        self.assertIn("--queue 7", shown.text)
        self.assertIn("switch 1, queue 7", shown.text)

    def test_may_be_one(self):
        shown = Reader(made(self.BEFORE, "-o", "-").stdout)
        self.assertIn("No queue can be seen", shown.text)
        self.assertEqual(shown.tiles["Packets"], f"{len(plain.packets_of(QUEUE))}")


if __name__ == "__main__":
    unittest.main()
