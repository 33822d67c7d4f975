"""The commands as calls: what they give, and each exception."""

import os
import pickle
import re
import stat
import unittest
import warnings
from pathlib import Path
from unittest import mock

from support import CASES, TOP, Folder, cases, content, words

import marple
from marple import program

COUNT = b"def count([c],[]) { c = c + 1; }\nr = groupby(pktstream, [srcip], count);\nprint r;\n"
CALLS = {"run": marple.run, "net": marple.net, "enclose": marple.enclose, "run-plan": marple.run_plan}
KNOWN = ("--buckets", "--ways", "--pipe", "--lag", "--refresh", "--every")


def called(folder: Path):
    """Calls what a case's words say, in the case's folder."""
    command, *rest = words(folder)
    operands = [os.path.join(folder, word) for word in rest[:2]]
    options = {name[2:]: int(value) for name, value in zip(rest[2::2], rest[3::2], strict=True)}
    with warnings.catch_warnings():
        warnings.simplefilter("ignore", marple.KeysLeftOut)
        return CALLS[command](Path(operands[0]), operands[1], **options)


def is_plain(folder: Path) -> bool:
    """Whether a case is a call of a command over two files with known options of number values."""
    given = words(folder)
    options = given[3:]
    return (
        len(given) >= 3 and given[0] in CALLS and len(options) % 2 == 0
        and all(name in KNOWN for name in options[::2]) and len(set(options[::2])) == len(options) // 2
        and all(value.isdigit() and str(int(value)) == value for value in options[1::2])
        and not (given[0] != "run" and "--every" in options) and not (given[0] == "net" and "--refresh" in options)
    )  # fmt: skip


class EveryCase(unittest.TestCase):
    def test_gives_its_tables_or_its_exception(self):
        tried = 0
        for folder in filter(is_plain, cases()):
            with self.subTest(case=folder.name):
                tried += 1
                status, complaint = int(content(folder, "status")), content(folder, "stderr").decode()
                if status == 0:
                    self.assertEqual(called(folder).text.encode(), content(folder, "stdout"))
                    continue
                with self.assertRaises(marple.MarpleError) as refused:
                    called(folder)
                self.assertEqual(refused.exception.status, status)
                self.assertEqual(complaint_of(refused.exception), complaint)
        self.assertGreater(tried, 300)


def complaint_of(refused: marple.MarpleError) -> str:
    """The program's line of an exception, out of its parts."""
    if isinstance(refused, marple.QueryRefused):
        return f"marple: query: {refused.kind} at {refused.offset}\n"
    if isinstance(refused, marple.TraceRefused):
        parts = ",".join(str(part) for part in (refused.record, refused.field) if part is not None)
        return f"marple: trace: {refused.fault}{f'({parts})' if parts else ''}\n"
    said = re.match("bad command line|cannot read the (query|plan|trace)|", str(refused))[0]  # what follows is the package's
    return f"marple: {said or refused}\n"


class Queries(unittest.TestCase):
    def test_are_texts_or_paths(self):
        expected = "table r linear 0 1\nsrcip,mark,epoch,epochs,c\n7,exact,*,1,1\n"
        path = str(TOP / "examples" / "count.query")
        for query in (COUNT, bytearray(COUNT), path, Path(path)):
            self.assertEqual(marple.run(query, b"srcip\n7\n").text, expected)
        self.assertEqual(marple.run(query_text=COUNT.decode(), trace=b"srcip\n7\n").text, expected)

    def test_are_shown_where_they_are_refused(self):
        with self.assertRaises(marple.QueryRefused) as refused:
            marple.run(b"def f([],[]) { }\n\tr = groupby(pktstream, [srcip, where], f);\nprint r;\n", b"")
        fault = refused.exception
        self.assertEqual((fault.kind, fault.offset, fault.line, fault.column), ("UnknownName", 49, 2, 33))
        self.assertEqual(fault.shown, "\tr = groupby(pktstream, [srcip, where], f);\n\t" + " " * 31 + "^")
        self.assertIn("UnknownName at 49, line 2, column 33", str(fault))

    def test_that_end_too_early_are_shown_at_their_end(self):
        with self.assertRaises(marple.QueryRefused) as refused:
            marple.run(b"print", b"")
        self.assertEqual((refused.exception.line, refused.exception.column), (1, 6))
        self.assertEqual(refused.exception.shown, "print\n     ^")


class Statuses(unittest.TestCase):
    def test_of_a_trace(self):
        with self.assertRaises(marple.TraceRefused) as refused:
            marple.run(COUNT, b"srcip\n1\nx\n")
        fault = refused.exception
        self.assertEqual((fault.fault, fault.record, fault.field, fault.path), ("BadNumber", 2, "srcip", None))
        with self.assertRaises(marple.TraceRefused) as refused:
            marple.run(COUNT, b"")
        fault = refused.exception
        self.assertEqual((fault.fault, fault.record, fault.field), ("NoHeader", None, None))

    def test_of_words(self):
        with self.assertRaises(marple.UsageError):
            marple.run(COUNT, b"srcip\n1\n", ways=3)

    def test_of_files(self):
        with self.assertRaisesRegex(marple.InputError, "trace"):
            marple.run(COUNT, "no-such-trace")
        with self.assertRaisesRegex(marple.InputError, "query"):
            marple.run("no-such-query", b"srcip\n")

    def test_of_a_program_that_answers_otherwise(self):
        folder = Folder(self)
        answers = {
            "1; echo 'marple: out of memory' >&2": marple.OutOfMemory,
            "6; echo 'marple: cannot write' >&2": marple.OutputError,
            "1; echo 'Traceback' >&2": marple.ProgramFailed,
            "4; echo 'marple: query: nothing' >&2": marple.ProgramFailed,
            "0; kill -9 $$": marple.ProgramFailed,
        }
        for answer, kind in answers.items():
            status, rest = answer.split("; ", 1)
            path = folder.write("program", f"#!/bin/sh\n{rest}\nexit {status}\n".encode())
            os.chmod(path, 0o755)
            with self.subTest(answer), self.assertRaises(kind) as refused:
                marple.run(COUNT, b"srcip\n1\n", program=path)
            self.assertIs(type(refused.exception), kind)

    def test_are_the_same_in_another_process(self):
        for fault in (
            marple.QueryRefused("BadByte", 3, b"abc$"),
            marple.TraceRefused("BadNumber", 3, "tin", "a.csv"),
            marple.OutOfMemory("out of memory"),
        ):
            copy = pickle.loads(pickle.dumps(fault))
            self.assertEqual((type(copy), str(copy), vars(copy)), (type(fault), str(fault), vars(fault)))


class OtherCommands(unittest.TestCase):
    def test_plan(self):
        folder = CASES / "plan" / "history-and-final"
        plan = marple.plan(folder / "query")
        self.assertEqual(plan.text.encode(), content(folder, "stdout"))
        lines = plan.text.splitlines()
        self.assertEqual(f"stages {len(plan.stages)}", lines[0])
        self.assertEqual(f"operations {sum(plan.stages)}", lines[1])
        self.assertEqual(f"bound {plan.bound}", lines[-1])
        shown = [
            f"groupby {one.name} {one.kind} {one.depth} keys {one.keys} args {one.args} states {one.states}"
            for one in plan.groupbys
        ]
        self.assertEqual(shown, [line for line in lines if line.startswith("groupby ")])

    def test_plan_takes_ways(self):
        folder = CASES / "plan" / "count-one-way"
        self.assertEqual(marple.plan(content(folder, "query"), ways=1).text.encode(), content(folder, "stdout"))

    def test_compile_then_run(self):
        query = TOP / "examples" / "cookbook" / "depth.query"
        trace = TOP / "examples" / "captures" / "queue.csv"
        plan = marple.compile(query)
        self.assertEqual(plan, (TOP / "examples" / "cookbook" / "depth.plan").read_text())
        expected = content(CASES / "run" / "cookbook-depth", "stdout").decode()
        self.assertEqual(marple.run_plan(plan_text=plan, trace=trace).text, expected)
        self.assertEqual(marple.run_plan(query.with_suffix(".plan"), trace).text, expected)

    def test_gen(self):
        self.assertEqual(marple.gen(2, 1), content(CASES / "gen" / "two-packets", "stdout"))


class TheProgram(unittest.TestCase):
    """Which program runs, where none is named."""

    def setUp(self):
        self.folder = Folder(self)
        top = Path(self.folder.path("top"))
        self.built = top / "crates" / "marple" / "out" / "marple"
        self.installed = top / "bin" / "marple"
        self.asked = top / "tools" / "building" / "is-proved"
        for program_file in (self.built, self.installed, self.asked):
            program_file.parent.mkdir(parents=True)
        for patch in (
            mock.patch.dict(os.environ, {"MARPLE": "", "MARPLE_TOOLS": "", "PATH": str(top / "bin")}),
            mock.patch.object(program, "CHECKOUT", top),
        ):
            patch.start()
            self.addCleanup(patch.stop)

    def make(self, path: Path, content: bytes = b"\x7fELF") -> None:
        path.write_bytes(content)
        path.chmod(path.stat().st_mode | stat.S_IXUSR)

    def test_is_the_checkout_s_if_the_checkout_says_that_it_is_proved(self):
        self.make(self.built)
        self.make(self.installed)
        self.make(self.asked, b"#!/bin/sh\nexit 0\n")
        self.assertEqual(program.find_program(), str(self.built))
        self.make(self.asked, b"#!/bin/sh\nexit 1\n")
        program._search.cache_clear()
        self.assertEqual(program.find_program(), str(self.installed))
        self.installed.unlink()
        with self.assertRaises(marple.ProgramMissing):
            program.find_program()

    def test_is_no_script_on_path(self):
        self.make(self.installed, b"#!/bin/sh\n")
        with self.assertRaises(marple.ProgramMissing):
            program.find_program()

    def test_is_any_that_is_named(self):
        script = Path(self.folder.path("other"))
        self.make(script, b"#!/bin/sh\n")
        self.assertEqual(program.find_program(script), str(script))
        with mock.patch.dict(os.environ, {"MARPLE": str(script)}):
            self.assertEqual(program.find_program(), str(script))
        with self.assertRaises(marple.ProgramMissing):
            program.find_program("no-such-program")

    def test_has_a_second_one(self):
        """marple-tools is the one that is named, or the one beside a named program, or a proved one."""
        with self.assertRaisesRegex(marple.ProgramMissing, "no proved program marple-tools"):
            program.find_tools()
        built = self.built.parents[2] / "marple_tools" / "out" / "marple_tools"
        built.parent.mkdir(parents=True)
        installed, named = self.installed.with_name("marple-tools"), Path(self.folder.path("named"))
        for path in (self.built, built, self.installed, installed, named):
            self.make(path)
        self.make(self.asked, b'#!/bin/sh\n[ "$1" = marple_tools ]\n')
        self.assertEqual(program.find_tools(), str(built))
        self.assertEqual(program.find_tools(self.installed), str(installed))
        self.assertEqual(program.find_tools(self.built), str(built))
        self.assertEqual(program.find_tools(named), str(built))
        with mock.patch.dict(os.environ, {"MARPLE_TOOLS": str(named)}):
            self.assertEqual(program.find_tools(), str(named))
        self.make(self.asked, b"#!/bin/sh\nexit 1\n")
        program._search.cache_clear()
        self.assertEqual(program.find_tools(), str(installed))
        self.assertEqual(program.find_tools(named), str(installed))


if __name__ == "__main__":
    unittest.main()
