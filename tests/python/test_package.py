"""The package installs from the checkout, without a network, and answers as it does there: by pip where there is one, and
otherwise by its wheel, which is unpacked.
"""

import hashlib
import importlib.util
import os
import shutil
import subprocess
import sys
import sysconfig
import unittest
import venv
import zipfile
from pathlib import Path

from support import TOP, Folder

import marple
from marple.report import page

QUEUE = TOP / "examples" / "captures" / "queue.csv"
VERSION = (TOP / "VERSION").read_text().strip()


def built_wheel(folder: Folder, top: Path = TOP) -> str:
    """The path of the wheel that the package's own backend builds."""
    build = (
        f"import sys; sys.path.insert(0, {str(top / 'python')!r})\n"
        f"import wheel_backend; print(wheel_backend.build_wheel({folder.place.name!r}))"
    )
    done = subprocess.run([sys.executable, "-B", "-c", build], capture_output=True, text=True, check=True)
    return folder.path(done.stdout.strip())


class Installed(unittest.TestCase):
    @classmethod
    def setUpClass(cls):
        cls.folder = Folder(cls)
        cls.place = Path(cls.folder.path("venv"))
        venv.create(cls.place, with_pip=False)
        cls.python = str(cls.place / "bin" / "python")
        cls.status, cls.text, cls.unpacked = 0, "", False
        if importlib.util.find_spec("pip"):
            pip = [sys.executable, "-m", "pip", "--python", cls.python, "install", "--no-index", "--quiet"]
            done = subprocess.run([*pip, str(TOP / "python")], capture_output=True, text=True, check=False)
            cls.status, cls.text = done.returncode, done.stdout + done.stderr
        else:
            cls.unpacked = True
            place = sysconfig.get_path("purelib", "venv", {"base": str(cls.place)})
            with zipfile.ZipFile(built_wheel(cls.folder)) as wheel:
                wheel.extractall(place)

    @classmethod
    def addCleanup(cls, call):
        cls.addClassCleanup(call)

    def ask(self, text: str) -> str:
        done = subprocess.run([self.python, "-I", "-c", text], capture_output=True, text=True, check=False)
        self.assertEqual(done.stderr, "")
        return done.stdout

    def test_without_a_network(self):
        self.assertEqual(self.status, 0, self.text)

    def test_has_the_version_of_the_checkout(self):
        asked = "import marple, importlib.metadata as m; print(marple.__version__, m.version('marple'), m.metadata('marple')"
        self.assertEqual(self.ask(asked + "['License-Expression'])"), f"{VERSION} {VERSION} Apache-2.0\n")
        self.assertEqual(marple.__version__, VERSION)

    def test_has_every_module(self):
        asked = "import marple.parts.__main__, marple.frames; print(marple.parts.PartsRefused.status)"
        self.assertEqual(self.ask(asked), "4\n")

    def test_answers_and_says_the_remedy_of_a_refused_query(self):
        text = "def count([c],[]) { c = c + 1; }\\nr = groupby(pktstream, [srcip], count);\\nprint r;\\n"
        self.assertEqual(self.ask(f"import marple; print(marple.run(b'{text}', b'srcip\\n7\\n')['r'].column('c'))"), "[1]\n")
        asked = f"import marple\ntry: marple.plan(b'{text}'.replace(b'srcip', b'scrip'))\nexcept marple.QueryRefused as r: print(r.remedy)"
        self.assertIn("srcip", self.ask(asked))
        asked = f"import marple\ntry: marple.run(b'{text}', b'srcip\\n', ways=3)\nexcept marple.UsageError as r: print(r)"
        self.assertIn("ways is 1, 2, 4, 8, 16 or 32", self.ask(asked))

    def test_has_what_a_report_needs(self):
        asked = "import marple.report.page as p, marple.report.recipes as r\nprint([r.query_text(name) for name in p.RECIPES])"
        queries = [(TOP / "examples" / "cookbook" / f"{name}.query").read_text() for name in page.RECIPES]
        self.assertEqual(self.ask(asked), f"{queries}\n")
        asked = "import marple.report.captures as c\nfor name in c.SCRIPTS.values(): print(c.script_path(name))"
        for script in self.ask(asked).splitlines():
            self.assertTrue(script.startswith(str(self.place)), script)
            done = subprocess.run([self.python, "-I", script, "--help"], capture_output=True, text=True, check=True)
            self.assertIn("Makes a trace from", done.stdout)

    def test_says_what_a_report_needs(self):
        command = [self.python, "-I", "-m", "marple.report", str(QUEUE), "-o", self.folder.path("report.html")]
        done = subprocess.run(command, capture_output=True, text=True, check=False)
        self.assertIn("needs jinja2 and matplotlib: apt-get install python3-jinja2 python3-matplotlib", done.stderr)

    @unittest.skipIf(page.missing_libraries(["jinja2"]), "jinja2")
    @unittest.skipIf(page.missing_libraries(["matplotlib"]), "matplotlib")
    def test_makes_a_report(self):
        """With the libraries of this Python, which the new one doesn't have."""
        places = sorted({str(Path(importlib.util.find_spec(name).origin).parents[1]) for name in page.LIBRARIES})
        words = [str(QUEUE), "-o", self.folder.path("report.html")]
        ask = f"import sys; sys.path += {places}; sys.argv[1:] = {words}; import marple.report.__main__ as r; sys.exit(r.main())"
        done = subprocess.run([self.python, "-I", "-c", ask], capture_output=True, text=True, check=False)
        self.assertEqual((done.returncode, done.stderr), (0, ""))
        self.assertIn("<svg", Path(self.folder.path("report.html")).read_text(encoding="utf-8"))

    def test_has_its_commands(self):
        if self.unpacked:
            self.skipTest("pip")
        for name in ("marple-parts", "marple-report"):
            command = [str(self.place / "bin" / name), "--version"]
            done = subprocess.run(command, capture_output=True, text=True, check=False)
            self.assertEqual(done.stdout, f"marple {VERSION}\n")

    def test_leaves_nothing_in_the_checkout(self):
        kept = [path.name for path in (TOP / "python").iterdir()]
        sources = ["marple", "pyproject.toml", "wheel_backend.py"]
        self.assertEqual(sorted(name for name in kept if name != "__pycache__"), sources)


class TheWheel(unittest.TestCase):
    def test_records_each_file(self):
        folder = Folder(self)
        with zipfile.ZipFile(built_wheel(folder)) as wheel:
            names = wheel.namelist()
            record = wheel.read(f"marple-{VERSION}.dist-info/RECORD").decode().splitlines()
        self.assertIn("marple/py.typed", names)
        sources = {str(path.relative_to(TOP / "python")) for path in (TOP / "python" / "marple").rglob("*.py")}
        self.assertLessEqual(sources, set(names))
        for name in ("page.html", "page.css", "page.js", "cookbook/loss.query", "captures/trace-from-captures"):
            self.assertIn(f"marple/report/{name}", names)
        self.assertEqual(sorted(line.split(",")[0] for line in record), sorted(names))

    def test_depends_on_its_sources_alone(self):
        """Another folder, other times and permissions of the files give the same bytes."""
        folder, sums = Folder(self), []
        for number in range(2):
            top = copied_checkout(Path(folder.path(f"checkout-{number}")))
            for path in (path for path in top.rglob("*") if path.is_file()):
                path.chmod(0o600 if number else 0o755)
                os.utime(path, (number * 10**9, number * 10**9))
            out = Folder(self)
            sums.append(hashlib.sha256(Path(built_wheel(out, top)).read_bytes()).hexdigest())
        self.assertEqual(sums[0], sums[1])


def copied_checkout(top: Path) -> Path:
    """A copy of what the wheel is made from, with a program that was built."""
    for name in ("python", "docs", "examples", "tools"):
        shutil.copytree(TOP / name, top / name, ignore=shutil.ignore_patterns("__pycache__"))
    shutil.copy(TOP / "VERSION", top / "VERSION")
    (top / "crates.txt").write_text("marple:\n")
    os.utime(top / "crates.txt", (1, 1))
    built = top / "crates" / "marple" / "out" / "marple"
    built.parent.mkdir(parents=True)
    built.write_bytes(b"#!/bin/sh\n")
    built.chmod(0o755)
    return top


@unittest.skipUnless(importlib.util.find_spec("pip"), "pip")
class TheProgramOfTheCheckout(unittest.TestCase):
    """After an install the program is that of the checkout that the package, or its wheel, came from."""

    def setUp(self):
        self.folder = Folder(self)
        self.top = copied_checkout(Path(self.folder.path("checkout")).resolve())
        self.python = Path(self.folder.path("venv")) / "bin" / "python"
        venv.create(self.folder.path("venv"), with_pip=False)

    def found(self, *installed: str) -> str:
        pip = [sys.executable, "-m", "pip", "--python", str(self.python), "install", "--no-index", "--quiet"]
        subprocess.run([*pip, "--force-reinstall", *installed], check=True)
        environment = {"PATH": "/usr/bin:/bin", "HOME": self.folder.path("home")}
        ask = "import marple\ntry: print(marple.find_program())\nexcept marple.ProgramMissing as missing: print(missing)"
        done = subprocess.run([self.python, "-I", "-c", ask], env=environment, capture_output=True, text=True, check=True)
        return done.stdout.strip()

    def test_is_found(self):
        built = str(self.top / "crates" / "marple" / "out" / "marple")
        self.assertEqual(self.found(str(self.top / "python")), built)
        (self.top / "dist").mkdir()
        wheel = shutil.copy(built_wheel(self.folder, self.top), self.top / "dist")
        self.assertEqual(self.found(wheel), built)
        self.assertEqual(self.found("--editable", str(self.top / "python")), built)

    def test_is_missed_where_the_wheel_came_from_elsewhere(self):
        self.assertIn("/bin/marple", self.found(built_wheel(self.folder, self.top)))


class OtherPythons(unittest.TestCase):
    """The package runs on Python 3.10 to 3.13, and says what it needs on an older one."""

    ASK = (
        "import marple, marple.parts.__main__, marple.frames, marple.exports\n"
        "table = marple.read_tables('table r linear 0 1\\nsrcip,mark,epoch,epochs,c\\n7,exact,*,1,2\\n')['r']\n"
        "print(table.rows, table.to_csv())"
    )

    def python(self, minor: int) -> str:
        """The path of this Python."""
        found = shutil.which(f"python3.{minor}")
        places = [found] if found else []
        places += map(str, Path.home().glob(f".pyenv/versions/3.{minor}.*/bin/python3"))
        for place in places:
            if subprocess.run([place, "-c", ""], capture_output=True, check=False).returncode == 0:
                return place
        self.skipTest(f"python3.{minor}")

    def ask(self, minor: int, *words: object):
        """What this Python answers."""
        environment = os.environ | {"PYTHONPATH": str(TOP / "python"), "PYTHONDONTWRITEBYTECODE": "1"}
        command = [self.python(minor), "-W", "error", *map(str, words)]
        return subprocess.run(command, env=environment, capture_output=True, text=True, check=False)

    def check(self, minor: int):
        done = self.ask(minor, "-c", self.ASK)
        self.assertEqual(done.stderr, "")
        self.assertEqual(done.stdout, "[(7, <Mark.EXACT: 0>, 0, 1, 2)] srcip,mark,epoch,epochs,c\n7,exact,,1,2\n\n")
        examples, work = TOP / "examples", Folder(self).path("work")
        for _ in range(2):  # the second run goes on from the work of the first
            done = self.ask(minor, "-m", "marple.parts", examples / "count.query", examples / "three-packets.csv", "--work", work)
            self.assertEqual((done.returncode, done.stdout.partition("epochs,c\n")[2]), (0, "1,exact,*,1,2\n2,exact,*,1,1\n"), done.stderr)

    def test_3_9_is_told_what_is_needed(self):
        lines = self.ask(9, "-c", self.ASK).stderr.splitlines()
        self.assertRegex(lines[-1], r"^ImportError: marple needs Python 3\.10 or later; this is Python 3\.9, /.*python3")

    def test_3_9_does_not_install_it(self):
        python = self.python(9)
        if subprocess.run([python, "-m", "pip", "--version"], capture_output=True, check=False).returncode != 0:
            self.skipTest("python3.9-pip")
        command = [python, "-m", "pip", "install", "--no-index", "--target", Folder(self).path("none"), TOP / "python"]
        environment = os.environ | {"PYTHONDONTWRITEBYTECODE": "1"}
        done = subprocess.run(command, env=environment, capture_output=True, text=True, check=False)
        self.assertRegex(done.stdout + done.stderr, "requires a different Python: 3\\.9.* not in '>=3\\.10'")

    def test_3_10(self):
        self.check(10)

    def test_3_11(self):
        self.check(11)

    def test_3_12(self):
        self.check(12)

    def test_3_13(self):
        self.check(13)


class Hints(unittest.TestCase):
    def test_are_complete(self):
        """Every argument has a hint, and mypy finds no fault: in the package, and in the modules of the commands."""
        if shutil.which("mypy") is None:
            self.skipTest("mypy")
        folder = Folder(self)
        for place in ("python/marple", "tools"):
            modules = sorted(map(str, (TOP / place).rglob("*.py")))
            command = ["mypy", "--strict", "--python-version", "3.10", "--follow-imports", "silent", "--cache-dir"]
            command += [folder.path("cache"), *modules]
            with self.subTest(place):
                done = subprocess.run(command, cwd=TOP / place, capture_output=True, text=True, check=False)
                self.assertEqual(done.stdout, f"Success: no issues found in {len(modules)} source files\n")


if __name__ == "__main__":
    unittest.main()
