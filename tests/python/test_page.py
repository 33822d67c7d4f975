"""The examples of docs/PYTHON.md: each file that the page shows is that file, and each command prints what the page says.

A block is lines after four blanks. One after a line "`FILE`:" is that file. One with a block after it, and the word "prints"
alone between them, is a command, and prints that block.
"""

import importlib.util
import os
import re
import subprocess
import sys
import unittest
from pathlib import Path

from support import TOP, Folder

PAGE = TOP / "docs" / "PYTHON.md"
LEAST = (1, 5)  # files and commands that the page has at least
NEEDS = {"pandas": ("pandas", "p99.py"), "matplotlib": (".png",)}  # what a command that has one of these words needs


def blocks(page: str) -> list[tuple[str, str]]:
    """The blocks of a page, each with the text before it."""
    found = re.findall(r"((?:(?!    ).*\n)*)((?:    .*\n|\n(?=\n*    ))+)", page)
    return [(before.strip(), "".join(line[4:] or "\n" for line in block.splitlines(keepends=True))) for before, block in found]


class ThePage(unittest.TestCase):
    def setUp(self):
        self.folder = Folder(self)
        for name in ("examples", "python"):
            os.symlink(TOP / name, self.folder.path(name))
        os.mkdir(self.folder.path("bin"))
        os.symlink(sys.executable, self.folder.path("bin/python3"))

    def printed(self, command: str) -> str:
        environment = os.environ | {"PATH": f"{self.folder.path('bin')}:{os.environ['PATH']}", "MPLBACKEND": "agg"}
        done = subprocess.run(
            ["sh", "-c", command], cwd=self.folder.place.name, env=environment, stdout=subprocess.PIPE,
            stderr=subprocess.STDOUT, text=True, check=False,
        )  # fmt: skip
        return done.stdout

    def test_is_true(self):
        shown = blocks(PAGE.read_text())
        files = [(found[1], block) for before, block in shown if (found := re.search(r"(?:^|\n)`([^`]+)`:$", before))]
        commands = [(own, after) for (_, own), (between, after) in zip(shown, shown[1:]) if between == "prints"]
        self.assertGreaterEqual(len(files), LEAST[0])
        self.assertGreaterEqual(len(commands), LEAST[1])
        for name, block in files:
            with self.subTest(file=name):
                self.assertEqual(block.rstrip("\n"), Path(TOP, name).read_text().rstrip("\n"))
        for command, answer in commands:
            with self.subTest(command=command.splitlines()[0]):
                for module, signs in NEEDS.items():
                    if any(sign in command for sign in signs) and importlib.util.find_spec(module) is None:
                        self.skipTest(module)
                self.assertEqual(self.printed(command).rstrip("\n"), answer.rstrip("\n"))

    @unittest.skipIf(importlib.util.find_spec("pandas") is None, "pandas")
    def test_p99_tells_flows_from_one_port_apart(self):
        fields = "srcip,dstip,srcport,dstport,proto,tin,tout"
        rows = ["1,2,443,5001,6,0,1000000", "1,3,443,5002,6,10,39000010", "1,3,443,5002,6,20,39000020"]
        Path(self.folder.path("two.csv")).write_text("\n".join([fields, *rows, ""]))
        shown = self.printed("PYTHONPATH=python python3 examples/cookbook/p99.py two.csv").splitlines()[1:]
        self.assertEqual([line.split()[1:2] + line.split()[3:] for line in shown],
                         [["0.0.0.2", "5001", "6", "1", "1", "1"], ["0.0.0.3", "5002", "6", "39", "39", "39"]])


if __name__ == "__main__":
    unittest.main()
