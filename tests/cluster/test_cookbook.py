"""What the cookbook shows of several captures is so."""

import os
import re
import shutil
import subprocess
import sys
import unittest

from support import TOP, Folder


def blocks() -> list[tuple[str, str]]:
    """The blocks of the cookbook's last section, each with the paragraph before it."""
    page = (TOP / "docs" / "cookbook" / "tools.md").read_text()
    section = page[page.index("## Several captures, one picture") :]
    found, before = [], ""
    for paragraph in re.split(r"\n\n(?=\S)|\n\n(?=    )", section):
        if paragraph.startswith("    "):
            found.append((before, re.sub(r"^    ", "", paragraph, flags=re.MULTILINE) + "\n"))
        before = paragraph
    return found


class SeveralCaptures(unittest.TestCase):
    def test_are_shown_as_they_are(self):
        folder = Folder(self)
        for name in ("examples", "python", "tools"):
            os.symlink(TOP / name, folder.path(name))
        os.mkdir(folder.path("bin"))
        os.symlink(sys.executable, folder.path("bin/python3"))
        path = folder.path("bin") + os.pathsep + os.environ["PATH"]
        environment = os.environ | {"PATH": path}
        ran, compared, done = 0, 0, None
        for before, block in blocks():
            if before == "gives the tables":
                self.assertEqual(done.stdout, block)
                compared += 1
            elif before.endswith("says on standard error"):
                self.assertEqual(done.stderr, block)
                compared += 1
            elif "PYTHONPATH=python " in block or block.startswith(("tools/captures/", "examples/cookbook/draw ")):
                done = subprocess.run(
                    block, shell=True, cwd=folder.place.name, env=environment, capture_output=True, text=True, check=False
                )
                self.assertEqual(done.returncode, 0, done.stderr)
                ran += 1
        self.assertEqual((ran, compared), (4, 2))
        for name in ("both-depth.png", "both-latency.png"):
            with open(folder.path(name), "rb") as picture:
                self.assertEqual(picture.read(8), b"\x89PNG\r\n\x1a\n")
            self.assertGreater(os.path.getsize(folder.path(name)), 10_000)
        self.assertIsNotNone(shutil.which("tshark"))


if __name__ == "__main__":
    unittest.main()
