"""Runs the tests of a folder, or those that its words name."""

import sys
import unittest
from pathlib import Path

sys.path.insert(0, str(Path(__file__).resolve().parents[1]))

import checks


def main() -> int:
    folder, *names = sys.argv[1:]
    sys.path.insert(0, folder)
    loader = unittest.TestLoader()
    return checks.run(loader.loadTestsFromNames(names) if names else loader.discover(folder, top_level_dir=folder))


if __name__ == "__main__":
    sys.exit(main())
