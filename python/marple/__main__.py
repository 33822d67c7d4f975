"""Runs the program that the package finds, with the words that are given; --version says which one it is.

Usage: python -m marple COMMAND ..
       python -m marple --version
"""

import os
import sys

from marple.faults import ProgramMissing
from marple.program import find_program
from marple.version import __version__


def main() -> int:
    words = sys.argv[1:]
    if words in (["--help"], ["-h"]):
        print(__doc__.strip())
        return 0
    try:
        program = find_program()
    except ProgramMissing as missing:
        if words == ["--version"]:
            print(f"marple {__version__}, no program")
            return 0
        print(f"marple: {missing}", file=sys.stderr)
        return missing.status
    if words == ["--version"]:
        print(f"marple {__version__}, {program}")
        return 0
    sys.stdout.flush()
    os.execv(program, [program, *words])


if __name__ == "__main__":
    sys.exit(main())
