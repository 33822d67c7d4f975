"""DataFrames as traces and tables as DataFrames, compared with pandas' own CSV; and a call of the program.

`measure.py` measures them in one process of the Python that PYTHON names, or of /usr/bin/python3, where that has pandas.
"""

from __future__ import annotations

import json
import os
import subprocess

from measure import BenchError, Figure, Race, report_progress
from workshop import TOP, Workshop


def measured(shop: Workshop, runs: int | None) -> list[tuple[Race, dict[str, Figure]]]:
    """The figures of `measure.py`; none where there is no pandas."""
    python = os.environ.get("PYTHON", "/usr/bin/python3")
    if subprocess.run([python, "-c", "import pandas"], stderr=subprocess.DEVNULL, check=False).returncode != 0:
        report_progress(f"package: not measured, since {python} has no pandas")
        return []
    given = os.environ | {"PYTHONPATH": str(TOP / "python"), "PYTHONDONTWRITEBYTECODE": "1", "MARPLE": shop.marple}
    done = subprocess.run([python, shop.here / "measure.py", str(runs or 5)], env=given, stdout=subprocess.PIPE, check=False)
    if done.returncode != 0:
        raise BenchError("bench/package/measure.py failed")
    return [
        (Race(case, {name: [] for name in programs}), {name: Figure(**own) for name, own in programs.items()})
        for case, programs in json.loads(done.stdout).items()
    ]
