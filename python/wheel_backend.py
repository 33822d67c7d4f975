"""Builds the wheel of the package, by only the standard library (PEP 517, PEP 660).

The version is that of the file VERSION at the top of the checkout. The wheel's bytes depend only on the sources: not on
the time, the folder, the order of files or a compressor. It runs also on a Python that the package doesn't run on, so
that the installer can say so.
"""

import base64
import hashlib
import zipfile
from pathlib import Path

HERE = Path(__file__).resolve().parent
TOP = HERE.parent
TAG = "py3-none-any"
METADATA = """\
Metadata-Version: 2.4
Name: marple
Version: {version}
Summary: Runs marple, a proved implementation of the Marple query language: tables as DataFrames, large traces in parts
License-Expression: Apache-2.0
Requires-Python: >=3.10
Provides-Extra: frames
Requires-Dist: pandas>=1.5; extra == "frames"
Provides-Extra: arrow
Requires-Dist: pyarrow>=11; extra == "arrow"
Provides-Extra: cluster
Requires-Dist: distributed>=2022.12; extra == "cluster"
Provides-Extra: report
Requires-Dist: jinja2>=3.0; extra == "report"
Requires-Dist: matplotlib>=3.6; extra == "report"
"""
WHEEL = f"Wheel-Version: 1.0\nGenerator: wheel_backend\nRoot-Is-Purelib: true\nTag: {TAG}\n"
ENTRY_POINTS = """\
[console_scripts]
marple-parts = marple.parts.__main__:main
marple-report = marple.report.__main__:main
"""
PAGES = ("ERRORS.md", "FORMATS.md")  # from which refusals take their remedies, and options their bounds


def version() -> str:
    return (TOP / "VERSION").read_text().strip()


def sources() -> dict:
    """The files of the package by their names in the wheel."""
    files = {str(path.relative_to(HERE)): path.read_bytes() for path in (HERE / "marple").rglob("*.py")}
    files["marple/py.typed"] = (HERE / "marple" / "py.typed").read_bytes()
    files["marple/VERSION"] = version().encode()
    for name in ("page.html", "page.css", "page.js"):
        files[f"marple/report/{name}"] = (HERE / "marple" / "report" / name).read_bytes()
    for path in (TOP / "examples" / "cookbook").glob("*.query"):
        files[f"marple/report/cookbook/{path.name}"] = path.read_bytes()
    files.update(capture_scripts())
    for path in (TOP / "tools" / "query_help").glob("*.py"):
        files[f"marple/explain/query_help/{path.name}"] = path.read_bytes()
    for name in PAGES:
        files[f"marple/explain/docs/{name}"] = (TOP / "docs" / name).read_bytes()
    return files


def capture_scripts() -> dict:
    """The scripts that make traces of captures, by their names in the wheel."""
    folder = TOP / "tools" / "captures"
    paths = [*folder.glob("trace-from-capture*"), *folder.glob("marple_captures/*.py")]
    return {f"marple/report/captures/{path.relative_to(folder)}": path.read_bytes() for path in paths}


def write_wheel(folder: str, files: dict) -> str:
    """Writes a wheel of these files into the folder, with its metadata and the record of all files. Returns its name."""
    info = f"marple-{version()}.dist-info"
    whole = {
        **files,
        f"{info}/METADATA": METADATA.format(version=version()).encode(),
        f"{info}/WHEEL": WHEEL.encode(),
        f"{info}/entry_points.txt": ENTRY_POINTS.encode(),
    }
    record = ""
    for name, content in sorted(whole.items()):
        digest = base64.urlsafe_b64encode(hashlib.sha256(content).digest()).rstrip(b"=").decode()
        record += f"{name},sha256={digest},{len(content)}\n"
    record += f"{info}/RECORD,,\n"
    wheel = f"marple-{version()}-{TAG}.whl"
    with zipfile.ZipFile(Path(folder, wheel), "w", zipfile.ZIP_STORED) as archive:
        for name, content in [*sorted(whole.items()), (f"{info}/RECORD", record.encode())]:
            entry = zipfile.ZipInfo(name, (1980, 1, 1, 0, 0, 0))
            entry.create_system = 3
            entry.external_attr = 0o100644 << 16
            archive.writestr(entry, content)
    return wheel


def build_wheel(wheel_directory, config_settings=None, metadata_directory=None):
    return write_wheel(wheel_directory, sources())


def build_editable(wheel_directory, config_settings=None, metadata_directory=None):
    return write_wheel(wheel_directory, {"marple.pth": f"{HERE}\n".encode()})


def build_sdist(sdist_directory, config_settings=None):
    raise NotImplementedError("the package is installed from the checkout: pip install ./python")
