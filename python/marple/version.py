"""The version: that of the checkout, or the one that was installed."""

from pathlib import Path

HERE = Path(__file__).resolve().parent


def _read() -> str:
    installed = HERE / "VERSION"
    return (installed if installed.is_file() else HERE.parents[1] / "VERSION").read_text().strip()


__version__ = _read()
