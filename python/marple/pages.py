"""The pages that say what the program's answers mean, and the modules of ./explain, where they are there: in the checkout,
in a wheel, or where `./install` puts them.
"""

import contextlib
import importlib
import sys
from pathlib import Path
from types import ModuleType
from typing import Optional

from marple.places import CHECKOUT

BUNDLED = Path(__file__).resolve().parent / "explain"


def page_text(name: str) -> str:
    """The text of a page of docs/, or nothing where there is none."""
    for folder in (BUNDLED / "docs", CHECKOUT / "docs"):
        with contextlib.suppress(OSError):
            return (folder / name).read_text(encoding="utf-8")
    return ""


def explainer() -> Optional[ModuleType]:
    """The module that puts refusals of queries into words, or None where it isn't there."""
    folder = next((one for one in (BUNDLED, CHECKOUT / "tools") if (one / "query_help" / "__init__.py").is_file()), None)
    if folder is None:
        return None
    sys.path.insert(0, str(folder))
    try:
        return importlib.import_module("query_help.command")
    finally:
        sys.path.remove(str(folder))
