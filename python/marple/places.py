"""Where things are: the checkout, and the places at which a program may be."""

import json
import os
import re
from importlib import metadata
from pathlib import Path
from typing import Optional
from urllib.parse import unquote, urlparse

PACKAGE = Path(__file__).resolve().parent
BESIDE = PACKAGE.parents[1]  # the checkout, if the package stands in one


def is_checkout(folder: Path) -> bool:
    """Whether the folder is one of marple's."""
    return (folder / "crates.txt").is_file() and (folder / "python" / "marple").is_dir()


def checkout() -> Path:
    """The checkout that this package stands in, or that it was installed from, as the installer noted."""
    if is_checkout(BESIDE):
        return BESIDE
    came_from = _installed_from()
    return next((one for one in (came_from, *came_from.parents) if is_checkout(one)), BESIDE) if came_from else BESIDE


def _installed_from() -> Optional[Path]:
    """The folder or the wheel that was installed: direct_url.json of the installed package, which pip writes."""
    try:
        noted = metadata.distribution("marple").read_text("direct_url.json")
        url = urlparse(json.loads(noted)["url"]) if noted else None
    except (metadata.PackageNotFoundError, ValueError, KeyError, TypeError):
        return None
    return Path(unquote(url.path)) if url and url.scheme == "file" else None


CHECKOUT = checkout()
