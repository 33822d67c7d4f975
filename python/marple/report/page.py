"""The page as a text: the template with what there is to show."""

import importlib
import os
from collections.abc import Iterable
from pathlib import Path
from typing import Any, Optional

from marple.program import Program
from marple.report.captures import Made
from marple.report.pictures import pictures_of
from marple.report.recipes import run_recipes
from marple.report.sheets import sheets_of
from marple.report.tiles import sees_queue, tiles_of
from marple.version import __version__

HERE = Path(__file__).resolve().parent
RECIPES = (
    "total", "flows", "loss", "histogram", "latency", "longest", "depth", "latency-series", "throughput", "series",
    "retransmissions", "out-of-order", "reordered",
)  # fmt: skip
LIBRARIES = {"jinja2": "python3-jinja2", "matplotlib": "python3-matplotlib"}  # with their packages of Debian


def missing_libraries(names: Iterable[str] = tuple(LIBRARIES)) -> str:
    """What is to be installed for the page, or nothing."""
    missing = []
    for name in names:
        try:
            importlib.import_module(name)
        except ImportError:
            missing.append(name)
    if not missing:
        return ""
    packages = " ".join(LIBRARIES[name] for name in missing)
    return f"needs {' and '.join(missing)}: apt-get install {packages} (Debian), or pip install {' '.join(missing)}"


def template() -> Any:
    """The template of the page, in which each text is escaped that isn't the page's own."""
    jinja2 = importlib.import_module("jinja2")
    environment = jinja2.Environment(
        loader=jinja2.FileSystemLoader(HERE), autoescape=True, undefined=jinja2.StrictUndefined, trim_blocks=True,
        lstrip_blocks=True,
    )  # fmt: skip
    environment.filters["base"] = os.path.basename
    environment.filters["svg"] = importlib.import_module("markupsafe").Markup  # of the package's own pictures
    return environment.get_template("page.html")


def page(made: Made, program: Optional[Program] = None) -> str:
    """The page of a trace. Raises what `marple.run` raises."""
    recipes = run_recipes(RECIPES, made.path, program)
    sees = sees_queue(recipes)
    return str(
        template().render(
            made=made, version=__version__, recipes=list(recipes.values()), sees_queue=sees,
            packets=sum(row["packets"] for row in recipes["total"].rows()), tiles=tiles_of(recipes, sees),
            sheets=sheets_of(recipes, sees), pictures=pictures_of(recipes, made.begins, sees),
        )
    )  # fmt: skip
