"""The options of the commands: their words, and which values they take."""

import re
from collections.abc import Mapping
from functools import lru_cache
from typing import Optional

from marple.faults import MarpleError, UsageError
from marple.pages import page_text

ROW = re.compile(r"^\| `--(\w+) [A-Z]` \| ([^|]+) \|", re.MULTILINE)
NET = re.compile(r"The options of `net` are (.+?)\n\n", re.DOTALL)
GEN = re.compile(r"`gen`\s+and `trial` take (.+?)\.\s", re.DOTALL)


def words_of(given: Mapping[str, Optional[int]]) -> list[str]:
    """The words of the options that are given. Raises TypeError where a value is no whole number."""
    return [word for name, value in given.items() if value is not None for word in (f"--{name}", whole(name, value))]


def whole(name: str, value: object) -> str:
    """The digits of a value. Raises TypeError where it is no whole number."""
    if isinstance(value, bool) or not hasattr(value, "__index__"):
        raise TypeError(f"{name} is an int, not {value!r}, which is a {type(value).__name__}")
    return str(value.__index__())


def told(refused: MarpleError, command: str, given: Mapping[str, Optional[int]]) -> MarpleError:
    """The refusal of a command line, with the options that were given, and the values that they take."""
    values = ", ".join(f"{name}={value}" for name, value in given.items() if value is not None)
    if not isinstance(refused, UsageError) or not values:
        return refused
    bounds = _bounds_of(command, [name for name, value in given.items() if value is not None])
    return UsageError(f"{refused}: `{command}` doesn't take {values}" + (f"; {bounds}" if bounds else ""))


def _bounds_of(command: str, names: list[str]) -> str:
    """What docs/FORMATS.md says of the values of these options at the command."""
    page = page_text("FORMATS.md")
    if command in ("net", "gen"):
        found = (NET if command == "net" else GEN).search(page)
        return " ".join(found[1].split()).replace("`", "") if found else ""
    values = options_of(page)
    return "; ".join(f"{name} is {values[name]}" for name in names if name in values)


@lru_cache(maxsize=1)
def options_of(page: str) -> dict[str, str]:
    """For each option of `run` the values that it takes, from the table of the page."""
    return {name: values.strip() for name, values in ROW.findall(page)}
