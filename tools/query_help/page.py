"""The remedies of docs/ERRORS.md: the items of its lists that begin with a fault and have an anchor and the word `Remedy:`."""

import re
from dataclasses import dataclass
from pathlib import Path
from typing import Optional

NAME = "docs/ERRORS.md"
_ITEM = re.compile(r'^- (`[^`]+`[^<:`]*)<a id="([^"]+)"></a>: .*?Remedy: (.*)$')


@dataclass(frozen=True)
class Remedy:
    """What to do about a fault, and the anchor of the fault on the page."""

    words: str
    anchor: str

    def lines(self) -> str:
        """The remedy, and a line with the place on the page."""
        return f"{self.words[0].upper()}{self.words[1:]}\nSee {NAME}#{self.anchor}\n"


def items_of(page: str) -> list[str]:
    """The items of the page's lists, each on one line."""
    items: list[str] = []
    inside = False
    for line in page.splitlines():
        if line.startswith("- `"):
            items.append(line)
            inside = True
        elif inside and line.startswith("  ") and line[2:3].strip():
            items[-1] += " " + line.strip()
        else:
            inside = False
    return items


def remedies_of(page: str) -> dict[str, Remedy]:
    """For each fault, with the words that follow its name if there are any, the remedy."""
    found = (_ITEM.match(item) for item in items_of(page))
    return {it.group(1): Remedy(it.group(3), it.group(2)) for it in found if it}


def remedy(remedies: dict[str, Remedy], fault: str, situation: str = "") -> Optional[Remedy]:
    """The remedy of the fault in this situation; where the page has none for it, that of the fault."""
    return remedies.get(f"`{fault}` {situation}".strip()) or remedies.get(f"`{fault}`")


def read_remedies(folder: Path) -> dict[str, Remedy]:
    """Reads the page below the folder of the script."""
    page = folder / NAME
    return remedies_of(page.read_text(encoding="utf-8")) if page.is_file() else {}
