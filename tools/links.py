"""Which links of pages lead nowhere: of Markdown pages of the repository, and of the pages of a site.

A link within leads to a file that is there and, if it has an anchor, to a place of that page. A page of a site loads nothing from
another host.
"""

from __future__ import annotations

import re
from collections.abc import Iterator
from dataclasses import dataclass, field
from functools import cache
from html.parser import HTMLParser
from pathlib import Path
from urllib.parse import unquote, urlsplit

ELSEWHERE = re.compile(r"(?:[a-z][a-z0-9+.-]*:)?//|mailto:|data:")
# attributes by which a browser loads what they name, of elements other than <a>
LOADS = ("src", "href", "srcset", "poster", "data", "action")


@dataclass(frozen=True)
class Link:
    page: Path
    target: str


def code_left_out(page: str) -> str:
    """A page of Markdown without its blocks and its words of code."""
    return re.sub(r"`[^`\n]*`", "", re.sub(r"(?m)^ {4}.*$", "", page))


@cache
def anchors_of(page: Path) -> frozenset[str]:
    """The anchors of a page of Markdown, which its headings and its elements with an id make."""
    text = page.read_text(encoding="utf-8")
    headings = re.findall(r"(?m)^#+ (.*)$", text)
    made = (re.sub(r"[^\w\- ]", "", it.lower()).replace(" ", "-") for it in headings)
    return frozenset(made) | frozenset(re.findall(r'<a id="([^"]+)"', text))


def links_of(page: Path) -> list[str]:
    """What a page of Markdown links to."""
    return re.findall(r"\]\(([^)\s]+)\)", code_left_out(page.read_text(encoding="utf-8")))


def wrong_in_markdown(pages: list[Path]) -> Iterator[Link]:
    """The links of the pages that lead to no file, or to no place of one."""
    for page in pages:
        for target in links_of(page):
            if ELSEWHERE.match(target):
                continue
            path, _, anchor = target.partition("#")
            file = page.parent / path if path else page
            if not file.exists() or (anchor and anchor not in anchors_of(file)):
                yield Link(page, target)


@dataclass
class Reader(HTMLParser):
    """What an HTML page links to, what it loads, and its ids."""

    links: list[str] = field(default_factory=list)
    loaded: list[str] = field(default_factory=list)
    ids: set[str] = field(default_factory=set)

    def __post_init__(self) -> None:
        super().__init__()

    def handle_starttag(self, tag: str, attrs: list[tuple[str, str | None]]) -> None:
        for name, value in attrs:
            if name in ("id", "name"):
                self.ids.add(value or "")
            elif tag == "a" and name == "href":
                self.links.append(value or "")
            elif name in LOADS:
                self.loaded.append(value or "")


@cache
def read(page: Path) -> Reader:
    reader = Reader()
    reader.feed(page.read_text(encoding="utf-8"))
    return reader


def target_of(site: Path, page: Path, link: str) -> tuple[Path, str]:
    """The file of a site that a link within leads to, and the anchor there."""
    parts = urlsplit(link)
    path = unquote(parts.path)
    file = site / path.lstrip("/") if path.startswith("/") else page.parent / path if path else page
    return (file / "index.html" if file.is_dir() else file), unquote(parts.fragment)


def wrong_in_site(site: Path) -> Iterator[Link]:
    """The links of a site's pages that lead nowhere, and what they load from another host."""
    for page in sorted(site.rglob("*.html")):
        if page.name == "404.html":
            continue
        reader = read(page)
        yield from (Link(page, it) for it in reader.loaded if ELSEWHERE.match(it) and not it.startswith("data:"))
        for link in (*reader.links, *reader.loaded):
            if ELSEWHERE.match(link):
                continue
            file, anchor = target_of(site, page, link)
            if not file.is_file() or (anchor and file.suffix == ".html" and anchor not in read(file).ids):
                yield Link(page, link)
    for sheet in sorted(site.rglob("*.css")):
        loaded = re.findall(r"(?:url\(|@import )[\"']?([^\"')\s]+)", sheet.read_text(encoding="utf-8"))
        yield from (Link(sheet, it) for it in loaded if ELSEWHERE.match(it) and not it.startswith("data:"))
