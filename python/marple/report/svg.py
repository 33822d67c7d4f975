"""Pictures of matplotlib as parts of a page: its colours and letters, and nothing that names another place."""

import io
import re
import xml.etree.ElementTree as ElementTree
from typing import Any

SVG = "http://www.w3.org/2000/svg"
HREF = "{http://www.w3.org/1999/xlink}href"
# Each colour that a picture is drawn in stands for a variable of the page's style.
INK, GRID = "#010203", "#010204"
LINES = tuple(f"#01030{number}" for number in range(9))
VARIABLES = {INK: "var(--soft)", GRID: "var(--grid)"} | {line: f"var(--line-{number})" for number, line in enumerate(LINES)}
SETTINGS = {
    "svg.fonttype": "none", "svg.hashsalt": "marple", "font.size": 9, "text.color": INK, "axes.labelcolor": INK,
    "axes.edgecolor": INK, "xtick.color": INK, "ytick.color": INK, "grid.color": GRID, "axes.spines.top": False,
    "axes.spines.right": False, "axes.formatter.useoffset": False, "path.simplify": True,
}  # fmt: skip


def text_of(figure: Any, name: str) -> str:
    """The figure as an element of a page, whose ids begin by the name."""
    out = io.BytesIO()
    figure.savefig(out, format="svg", transparent=True)
    root = ElementTree.fromstring(out.getvalue())
    for parent in list(root.iter()):
        for child in list(parent):
            if child.tag in (f"{{{SVG}}}metadata", f"{{{SVG}}}style"):
                parent.remove(child)
    for element in root.iter():
        rewrite(element, name)
    drop_ids(root)
    for size in ("width", "height"):
        root.attrib.pop(size)
    ElementTree.register_namespace("", SVG)
    return ElementTree.tostring(root, encoding="unicode")


def rewrite(element: ElementTree.Element, name: str) -> None:
    """Gives an element the page's colours and letters, and ids of its own."""
    if HREF in element.attrib:
        element.set("href", element.attrib.pop(HREF).replace("#", f"#{name}-"))
    if "id" in element.attrib:
        element.set("id", f"{name}-{element.get('id')}")
    if "clip-path" in element.attrib:
        element.set("clip-path", element.attrib["clip-path"].replace("#", f"#{name}-"))
    if style := element.get("style"):
        style = re.sub(r"font: ([0-9.]+px) [^;]*", r"font-size: \1", style)
        for colour, variable in VARIABLES.items():
            style = style.replace(colour, variable)
        element.set("style", style)
    if "d" in element.attrib:
        element.set("d", " ".join(element.attrib["d"].split()))


def drop_ids(root: ElementTree.Element) -> None:
    """Keeps only the ids that something refers to."""
    texts = [value for element in root.iter() for key, value in element.items() if key in ("href", "clip-path")]
    used = {found for text in texts for found in re.findall(r"#([^)]+)", text)}
    for element in root.iter():
        if element.get("id") not in used:
            element.attrib.pop("id", None)
