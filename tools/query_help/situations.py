"""Which of a fault's remedies fits its place: the words after the fault in the list of docs/ERRORS.md."""

from query_help.facts import Fact

PLACES = {
    ("NameTaken", "second input", "join"): "at a second table",
    ("WrongKind", "second input", "join"): "at a second table",
    ("NameTaken", "second input", "zip"): "at a second stream",
    ("WrongKind", "second input", "zip"): "at an input",
    ("WrongKind", "printed", "print"): "after print",
    ("WrongKind", "target", "def"): "at a target",
    ("WrongArity", "emit", "def"): "at emit",
    ("BadConstant", "number", "top"): "of top",
}


def situation(fault: Fact, items: list[Fact]) -> str:
    """The words for the place of a fault, or none."""
    kind, place = fault["kind"], fault["place"]
    if place is None:
        return ""
    item = items[fault["item"]]
    if place == "fold":
        return "" if kind == "UnknownName" and not fault["missing"] else "at a groupby's fold"
    if kind == "WrongKind" and place == "input":
        return "at an input"
    if kind == "BadConstant" and place == "shift":
        return "of a shift"
    if kind == "StateOnLine" and item["kind"] == "fold":
        return "in a fold"
    return PLACES.get((kind, place, item["operator"]), "")
