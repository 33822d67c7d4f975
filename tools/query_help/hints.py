"""What is said of a refused query beyond its remedy: the names that may have been meant, addresses, reserved words."""

import re
from typing import Optional

from query_help.facts import Fact, names_of
from query_help.near import alike

_ADDRESS = re.compile(r"(?<![\w.])(\d{1,3})\.(\d{1,3})\.(\d{1,3})\.(\d{1,3})(?:/(\d{1,2}))?(?![\w.])")
_WORD = re.compile(r"[A-Za-z_]\w*", re.ASCII)
FEW = 4


def quoted(names: list[str]) -> str:
    return ", ".join(f"`{name}`" for name in names)


def address_hint(text: str, place: int) -> Optional[str]:
    """The number of an address in dotted form that the place is in."""
    for found in _ADDRESS.finditer(text):
        if not found.start() <= place < found.end():
            continue
        parts = [int(part) for part in found.groups()[:4]]
        if max(parts) > 255:
            return None
        number = int.from_bytes(bytes(parts), "big")
        written = ".".join(found.groups()[:4])
        bits = int(found.group(5) or 32)
        if bits >= 32:
            return f"In a query an address is a number: {written} is {number}."
        shift = 32 - bits
        return (f"In a query an address is a number: {written} is {number}, "
                f"and an address x is in {found.group()} where `(x >> {shift}) == {number >> shift}`.")
    return None


def token_words(tokens: list[Fact]) -> list[str]:
    """What these tokens are called, those with one text first."""
    words = {"name": "a name", "number": "a number", "end": "the end"}
    texts = [f"`{token['text']}`" for token in tokens if token["text"] is not None]
    return texts + [words[token["kind"]] for token in tokens if token["text"] is None]


def syntax_hints(fault: Fact, text: str) -> list[str]:
    """What is wrong with the token, and what can stand in its place where that is little."""
    hints = []
    expected = token_words(fault["expected"])
    token = text[fault["start"]:fault["end"]]
    if "a name" in expected and _WORD.fullmatch(token):  # a name would have been taken
        hints.append(f"`{token}` is a reserved word, so it can't be a name.")
    if 0 < len(expected) <= FEW:
        joined = expected[0] if len(expected) == 1 else f"{', '.join(expected[:-1])} or {expected[-1]}"
        hints.append(f"Here {joined} is expected.")
    return hints


def reach_words(fault: Fact, item: Fact) -> str:
    """What the names that can stand at the place are called together."""
    if item["kind"] == "fold":
        return f"The names in {item['name']} are"
    if item["kind"] == "print":
        return "The tables so far are"
    if fault["place"] in ("input", "second input"):
        return "The tables so far are" if item["kind"] == "final" else "The streams so far are"
    if fault["place"] == "fold":
        return "The folds so far are"
    return f"The columns of {item['inputs'][0]['name']} are"


def later_hint(name: str, facts: Fact, text: str) -> Optional[str]:
    """Where the name is made further down."""
    for item in facts["items"][facts["fault"]["item"] + 1:]:
        if item["kind"] != "print" and item["name"] == name:
            return f"`{name}` is made later, on line {text.count(chr(10), 0, item['name_start']) + 1}."
    return None


def near_hint(name: str, names: list[str]) -> list[str]:
    near = alike(name, names)
    return [f"Did you mean {' or '.join(f'`{candidate}`' for candidate in near)}?"] if near else []


def name_hints(name: str, facts: Fact, text: str) -> list[str]:
    """What a name that isn't known may have been, and which names are in reach."""
    fault = facts["fault"]
    item = facts["items"][fault["item"]]
    names = names_of(fault["names"])
    hints = near_hint(name, names)
    if item["kind"] == "fold" and name in facts["fields"]:
        hints.append(f"`{name}` is a column, and a fold reads only the columns among its arguments: add `{name}` to "
                     f"the second list of {item['name']}.")
    elif name in names_of(item.get("made", [])):
        hints.append(f"`{name}` is made by this `map` itself: use it in a second `map` over {item['name']}.")
    later = later_hint(name, facts, text)
    if later:
        hints.append(later)
    words = reach_words(fault, item)
    hints.append(f"{words}: {', '.join(names)}." if names else f"{words}: none.")
    return hints


def argument_hints(missing: str, fault: Fact, item: Fact) -> list[str]:
    """What an argument that is no column may have been, and the columns that there are."""
    columns = names_of(fault["names"])
    hints = near_hint(missing, columns)
    return hints + [f"The columns of {item['inputs'][0]['name']} are: {', '.join(columns)}."]
