"""The form of what `marple-tools facts` says, as docs/marple-tools.1 has it: names of members, and what stands under them.

A form is a type; a text, or None, for itself; several forms in brackets for a list of such values, and in parentheses for any of
them; or a form for each member of an object.
"""

from __future__ import annotations

Form = object

NUMBER = int
NAMES = [str]
CLASS = ("linear", "other")
PLACED = {"name": str, "start": NUMBER}
SPAN = {"start": NUMBER, "end": NUMBER}
COLUMN = {"name": str, "made_by": (str, None)}
BEST = {"column": str, "rows": NUMBER}
KIND_OF_NAME = ("stream", "groupby", "final", "fold", "column", "state", "argument")

ITEM = {"name": str, "name_start": NUMBER, **SPAN}
INPUTS = {"inputs": [PLACED]}
MAP = {"operator": "map", **INPUTS, "made": [PLACED]}
GROUPBY = {"operator": "groupby", **INPUTS, "keys": NAMES, "fold": PLACED}
FILTER = {"operator": "filter", **INPUTS}
ITEMS = [
    {"kind": "fold", "operator": "def", **ITEM, "states": [{**PLACED, "initial": NUMBER}], "arguments": [PLACED]},
    {"kind": "print", "operator": "print", **ITEM},
    *({"kind": "stream", **ITEM, **own} for own in (FILTER, MAP, GROUPBY, {"operator": "zip", **INPUTS})),
    *({"kind": "final", **ITEM, **own} for own in (FILTER, MAP, GROUPBY, {"operator": "join", **INPUTS})),
    {"kind": "final", "operator": "top", **ITEM, **INPUTS, "best": BEST},
]  # fmt: skip

RULE = ("product", "operator", "condition", "assignment")
CAUSE = {
    "start": NUMBER, "statement": SPAN, "rule": RULE, "operator": (str, None), "keeps": ("greatest", "least", None),
    "reads": (str, None),
}  # fmt: skip
SPOILT = [{"variable": str, **CAUSE}]
FOLD = {
    **PLACED, "states": NAMES, "initial": [NUMBER], "arguments": NAMES, "emits": bool, "class": CLASS,
    "algebra": ("sums", "maxima", None), "depth": NUMBER, "history": NAMES, "additive": bool, "monotone": bool,
    "spoilt": {"sums": SPOILT, "maxima": SPOILT, "monotone": SPOILT, "additive": ({"variable": None, **CAUSE}, None)},
}  # fmt: skip

STREAM = {**PLACED, "operator": ("filter", "map", "zip", "groupby"), "inputs": NAMES, "columns": [COLUMN]}
KEY = {"name": str, "field": bool}
TABLE = {**PLACED, "fold": str, "class": CLASS, "keys": [KEY], "needed": bool}
FINAL = {
    **PLACED, "operator": ("filter", "map", "groupby", "join", "top"), "inputs": NAMES, "columns": NAMES, "keys": NUMBER,
    "best": (BEST, None),
}  # fmt: skip

NO_PARTS = {"kind": ("final groupby", "final of top", "not additive", "final of sums"), **SPAN}
PARTS = (
    {"by": [str], "sums": False, "refused": None}, {"by": [], "sums": True, "refused": None},
    {"by": [], "sums": False, "refused": NO_PARTS},
)  # fmt: skip
COMMANDS = {
    "net": ({"kind": "NotAdditive", **SPAN}, None), "enclose": ({"kind": "NotMonotone", **SPAN}, None),
    "compile": ({"kind": "FinalInPlan", **SPAN}, None),
}  # fmt: skip

ANY = {"marple_facts": 1, "fields": NAMES, "items": ITEMS}
ACCEPTED = {
    **ANY, "fault": None, "folds": [FOLD], "streams": [STREAM], "groupbys": [TABLE], "finals": [FINAL], "prints": NAMES,
    "reads": NAMES, "commands": COMMANDS, "parts": PARTS, "warnings": [{"kind": "infinity", "name": str, **SPAN}],
}  # fmt: skip

PLACE = (
    "name", "input", "second input", "key", "fold", "best", "column", "printed", "variable", "target", "emit", "shift",
    "expression", "number",
)  # fmt: skip
TOKENS = [{"kind": ("name", "number", "end"), "text": None}, {"kind": "token", "text": str}]
FAULT = {
    "kind": str, "limit": (str, None), "most": (NUMBER, None), **SPAN, "expected": TOKENS, "item": (NUMBER, None),
    "place": (*PLACE, None), "names": [{"name": str, "kind": KIND_OF_NAME, "start": (NUMBER, None)}], "columns": [COLUMN], "missing": NAMES,
}  # fmt: skip
REFUSED = {**ANY, "fault": FAULT}


def fits(value: object, form: Form) -> bool:
    """Whether a value has a form."""
    if isinstance(form, dict):
        return isinstance(value, dict) and value.keys() == form.keys() and all(fits(value[name], form[name]) for name in form)
    if isinstance(form, list):
        return isinstance(value, list) and all(fits(one, tuple(form)) for one in value)
    if isinstance(form, tuple):
        return any(fits(value, one) for one in form)
    if isinstance(form, type):
        return type(value) is form
    return type(value) is type(form) and value == form
