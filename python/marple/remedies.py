"""What to do about a refused query, in the words of ./explain."""

import logging
from typing import Any, Optional

from marple.facts import facts_of
from marple.faults import QueryRefused
from marple.pages import BUNDLED, explainer
from marple.places import CHECKOUT
from marple.program import Program

log = logging.getLogger("marple")


def with_remedy(refused: QueryRefused, query: bytes, program: Optional[Program]) -> QueryRefused:
    """The refusal, with what ./explain says of it below the place, if ./explain is there."""
    try:
        module = explainer()
        if module is None:
            return refused
        said = _words(module, query, refused, program)
    except Exception as fault:  # a refusal is reported also where no words are found for it
        log.debug("no remedy was found for %s: %r", refused.kind, fault)
        return refused
    return QueryRefused(refused.kind, refused.offset, query, said)


def _words(module: Any, text: bytes, refused: QueryRefused, program: Optional[Program]) -> str:
    """The lines of ./explain that follow the place with its caret, which the refusal shows itself."""
    folder = BUNDLED if (BUNDLED / "docs").is_dir() else CHECKOUT
    query = module.Query("<query>", text, text[: module.LONGEST].decode("latin-1"), facts_of(text, program=program))
    said = str(module.fault_words(query, refused.kind, refused.offset, module.page.read_remedies(folder)))
    shown = query.place(refused.offset, refused.kind)
    return said.removeprefix(shown).replace("<query>:", "line ").strip()
