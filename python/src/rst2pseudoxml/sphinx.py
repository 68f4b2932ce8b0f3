"""An extension of Sphinx (tried with 5.3): its pages are read by this library. In `conf.py`: `extensions = ["rst2pseudoxml.sphinx"]`.

Directives and roles that aren't Docutils' own are handed back to Sphinx, and so are those of Docutils that Sphinx or an extension has in
another form (`code-block`, `figure`, `math`). Docutils' and Sphinx' own transforms run. The page docs/DOCUTILS.md says what is read otherwise
than by Docutils. A page that the library refuses is read by Sphinx' own parser. Text without a role is handed back where there is a default
role: by `default_role` in `conf.py`, or by the directive in the page.
"""

from __future__ import annotations

from typing import Any

from docutils.statemachine import StringList
from sphinx.parsers import RSTParser

from . import LONGEST, Settings
from ._hand import build
from ._machine import lines_of
from ._names import Names
from .docutils import reading

__all__ = ["Parser", "setup"]

_SETTINGS: Settings = {"halt": "none", "line_length_limit": LONGEST, "profile": "docutils"}
_NAMES = Names("others", "docutils")


class Parser(RSTParser):
    """A parser for Sphinx."""

    def parse(self, inputstring: str | StringList, document: Any) -> None:
        """Puts what is read of a page into a document that is empty."""
        if isinstance(inputstring, StringList):
            lines = StringList(inputstring.data, items=inputstring.items)
        else:
            lines = lines_of(inputstring, document.settings.tab_width, document.current_source)
        self.decorate(lines)
        text = "\n".join(lines) + "\n"
        found = reading(_NAMES, document, _SETTINGS)(text)
        if found is None:
            super().parse(inputstring, document)
            return
        self.setup_parse(text, document)
        build(document, lines, self.inliner, self.state_classes, reading(_NAMES, document, _SETTINGS), found)
        self.finish_parse()


def setup(app: Any) -> dict[str, Any]:
    """Makes the parser that of the pages."""
    app.add_source_parser(Parser, override=True)
    return {"parallel_read_safe": True, "parallel_write_safe": True}
