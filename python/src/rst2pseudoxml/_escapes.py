"""The marks of escaped characters in texts. Docutils' parser keeps them, and its transform for quotation marks reads them."""

from __future__ import annotations

import re
from typing import Any

from docutils import nodes, utils

_AS_WRITTEN = (nodes.literal, nodes.math, nodes.raw, nodes.problematic)  # in these a backslash is itself
_DROPPED = r"(?:\\\s)*"  # escaped white characters aren't in the text


def mark_escapes(element: Any, source: str) -> None:
    """Marks the escaped characters in the texts of an element, as far as they are found in its source text."""
    place = 0
    for text in list(element.findall(nodes.Text)):
        if "\0" in text or not text:
            continue
        as_written = isinstance(text.parent, _AS_WRITTEN)
        start, end = _place(str(text), source, place)
        if start < 0:
            continue
        while not as_written and source[end : end + 1] == "\\" and source[end + 1 : end + 2].isspace():
            end += 2
        place = end
        if not as_written and "\\" in source[start:end]:
            text.parent.replace(text, nodes.Text(utils.escape2null(source[start:end])))


def _place(text: str, source: str, place: int) -> tuple[int, int]:
    """Where a text begins and ends in a source text, with the escapes at its front; less than 0 if it isn't there."""
    start = source.find(text, place)
    end = start + len(text)
    if start < 0:  # it may have escapes inside
        pattern = "".join(rf"{_DROPPED}\\?{re.escape(character)}" for character in text)
        found = re.compile(pattern).search(source, place)
        return found.span() if found else (-1, -1)
    if source[start - 1 : start] == "\\" and start > place:
        start -= 1
    while start - 2 >= place and source[start - 2] == "\\" and source[start - 1].isspace():
        start -= 2
    return start, end
