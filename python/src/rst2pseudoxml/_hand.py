"""Documents that hold what is handed back: what the library has parsed is built, and Docutils' machine runs the directives and roles in it."""

from __future__ import annotations

import functools
from typing import Any, Callable, Optional

from docutils.statemachine import StringList

from ._build import Builder
from ._machine import Machine

Read = Callable[[str], Optional["list[Any]"]]
"""What the library has parsed of a text; None if it refuses the text."""


def build(document: Any, lines: StringList, inliner: Any, state_classes: Any, read: Read, made: list[Any]) -> None:
    """Puts what the library has parsed into a document. Its lines are those of the text; `read` parses a text with the same names."""
    machine = Machine(document, lines, inliner, state_classes, functools.partial(_build_inside, read, document))
    Builder(document, machine, lines, document).fill(made)
    machine.end()


def _build_inside(read: Read, document: Any, machine: Machine, block: StringList, offset: int, parent: Any, titles: bool) -> bool:
    """Reads lines of a directive into a parent, if they need no machine of Docutils.

    They need one if they hold titles. Where titles may not be, lines are read as those of a list item.
    """
    if titles:
        lines = block
        made = read("\n".join(block) + "\n")
        children = made[3:] if made else None
    else:
        if all(row[:1] in ("", " ") for row in block):
            return False
        lines = StringList(["-", "", *(row and "  " + row for row in block)], items=[*block.items[:1] * 2, *block.items])
        made = read("\n".join(lines) + "\n")
        children = made[3][3][3:] if made and len(made) == 4 and made[3][0] == "bullet_list" and len(made[3]) == 4 else None
    if children is None or any(found[0] == "section" for found in children):
        return False
    builder = Builder(document, machine, lines, parent if titles else None, offset if titles else offset - 2)
    builder.fill_inside(parent, children)
    if block.items:
        document.note_source(block.items[-1][0], None)  # where Docutils' machine would be: past the end
    return True
