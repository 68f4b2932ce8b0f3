"""For tests: a tree is as it was written down, or the differences are shown."""

from __future__ import annotations

import difflib
import itertools
import os
from typing import TYPE_CHECKING, Iterator

from . import Settings, Text, pseudoxml

if TYPE_CHECKING:
    from typing_extensions import Unpack

    from ._names import Hand


def assert_tree(text: Text, expected: str, *, hand: Hand = None, **settings: Unpack[Settings]) -> None:
    """Fails with the differences unless the tree of a text is `expected`. No message halts the run, if `halt` isn't given.

    With `hand` directives and roles are handed back to Docutils, which has to be installed: "registered" are those that are registered with
    it and that the profile doesn't have itself (see `rst2pseudoxml.docutils.Parser`). The profile is "docutils" then, if none is given.

    `expected` may be indented: what its first line is indented by is taken off each line. A line feed before the first line,
    and spaces after the last line feed, don't count.
    """
    __tracebackhide__ = True  # pytest shows the line of the test instead
    wanted = expected.removeprefix("\n").split("\n")
    margin = len(wanted[0]) - len(wanted[0].lstrip(" "))
    wanted = [line.removeprefix(" " * margin) for line in wanted]
    wanted[-1] = wanted[-1].rstrip(" ")
    settings.setdefault("halt", "none")
    got = _printed(text, hand, settings).split("\n")
    if got != wanted:
        raise AssertionError("the tree differs\n" + "\n".join(differences(wanted, got)))


def _printed(text: Text, hand: Hand, settings: Settings) -> str:
    if hand is None:
        return pseudoxml(text, **settings)
    from .docutils import pseudoxml as printed

    return printed(text, hand=hand, **settings)


def differences(wanted: list[str], got: list[str]) -> Iterator[str]:
    """The lines of a unified diff. What differs in a line, or is a space at its end, is marked with `^` in a line below it."""
    diff = difflib.unified_diff(wanted, got, "expected", "the tree", lineterm="")
    yield from itertools.islice(diff, 2)
    for changed, group in itertools.groupby(diff, lambda line: line[0] in "-+"):
        lines = list(group)
        removed = sum(line[0] == "-" for line in lines)
        for place, line in enumerate(lines):
            yield line
            # Lines are compared in pairs, if as many are added as are removed.
            other = lines[place - removed] if 2 * removed == len(lines) else line.rstrip(" ")
            mark = _marks(line[1:], other[1:])
            if changed and mark:
                yield "?" + mark


def _marks(line: str, other: str) -> str:
    """A `^` below each character from the first to the last in which a line differs from another; empty if there is none."""
    start = len(os.path.commonprefix([line, other]))
    after = len(os.path.commonprefix([line[start:][::-1], other[start:][::-1]]))
    return " " * start + "^" * (len(line) - after - start) if len(line) > after + start else ""
