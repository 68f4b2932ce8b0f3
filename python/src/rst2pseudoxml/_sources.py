"""The source texts of elements (`rawsource`), which translations read, as far as the lines of a text tell them."""

from __future__ import annotations

import re
import textwrap
from itertools import takewhile
from typing import Iterator

from docutils.statemachine import StringList

_MARK = re.compile(  # what stands before a text in its line; the last mark is a group
    r" *(?:((?:[-+*\u2022\u2023\u2043]|\(?(?:\d+|[a-zA-Z]|[ivxlcdm]+|[IVXLCDM]+|#)[.)]|:(?![: ])(?:[^:\\]|\\.|:(?![ `]|\Z))*(?<! ):"
    r"|\.\. \[[^]]*\]|\.\. [\w:.+-]+::|(?:--?|[+/])\w\S*(?: \S+)*(?=  ))) +)*"
)


def row(lines: StringList, line: int) -> str:
    """The text of a line; it is empty where there is none."""
    rows: list[str] = lines.data
    return rows[line - 1] if 0 < line <= len(rows) else ""


def of_text(lines: StringList, line: int) -> str:
    """A text of one line, without what stands before it."""
    first = row(lines, line)
    return first[_columns(first)[1] :]


def of_paragraph(lines: StringList, line: int) -> str:
    """A paragraph outside of tables. The lines below its first are indented alike, and more than a mark before it."""
    mark, column = _columns(row(lines, line))
    if mark >= 0 and column > len(row(lines, line)):  # the paragraph begins below a mark
        return of_paragraph(lines, line + 1)
    second = _indent(row(lines, line + 1))
    is_alike = second > mark if mark >= 0 else second == column
    below = takewhile(lambda text: text and _indent(text) == second, _rows_below(lines, line)) if is_alike else ()
    return "\n".join([of_text(lines, line), *(text.lstrip(" ") for text in below)])


def of_argument(lines: StringList, line: int) -> str:
    """The argument of a directive that begins at a line."""
    return of_paragraph(lines, line).partition("\n:")[0]  # without the options


def of_line(lines: StringList, line: int) -> str:
    """A line of a line block, with those in which it goes on."""
    before, _, first = row(lines, line).partition("|")
    below = takewhile(lambda text: text and _indent(text) > len(before), _rows_below(lines, line))
    return "\n".join([first.strip(" "), *(text.strip(" ") for text in below)])


def of_field_name(lines: StringList, line: int) -> str:
    """The name of the field that begins at a line."""
    mark, column = _columns(row(lines, line))
    return row(lines, line)[mark:column].strip(" ")[1:-1]


def of_field_body(lines: StringList, line: int) -> str:
    """The body of the field that begins at a line."""
    below = _below(lines, line, _columns(row(lines, line))[0])
    return (of_text(lines, line) + "\n" + textwrap.dedent("\n".join(below))).strip()


def of_explicit(lines: StringList, line: int, until_blank: bool) -> str:
    """Explicit markup that begins at a line."""
    first = row(lines, line)
    column = max(first.find(".. "), 0)
    rows = [first[column:]]
    for text in _rows_below(lines, line):
        if text[: column + 1].strip() or (until_blank and not text):
            break
        rows.append(text[column:])
    return "\n".join(rows)


def line_of_term(lines: StringList, line: int, is_last: bool) -> int:
    """The line that Docutils gives a term: the one before the last of its definition, to which blank lines belong if it isn't the last."""
    below = _below(lines, line, _columns(row(lines, line))[1])
    while is_last and below and not below[-1]:
        below.pop()
    return line + len(below) - 1


OF = {
    "field_name": of_field_name,
    "label": lambda *_: "",
    "line": of_line,
    "paragraph": of_paragraph,
    "rubric": of_argument,
    "term": of_text,
    "title": of_argument,
}
"""What finds the source text of an element in lines, given the line at which it begins."""


def line_of(lines: StringList, tag: str, line: int, parent: str, is_outside: bool) -> int:
    """The line that Docutils gives a text that begins at a line; 0 if none. It is outside if it isn't in a block of the document's or a section's."""
    if tag == "line":
        return line + of_line(lines, line).count("\n") if is_outside else 0
    if tag == "rubric" and is_outside:
        has_options = "\n:" in of_paragraph(lines, line)
        return 0 if has_options else line + len(_below(lines, line, max(row(lines, line).find(".."), 0)))
    return 0 if tag in ("field_name", "label") or (tag == "title" and parent in ("topic", "sidebar")) else line


def _below(lines: StringList, line: int, column: int) -> list[str]:
    """The lines below a line that are blank, or indented by more than a number of columns."""
    return list(takewhile(lambda text: not text or _indent(text) > column, _rows_below(lines, line)))


def _rows_below(lines: StringList, line: int) -> Iterator[str]:
    rows: list[str] = lines.data
    return (rows[place] for place in range(line, len(rows)))


def _columns(text: str) -> tuple[int, int]:
    """Where the last mark before a text stands in its line, less than 0 if there is none, and where the text begins."""
    found = _MARK.match(text + " ")  # a mark may be all that is in its line
    return (found.start(1), found.end()) if found else (-1, 0)


def _indent(text: str) -> int:
    return len(text) - len(text.lstrip(" "))
