"""Docutils' own machine in a document that the library has read, for the directives and roles that are handed back to it."""

from __future__ import annotations

import re
from typing import Any, Callable

from docutils import nodes, utils
from docutils.parsers.rst import languages, states
from docutils.statemachine import StringList

from ._sources import row

_ROLE = re.compile(r"(?::[^`]*:)?`(?P<text>.*)`(?::[^`]*:)?", re.DOTALL)
_EXPLICIT = re.compile(r"\.\. |__ |\.\.$|__$")
_BREAK = re.compile("\r\n|\r|\n")
_SPACES = re.compile("[\v\f]")


def lines_of(text: str, tab_width: int, source: str) -> StringList:
    """The lines of a text as the library numbers them, without tabs and the white at their ends."""
    lines = _BREAK.split(_SPACES.sub(" ", text.removeprefix("\ufeff")))
    if not lines[-1]:
        lines.pop()
    return StringList([line.expandtabs(tab_width).rstrip() for line in lines], source)


Inside = Callable[["Machine", StringList, int, Any, bool], bool]
"""Reads lines of a directive into a parent, as `nested_parse` of Docutils does, if the library can do so."""


class Machine:
    """A machine of Docutils that stands in a document as if it had read it up to what is handed back."""

    def __init__(self, document: Any, lines: StringList, inliner: Any, state_classes: Any, inside: Inside) -> None:
        reporter = document.reporter
        root: Any = states.RSTStateMachine(state_classes, "Body", reporter.debug_flag)
        self.root, self.document, self.lines = root, document, lines
        self.state_classes = [self.reading(state, inside) if state.__name__ == "Body" else state for state in state_classes]
        self.idle: list[Any] = []  # machines that were used
        self.inliner = inliner or states.Inliner()
        self.inliner.init_customizations(document.settings)
        root.language = languages.get_language(document.settings.language_code, reporter)
        root.match_titles = True
        root.document = root.node = document
        root.reporter = reporter
        self.memo = root.memo = states.Struct(
            document=document,
            reporter=reporter,
            language=root.language,
            title_styles=[],
            section_level=0,
            section_bubble_up_kludge=False,
            inliner=self.inliner,
        )
        self.inliner.reporter, self.inliner.document, self.inliner.language = reporter, document, root.language
        root.input_lines, root.input_offset, root.line_offset = lines, 0, 0
        root.runtime_init()
        self.running: Any = root
        self.count = 0  # how many lines the machine that is running was given
        self.at, self.at_paragraph = 0, False  # the line of the block at which the machine stands, while there is no section
        reporter.get_source_and_line = self.source_and_line

    def end(self) -> None:
        """Drops what binds the machine and the document to one another."""
        for machine in (self.root, *self.idle):
            machine.unlink()
        self.root.node = self.root.memo = None

    def reading(self, body: Any, inside: Inside) -> Any:
        """The state in which a directive is read: what the directive has read in it is read by the library, where that can be."""

        class Body(body):  # type: ignore[misc]
            def nested_parse(state, block: Any, input_offset: int, node: Any, match_titles: Any = False, *given: Any, **named: Any) -> Any:
                if not given and not named and inside(self, block, input_offset, node, bool(match_titles)):
                    return input_offset + len(block)
                return super().nested_parse(block, input_offset, node, match_titles, *given, **named)

            def explicit_list(state, blank_finish: Any) -> None:
                if not state.state_machine.at_eof():  # else there is nothing that could belong to the list
                    super().explicit_list(blank_finish)

        return Body

    def source_and_line(self, line: int | None = None) -> tuple[Any, Any]:
        """The source of a line, and its number there; of the line at which the machine stands, if none is given."""
        if line is None and self.at:
            self.root.line_offset = self.end_of(self.at)
        has_more = self.running is not self.root and len(self.running.input_lines) > self.count
        if line is not None and has_more and line > self.running.input_offset:  # a directive has added lines
            found = self.running.get_source_and_line(line)
        else:
            found = self.root.get_source_and_line(line)
        source, number = found
        return source, number

    def stand(self, tag: str, line: int) -> None:
        """Goes to a block of the document. Docutils' machine stands at the first block of neighbouring explicit markup until it ends."""
        if self.memo.section_level or not line:
            self.at = 0
        elif not (self.at and _EXPLICIT.match(row(self.lines, line)) and _EXPLICIT.match(row(self.lines, self.at))):
            self.at, self.at_paragraph = line, tag == "paragraph"

    def end_of(self, line: int) -> int:
        """The place of the line at which Docutils' machine stands when it has read the block that begins at a line, or its first item."""
        end = line
        if not self.at_paragraph:
            while end < len(self.lines) and row(self.lines, end + 1)[:1] in ("", " "):
                end += 1
            return end - 1
        while row(self.lines, end + 1):
            end += 1
        return end - (end > line)

    def run(self, lines: StringList, line: int, parent: Any, in_section: bool, has_more: bool) -> tuple[StringList, int, int]:
        """Reads lines, the first of which is `line`, into a parent; whether they are others than those of the text.

        Gives the lines that are left, since a title of them begins a section outside of the parent; the number of the first of these; and
        how many lines directives have added.
        """
        machine: Any = self.idle.pop() if self.idle else states.NestedStateMachine(self.state_classes, "Body", self.document.reporter.debug_flag)
        outer = self.running, self.count
        count = len(lines)
        self.running, self.count = machine, 0 if has_more else count
        machine.run(lines, line - 1, self.memo, parent, in_section)
        self.running, self.count = outer
        place, left = machine.line_offset + 1, machine.input_lines
        self.idle.append(machine)
        return left[place:], line + place, len(left) - count

    def role(self, name: str, source: str, line: int, parent: Any) -> tuple[list[Any], list[Any]]:
        """The nodes and messages of a role, given its source text, in a text whose block is in a parent."""
        found = _ROLE.fullmatch(source)
        text = found["text"] if found else source
        self.inliner.parent = parent
        made: tuple[list[Any], list[Any]] = self.inliner.interpreted(source, utils.escape2null(text), name, line)
        return made


def style_of(lines: StringList, line: int, last: int) -> Any:
    """The style of the title at a line, as Docutils keeps it. `last` is the line of the title before it."""
    below: str = lines[line] if line < len(lines) else ""
    above = lines[line - 2] if line > 1 and line - 2 != last else ""  # no overline, if it is the underline of that title
    return (below[0], below[0]) if below and above == below else below[:1]
