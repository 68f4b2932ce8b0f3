"""The messages of a page, with those on the text in directives that another tool reads."""

from __future__ import annotations

import re
from ctypes import create_string_buffer, string_at
from json import loads
from typing import Any, Iterable, Iterator, NamedTuple

from .. import LEVELS, LIBRARY, Level, Message, _bytes, _options, _Result, messages
from .. import Text as AnyText
from .contents import DIRECTIVE, Directive, end_of, indentation, without_option
from .names import Known, Names, fold

ROLE = re.compile(r":(?<![^\s\-/'\"<(\[{:]:)([A-Za-z][A-Za-z0-9_.+:-]*):`(?![`\s])")
UNKNOWN = 'Unknown directive type "'
TITLE = "Unexpected section title"
MISPLACED = re.compile('The "(?:topic|sidebar)" directive may not be used within', re.IGNORECASE)
OPTION = re.compile(r'Error in "(.*)" directive:\nunknown option: "(.*)"\.')
CODE = ("code", "code-block", "sourcecode")
JOINED = "Line block ends without a blank line."
WARNING, ERROR = 2, 3


class Reader:
    """The library's call for messages, with a room that is kept from text to text."""

    def __init__(self, level: int, settings: dict[str, Any]) -> None:
        self.settings: dict[str, Any] = {**settings, "report": level, "halt": "none"}
        self.options = _options(**self.settings)
        self.room = create_string_buffer(1 << 20)
        self.result = _Result()

    def read(self, page: str, data: bytes) -> list[Message]:
        """The messages of a text; if it is refused, that is a `Refused`."""
        result, size = self.result, len(self.room)
        LIBRARY.rst_messages(data, len(data), self.options, self.room, size, result)
        if result.end or result.length > size:
            return messages(data, source=page, **self.settings)
        return [] if result.length == 2 else [Message(page, **found) for found in loads(string_at(self.room, result.length))]


class Text:
    """The lines of a page, in which known directives that hold text are opened: the library reads what is in them.

    A known role is put inside its backquotes, so that there is no message on it. Where a line begins with one that no field does:
    what comes later in the line is no field marker then.
    """

    def __init__(self, text: str, known: Known, code: bool = False, tab_width: int = 8) -> None:
        self.known = known
        self.code = code
        plain = "\n".join(text.replace("\v", " ").replace("\f", " ").splitlines()).expandtabs(tab_width)
        self.source = plain.split("\n")
        plain = ROLE.sub(self._swapped, plain)
        self.lines = plain.split("\n")
        self.opened: dict[int, str] = {}
        """The names of the directives that are open, by the places of their lines."""
        self.joined: set[int] = set()
        """The places of lines that follow a term without a blank line."""
        self.titles: dict[str, tuple[int, str]] = {}
        """The titles in directives, each with its line and the directive's name."""
        self.kept: list[Message] = []
        """Messages on titles in directives."""
        self._sweep(plain)

    def data(self) -> bytes:
        return "\n".join(self.lines).encode()

    def _swapped(self, role: re.Match[str]) -> str:
        return f"`:{role[1]}:" if f"role:{role[1].lower()}" in self.known.names else role[0]

    def _sweep(self, plain: str) -> None:
        """Opens all directives that begin a line after a blank one. What looks like one there and is none isn't read as text anyway."""
        first = before = end = 0
        for found in DIRECTIVE.finditer(plain):
            mark = self.known.mark(found[1])
            if mark is None:
                continue
            start = plain.rfind("\n", 0, found.start()) + 1
            first, before, column = first + plain.count("\n", before, start), start, found.start() - start
            if first < end or plain[start : found.start()].strip() or (first and self.source[first - 1].strip()):
                continue
            whole = mark in ("lines", "terms")
            last = end_of(self.lines, first, column, whole)
            end = last if mark == "lines" else end  # what is in it is no directive
            self._open(first, column, [line[column:] for line in self.lines[first:last]], mark, has_line_ends=True)

    def _open(self, first: int, column: int, block: list[str], mark: str, has_line_ends: bool = False) -> bool:
        """Opens a directive, whose source is the block; whether it could be."""
        after = self.lines[first + len(block) : first + len(block) + 1]
        directive = Directive(block, not "".join(after).strip())
        tip = directive.as_tip(mark)
        if tip is None:
            return False
        if has_line_ends:
            here = slice(first, first + len(block))
            self.lines[here] = [line[:column].ljust(column) + now for line, now in zip(self.lines[here], tip.lines)]
        elif not self._put(first, column, block, tip.lines):
            return False
        self.opened[first] = directive.name
        self.joined.update(first + at for at in tip.joined)
        return True

    def _put(self, first: int, column: int, old: list[str], new: list[str]) -> bool:
        """Puts new lines in the place of old ones in a column; not if they don't have room in a cell."""
        made = []
        for line, was, now in zip(self.lines[first : first + len(old)], old, new):
            was = was.rstrip()
            after = line[column + len(was) :]
            if line[column : column + len(was)] != was or (after.strip() and len(now) > len(was)):
                return False
            made.append(line[:column].ljust(column if now else 0) + now.ljust(len(was) if after.strip() else 0) + after)
        self.lines[first : first + len(made)] = made
        return True

    def open_more(self, found: list[Message]) -> bool:
        """Opens the directives that the messages are on, and takes the titles in them; whether there was one."""
        opened = [self._open_by(message) for message in found]
        return self._take_titles(found) or any(opened)

    def _open_by(self, message: Message) -> bool:
        at, text, block = message.line - 1, message.text, (message.block or "").split("\n")
        column = self.lines[at].find(block[0])
        if text.startswith(UNKNOWN) and column >= 0:
            mark = self.known.mark(text[len(UNKNOWN) : -2])
            return mark is not None and self._open(at, column, block, mark)
        option = OPTION.match(text)
        if not option or column < 0 or f"directive:{option[1].lower()}" not in self.known.names:
            return False
        less = without_option(block, option[2]) if self.code or option[1].lower() not in CODE else None
        return less is not None and self._put(at, column, block, less)

    def _take_titles(self, found: list[Message]) -> bool:
        """Makes paragraphs of titles, and opens topics and sidebars, in directives that may hold them; whether there was one."""
        titles = [message for message in found if message.text.startswith(TITLE) or MISPLACED.match(message.text)]
        about = {message.line: message for message in found if message.text.startswith("Title ")}
        parents = self._parents() if titles else []
        taken = [self._take_title(message, self.opened.get(parents[message.line - 1], "")) for message in titles]
        self.kept += [about[message.line] for message, was in zip(titles, taken) if was and message.line in about]
        return any(taken)

    def _take_title(self, message: Message, name: str) -> bool:
        """Takes a title, a topic or a sidebar in a directive of this name; whether it may hold it."""
        at, lines = message.line - 1, self.lines
        line = lines[at].strip()
        if not line or self.known.mark(name) != "sections":
            return False
        if MISPLACED.match(message.text):
            block = (message.block or "").split("\n")
            return line.startswith("..") and self._open(at, lines[at].find(".."), block, "title")
        below = [part.strip() for part in [*lines[at + 1 : at + 3], "", ""]]
        is_overline = message.text != TITLE + "." and below[0] != ""
        if is_overline and below[1] != line:
            return False
        self.titles[fold(below[0] if is_overline else lines[at - 1].strip())] = at + 2 if is_overline else at, name
        lines[at] = ""
        if is_overline:
            lines[at + 2] = ""
        return True

    def _parents(self) -> list[int]:
        """Of each line the last one before it that is less indented, or -1."""
        parents = [-1] * len(self.lines)
        above: list[tuple[int, int]] = []
        for at, line in enumerate(self.lines):
            if not line.strip():
                continue
            here = indentation(line)
            while above and above[-1][0] >= here:
                above.pop()
            parents[at] = above[-1][1] if above else -1
            above.append((here, at))
        return parents

    def is_own(self, message: Message) -> bool:
        """Whether a message is on what was put into the page."""
        return message.text == JOINED and message.line - 1 in self.joined

    def shown(self, message: Message) -> Message:
        """A message as it would be on the source."""
        text, at = message.text, message.line - 1
        if at in self.opened:
            text = text.replace('"tip" directive', f'"{self.opened[at]}" directive')
        source = self.source_of(message.block, range(at, max(at - 3, -1), -1)) if message.block else None
        return message._replace(text=text, block=source[1] if source else message.block)

    def source_of(self, text: str, places: Iterable[int]) -> tuple[int, str] | None:
        """The first of these places that the text begins at, and what the page has there."""
        block = text.split("\n")
        for first in places:
            column = self.lines[first].find(block[0])
            here = [line[column:] for line in self.lines[first : first + len(block)]]
            if column >= 0 and len(here) == len(block) and all(line.startswith(part) for line, part in zip(here, block)):
                source = [line[column:].rstrip() for line in self.source[first : first + len(block)]]
                return first, "\n".join(line[: len(part)] if now.rstrip() != part else line for line, now, part in zip(source, here, block))
        return None


class Page(NamedTuple):
    """A page that was read."""

    found: list[tuple[Message, str]]
    """The messages, each with the name that, if it is known, takes it away; an empty one if none does."""
    text: Text | None
    """What the library has read, if something in the page may be known by name, or is code."""

    @property
    def messages(self) -> list[Message]:
        return [message for message, _ in self.found]


class Pages:
    """Reads pages, one at a time: gives their messages at or above a level, without those on known names, and with `code` faults in code.

    The settings are those of a call that say how a text is read. The `profile` is "docutils", if no other is given.
    """

    def __init__(self, known: Known | None = None, level: Level = "warning", code: bool = False, **settings: Any) -> None:
        if level not in LEVELS:
            raise ValueError("rst2pseudoxml: bad level")
        settings.setdefault("profile", "docutils")
        self.known = known or Known()
        self.level = LEVELS[level]
        self.code = code
        self.profile: str = settings["profile"]
        self.tab_width: int = settings.get("tab_width", 8)
        # the message on a directive that reads a file, and that may so define names, is a WARNING
        self.reader = Reader(min(self.level, WARNING) if self.level <= 4 else self.level, settings)

    def read(self, page: AnyText, source: str = "<stdin>") -> Page:
        """Reads a page, which its messages call by the name `source`. If it is refused, that is a `Refused`."""
        data = _bytes(page)
        text = self._text(data)
        found = self.reader.read(source, text.data() if text else data)
        while text and found and text.open_more(found):
            found = self.reader.read(source, text.data())
        found = found + text.kept if text else found
        return Page(self._wanted(source, found, text) if found or self.code else [], text)

    def _text(self, data: bytes) -> Text | None:
        if not (self.known.names or self.code) or (b"::" not in data and b":`" not in data):
            return None
        try:
            return Text(data.decode(), self.known, self.code, self.tab_width)
        except UnicodeDecodeError:
            return None

    def _wanted(self, source: str, found: list[Message], text: Text | None) -> list[tuple[Message, str]]:
        """The messages that aren't on known names, each with its name, and the faults in code."""
        names = Names(self.known)
        for title, (_, directive) in (text.titles if text else {}).items():
            names.define(f"target:{title}", f"directive:{directive}")
        wanted = [(message, name) for message in found if (name := names.name_of(message)) not in self.known]
        if text:
            wanted = [(text.shown(message), name) for message, name in wanted if not text.is_own(message)]
            wanted += [(message, "") for message in _faults(source, text)] if self.code else []
        return [(message, name) for message, name in wanted if message.level >= self.level]


def _faults(source: str, text: Text) -> Iterator[Message]:
    from .code import faults  # its parsers take time to load

    for fault in faults(text):
        yield Message(source, fault.line, ERROR, "ERROR", fault.text)
