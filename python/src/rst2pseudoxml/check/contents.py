"""The text in directives that another tool reads: each such directive is made a `tip`, so that the library reads what is in it.

Line numbers stay, and so do columns, so that a directive may be in a cell of a table. The text is read with the page that it is in: what it
defines is known outside, and what the page defines is known in it.
"""

from __future__ import annotations

import re
from typing import Callable, NamedTuple, Sequence

NAME = r"[^\W_]+(?:[-._+:][^\W_]+)*"
DIRECTIVE = re.compile(rf"\.\. +({NAME}) ?::(?: +|$)", re.MULTILINE)
FIELD = re.compile(r" *:(?! )[^:]+:(?: |$)")
NAME_OPTION = re.compile(r" *:name: +\S")
SUBTITLE_OPTION = re.compile(r" *:subtitle: +", re.IGNORECASE)
TIP = ".. tip::"
FILLER = "x"  # a text without a fault


class Tip(NamedTuple):
    """A directive, or its content, as a `tip`."""

    lines: list[str]
    """As many lines as there were."""
    joined: Sequence[int] = ()
    """Those that follow a term without a blank line between them."""


def indentation(line: str) -> int:
    return len(line) - len(line.lstrip(" "))


def margin(lines: list[str]) -> int:
    """The indentation that all lines share, blank ones apart."""
    return min((indentation(line) for line in lines if line.strip()), default=0)


def end_of(lines: list[str], first: int, column: int, whole: bool) -> int:
    """Where a directive in this column ends; if not the whole of it is asked for, after the first line of its content."""
    blank = False
    for at in range(first + 1, len(lines)):
        if not lines[at].strip():
            blank = True
        elif indentation(lines[at]) <= column:
            return at
        elif blank and not whole:
            return at + 1
    return len(lines)


class Directive:
    """The source of a directive, in parts. Its first lines are its argument, or content if it takes none, and then its options. The
    option `subtitle` of a sidebar is read as if its argument went on with it.

    Where the line after it isn't blank, no line becomes blank at its end: that one is missing there is a fault.
    """

    def __init__(self, block: list[str], before_blank: bool = True) -> None:
        head = DIRECTIVE.match(block[0])
        end = next((at for at, line in enumerate(block) if at and not line.strip()), len(block))
        options = next((at for at, line in enumerate(block[:end]) if at and FIELD.match(line)), end)
        self.name = head[1] if head else ""
        self.first = block[0][head.end() :].strip() if head else ""
        subtitle = _option(block, SUBTITLE_OPTION, options, end) if self.name.lower() == "sidebar" else range(0)
        self.more = [*block[1:options], *(SUBTITLE_OPTION.sub("", block[at]) for at in subtitle)]
        self.block = block
        self.names = [line for line in block[options:end] if NAME_OPTION.match(line)]
        self.left_out = "" if before_blank or end < len(block) else " " * margin(block[1:]) + FILLER
        self.content = [self.left_out] * (end - options - len(subtitle) - len(self.names)) + block[end:]

    def as_tip(self, mark: str) -> Tip | None:
        """The directive with what its mark says to be text, or none if that isn't where it is looked for."""
        if mark in ("lines", "terms"):
            return self._without_argument(_lines if mark == "lines" else _terms)
        if mark in ("text", "title") and (self.first or self.more):
            argument = self._title() if mark == "title" else [f"{TIP} {self.first}".rstrip(), *self.more]
            return None if FIELD.match(self.first) else self._tip(argument)
        content = next((line for line in self.content if line.strip()), ":none:")
        # Without a text at its front, a field list in the content would be its options.
        head = f"{TIP} {FILLER}" if len(self.block[0].rstrip()) > len(TIP) + 1 or FIELD.match(content) else TIP
        return self._tip([head], [self.left_out] * len(self.more))

    def _tip(self, head: list[str], left_out: Sequence[str] = ()) -> Tip:
        after = [*left_out, *self.content]
        return Tip([*head, *after, *self.names] if self.left_out else [*head, *self.names, *after])

    def _title(self) -> list[str]:
        """The argument as a paragraph: an escaped space says that it is one, whatever it begins with."""
        words = [self.first, *(line.strip() for line in self.more)]
        left = " " * margin(self.block[1:])
        words[-1] = re.sub("::$", ":.", words[-1])
        words[not self.first] = "\\ " + words[not self.first]
        return [f"{TIP} {words[0]}", *(left + word for word in words[1:])]

    def _without_argument(self, made: Callable[[list[str]], Tip]) -> Tip | None:
        """The directive with its content as lines of text, or as terms with definitions."""
        content = [*self.more, *self.content]
        if self.first or (self.more and self.names) or not any(line.strip() for line in content):
            return None
        tip = made(content)
        before = [TIP, *(" " * margin(tip.lines) + name.lstrip(" ") for name in self.names)]
        return Tip(before + tip.lines, [at + len(before) for at in tip.joined])


def without_option(block: list[str], name: str) -> list[str] | None:
    """A directive without an option, if it has it after its first line; as many lines."""
    end = next((at for at, line in enumerate(block) if at and not line.strip()), len(block))
    lines = _option(block, re.compile(rf" *:{re.escape(name)}:(?: |$)", re.IGNORECASE), 1, end)
    if not lines or end == len(block):
        return None
    return block[: lines.start] + block[lines.stop : end] + [""] * len(lines) + block[end:]


def _option(block: list[str], form: re.Pattern[str], first: int, end: int) -> range:
    """The places of the lines of an option between two places; none, if it isn't there."""
    first = next((at for at in range(first, end) if form.match(block[at])), end)
    return range(first, next((at for at in range(first + 1, end) if indentation(block[at]) <= indentation(block[first])), end))


def _lines(content: list[str]) -> Tip:
    """Lines as one of a line block, in which inline markup alone is read."""
    left = margin(content)
    content = [" " * max(3 - left, 0) + line if line.strip() else line for line in content]
    left = max(left, 3)
    used = [at for at, line in enumerate(content) if line.strip()]
    for at in range(used[0], used[-1]):
        content[at] = content[at] if content[at].strip() else " " * left + FILLER
    content[used[0]] = " " * (left - 2) + "| " + content[used[0]][left:]
    return Tip(content)


def _terms(content: list[str]) -> Tip:
    """Terms with definitions, without comments. Of the terms of a definition those before the last are lines of a line block."""
    left = margin(content)
    comment = False
    for at, line in enumerate(content):
        if line.strip():
            comment = line.startswith(".. ", left) if indentation(line) == left else comment
        content[at] = "" if comment else line
    terms = [bool(line.strip()) and indentation(line) == left for line in content]
    before = [at for at in range(len(content) - 1) if terms[at] and terms[at + 1]]
    for at in before:
        content[at] = " " * left + "| " + content[at][left:]
    return Tip(content, [at + 1 for at in before])
