"""Faults in code: blocks whose language a parser of the standard library reads."""

from __future__ import annotations

import ast
import sys
import warnings
import xml.parsers.expat
from json import JSONDecodeError, loads
from typing import Any, Callable, Iterator, NamedTuple

from .. import json as tree_of
from .pages import Text

try:
    import tomllib
except ImportError:  # before Python 3.11
    tomllib = None  # type: ignore[assignment]


class Fault(NamedTuple):
    line: int
    """Counted from 1."""
    text: str


def in_json(text: str) -> Fault | None:
    try:
        loads(text)
    except JSONDecodeError as fault:
        return Fault(fault.lineno, fault.msg)
    return None


def in_python(text: str) -> Fault | None:
    if text.startswith(">>>"):  # a session, which is no module
        return None
    try:
        with warnings.catch_warnings():
            warnings.simplefilter("ignore")
            ast.parse(text)
    except SyntaxError as fault:
        return Fault(fault.lineno or 1, fault.msg)
    except ValueError as fault:
        return Fault(1, str(fault))
    return None


def in_toml(text: str) -> Fault | None:
    try:
        tomllib.loads(text)
    except tomllib.TOMLDecodeError as fault:
        words, _, place = str(fault).partition(" (at line ")
        return Fault(int(place.partition(",")[0]) if place else text.count("\n") + 1, words.partition(" (at end")[0])
    return None


def in_xml(text: str) -> Fault | None:
    try:
        xml.parsers.expat.ParserCreate().Parse(text, True)
    except xml.parsers.expat.ExpatError as fault:
        return Fault(fault.lineno, xml.parsers.expat.ErrorString(fault.code))
    return None


PARSERS: dict[str, tuple[str, Callable[[str], Fault | None]]] = {
    "json": ("JSON", in_json),
    "py": ("Python", in_python),
    "py3": ("Python", in_python),
    "python": ("Python", in_python),
    "python3": ("Python", in_python),
    "xml": ("XML", in_xml),
}
if tomllib:
    PARSERS["toml"] = ("TOML", in_toml)


def faults(text: Text) -> Iterator[Fault]:
    """The faults in the blocks of code of a text."""
    waiting: list[Any] = [_document(text)]
    while waiting:
        node = waiting.pop()
        if not isinstance(node, list):
            continue
        tag, line, attributes, *inside = node
        if tag != "literal_block":
            waiting += reversed(inside)
        elif attributes.get("classes", [])[:1] == ["code"]:
            yield from _in_block("".join(inside), "".join(attributes["classes"][1:2]), line, text)


def _document(text: Text) -> list[Any]:
    """The tree of a text. It has at most 1,550 levels."""
    limit = sys.getrecursionlimit()
    sys.setrecursionlimit(limit + 5000)
    try:
        tree: list[Any] = loads(tree_of(text.data(), halt="none"))
    finally:
        sys.setrecursionlimit(limit)
    return tree


def _in_block(block: str, language: str, line: int, text: Text) -> Iterator[Fault]:
    """The fault in a block of code, whose directive is at this line, if there is one."""
    name, parser = PARSERS.get(language.lower(), ("", None))
    place = text.source_of(block, range(line, len(text.lines))) if parser else None
    try:
        fault = parser(place[1]) if parser and place else None
    except (RecursionError, MemoryError):  # nested too deep for the parser, which is no fault
        fault = None
    if fault and place:
        yield Fault(place[0] + fault.line, f"{name} code: {fault.text}")
