"""The document tree of reStructuredText: as pseudo-XML, as JSON or as nodes, and the system messages.

The text is read in this process, by a library that holds no state: any number of threads may call it at once. A `text` is a str, or
bytes, a bytearray or a memoryview that has to be UTF-8. `settings` are the long options of the program `rst2pseudoxml`, with `_` in place
of `-`, and the `profile` (`Settings`).
"""

from __future__ import annotations

import contextlib
import functools
import gc
from ctypes import CDLL, POINTER, Structure, byref, c_char, c_char_p, c_size_t, c_uint8, c_uint32, c_uint64, c_void_p, sizeof
from json import loads
from pathlib import Path
from typing import TYPE_CHECKING, Any, Iterator, Mapping, NamedTuple, TypedDict, Union

if TYPE_CHECKING:
    from typing_extensions import Unpack

__all__ = ["Message", "Node", "Refused", "Settings", "Text", "json", "messages", "pseudoxml", "tree"]

Level = Union[int, str]
Text = Union[str, bytes, bytearray, memoryview]


class Settings(TypedDict, total=False):
    """What a call may set. A level is "info", "warning", "error", "severe" or "none", or 1 to 5.

    A wrong value is a ValueError. Another name or type is a TypeError that lists what is allowed.
    """

    report: Level
    """The lowest level of the messages that are shown, in the tree as well; "warning" if not given."""
    halt: Level
    """The lowest level at which a message halts the run; "severe" if not given."""
    exit_status: Level
    """It sets the exit status of the program, and so changes nothing here."""
    no_doc_title: bool
    """Don't make the title of a lone section the title of the document."""
    no_doc_info: bool
    """Don't make bibliographic elements of a leading field list."""
    tab_width: int
    """Columns from one tab stop to the next, 1 to 99; 8 if not given."""
    line_length_limit: int
    """The most characters of a line, 1 to 16,777,216; 10,000 if not given. With a longer line the tree is an ERROR alone."""
    profile: str
    """What is markup: "base" (if not given) as for the program; "docutils" with what docs/profile/wider.md adds, as Docutils has it."""


class Refused(Exception):
    """No tree was made. The text of the exception is the line that the program ends with.

    `kind` is "too long" (the text has more than 16,777,216 bytes), "not UTF-8", "too deep" (a block is inside more than 250
    others), "no memory" (memory ran out) or "halted" (by a message, see `Settings.halt`). `place` is the first byte, counted from 0,
    that isn't UTF-8; or the line, counted from 1, of the first block that is too deep, or of the message; otherwise it is None.
    """

    def __init__(self, kind: str, place: int | None, line: str) -> None:
        super().__init__(kind, place, line)
        self.kind = kind
        self.place = place

    def __str__(self) -> str:
        return str(self.args[2])


class Message(NamedTuple):
    """A system message."""

    file: str
    """The `source` that the call was given."""
    line: int
    """The line that it is about, counted from 1."""
    level: int
    """1 to 4."""
    type: str
    """The name of the level: INFO, WARNING, ERROR or SEVERE."""
    text: str
    """What is wrong, in one line or more."""
    block: str | None = None
    """The source text that the message shows, if it shows some."""


class Node(NamedTuple):
    """An element of the document tree."""

    tag: str
    """The name of the element, as "paragraph"."""
    attributes: Mapping[str, str | int | list[str]]
    """The attributes that are printed, by name, without `source`. `ids`, `names`, `dupnames`, `classes` and `backrefs` are lists."""
    children: tuple[Node | str, ...]
    """What the element holds; a str is text."""
    line: int
    """The line at which the element begins, counted from 1; 0 if it has none."""


class _Options(Structure):
    _fields_ = [
        ("size", c_uint32),
        ("report", c_uint8),
        ("halt", c_uint8),
        ("exit_status", c_uint8),
        ("tab_width", c_uint8),
        ("line_length_limit", c_uint32),
        ("no_doc_title", c_uint8),
        ("no_doc_info", c_uint8),
        ("profile", c_uint8),
        ("unused", c_uint8),
    ]


class _Result(Structure):
    _fields_ = [("end", c_uint32), ("status", c_uint32), ("at", c_uint64), ("length", c_uint64), ("messages", c_uint64)]


def _loaded() -> CDLL:
    """The library that is installed beside this file; in a checkout, that of dist/, where modules in C are looked for too."""
    path = Path(__file__).with_name("librst2pseudoxml.so")
    if not path.exists():
        path = path.parents[3] / "dist" / path.name
        __path__.append(str(path.parent))
    library = CDLL(str(path))
    if library.rst_abi_version() != 1:
        raise ImportError("librst2pseudoxml.so is of another version")
    text, room, end = [c_char_p, c_size_t], [c_void_p, c_size_t], [POINTER(_Result)]
    library.rst_print.argtypes = [*text, *text, POINTER(_Options), *room, *room, *end]
    library.rst_json.argtypes = library.rst_records.argtypes = library.rst_messages.argtypes = [*text, POINTER(_Options), *room, *end]
    library.rst_parse.argtypes = [*text, *text, POINTER(_Options), *room, *end]
    for entry in (library.rst_print, library.rst_parse, library.rst_json, library.rst_records, library.rst_messages):
        entry.restype = None
    return library


LIBRARY = _loaded()
LONGEST = 16_777_216  # bytes of a text, and characters of a line
_NAMES = ("info", "warning", "error", "severe", "none")
LEVELS = {given: number for number, name in enumerate(_NAMES, 1) for given in (name, number, str(number))}
PROFILES = {"base": 0, "docutils": 1}
_REFUSED = {
    3: ("too long", "input too long"),
    4: ("not UTF-8", "not UTF-8 at byte {}"),
    5: ("too deep", "line {}: nesting too deep"),
    6: ("no memory", "out of memory"),
}
HALTED = 1  # the program's exit status
_LEVEL: tuple[tuple[type, ...], str] = ((int, str), '"info", "warning", "error", "severe", "none" or 1 to 5')
_FLAG: tuple[tuple[type, ...], str] = ((bool,), "True or False")
_ALLOWED = {
    "report": _LEVEL,
    "halt": _LEVEL,
    "exit_status": _LEVEL,
    "no_doc_title": _FLAG,
    "no_doc_info": _FLAG,
    "tab_width": ((int,), "an int, 1 to 99"),
    "line_length_limit": ((int,), "an int, 1 to 16,777,216"),
    "profile": ((str,), '"base" or "docutils"'),
}


def _check(settings: Mapping[str, object]) -> None:
    """Refuses settings that aren't there, and values of other types."""
    for name, value in settings.items():
        if name not in _ALLOWED:
            raise TypeError(f"there is no setting {name!r}; the settings are {', '.join(_ALLOWED)}")
        types, allowed = _ALLOWED[name]
        if not isinstance(value, types) or (isinstance(value, bool) and bool not in types):
            raise TypeError(f"{name} has to be {allowed}, not of the type {type(value).__name__}")


@functools.lru_cache(maxsize=64)
def _options(
    report: Level = "warning",
    halt: Level = "severe",
    exit_status: Level = "none",
    no_doc_title: bool = False,
    no_doc_info: bool = False,
    tab_width: int = 8,
    line_length_limit: int = 10_000,
    profile: str = "base",
) -> _Options:
    if not all(level in LEVELS for level in (report, halt, exit_status)):
        raise ValueError("rst2pseudoxml: bad level")
    if not 1 <= tab_width <= 99:
        raise ValueError("rst2pseudoxml: bad tab width")
    if not 1 <= line_length_limit <= LONGEST:
        raise ValueError("rst2pseudoxml: bad line limit")
    if profile not in PROFILES:
        raise ValueError('rst2pseudoxml: bad profile: it has to be "base" or "docutils"')
    levels = (LEVELS[report], LEVELS[halt], LEVELS[exit_status])
    return _Options(sizeof(_Options), *levels, tab_width, line_length_limit, no_doc_title, no_doc_info, PROFILES[profile])


def options_of(settings: Settings) -> _Options:
    """The options of a call with these settings. Wrong ones are a TypeError or a ValueError."""
    _check(settings)
    return _options(**settings)


def _bytes(text: Text) -> bytes:
    if isinstance(text, str):
        return text.encode()
    if isinstance(text, (bytes, bytearray, memoryview)):
        return bytes(text)
    raise TypeError(f"the text has to be a str, bytes, a bytearray or a memoryview, not of the type {type(text).__name__}")


def _name(source: str) -> str:
    if not isinstance(source, str):
        raise TypeError(f"source has to be a str, not of the type {type(source).__name__}")
    return source


def answer(entry: Any, text: Text, settings: Settings, before: tuple[Any, ...] = (), after: tuple[Any, ...] = ()) -> tuple[str, int]:
    """The text that an entry of the library makes of a text, and the program's exit status."""
    made, status = called(entry, text, settings, before, after)
    return str(made, "utf-8"), status


def called(entry: Any, text: Text, settings: Settings, before: tuple[Any, ...] = (), after: tuple[Any, ...] = ()) -> tuple[memoryview, int]:
    """What an entry of the library makes of a text, as bytes, and the program's exit status."""
    data = _bytes(text)
    options = options_of(settings)
    result = _Result()
    size = 4 * len(data) + 4096  # enough for nearly all
    while True:
        room = bytearray(size)
        entry(data, len(data), *before, options, byref(c_char.from_buffer(room)), size, *after, result)
        if result.end:
            kind, line = _REFUSED[result.end]
            raise Refused(kind, result.at if "{}" in line else None, "rst2pseudoxml: " + line.format(result.at))
        if result.length <= size:
            return memoryview(room)[: result.length], result.status
        size = result.length


def _finished(entry: Any, text: Text, settings: Settings, before: tuple[Any, ...] = (), after: tuple[Any, ...] = ()) -> str:
    """What an entry makes of a text; that a message halts the run is an exception."""
    made, status = answer(entry, text, settings, before, after)
    if status == HALTED:
        last = messages(text, **settings)[-1]
        raise Refused("halted", last.line, f"Exiting due to level-{last.level} ({last.type}) system message.")
    return made


def pseudoxml(text: Text, *, source: str = "<stdin>", **settings: Unpack[Settings]) -> str:
    """The tree as the program prints it: each element and each line of a text is a line, indented by four spaces a level."""
    name = _name(source).encode()
    return _finished(LIBRARY.rst_print, text, settings, (name, len(name)), (None, 0))


def json(text: Text, **settings: Unpack[Settings]) -> str:
    """The tree as JSON: a text is a string, an element is [tag, line, {attributes}, children..]."""
    return _finished(LIBRARY.rst_json, text, settings)


def tree(text: Text, **settings: Unpack[Settings]) -> Node:
    """The document with all that is in it. Very deep trees need a higher `sys.setrecursionlimit`, else they are a RecursionError."""
    made = json(text, **settings)
    with collector_paused():
        return _node(loads(made))


@contextlib.contextmanager
def collector_paused() -> Iterator[None]:
    """Pauses the garbage collector. While nodes are made it would look at them again and again, and find none to free."""
    enabled = gc.isenabled()
    gc.disable()
    try:
        yield
    finally:
        if enabled:
            gc.enable()


def _node(found: list[Any]) -> Node:
    tag, line, attributes, *children = found
    return Node(tag, attributes, tuple(child if isinstance(child, str) else _node(child) for child in children), line)


def messages(text: Text, *, source: str = "<stdin>", **settings: Unpack[Settings]) -> list[Message]:
    """The messages at or above the level `report`, in the order in which the program writes them. One that halts is the last."""
    _name(source)
    return [Message(source, **found) for found in loads(answer(LIBRARY.rst_messages, text, settings)[0])]
