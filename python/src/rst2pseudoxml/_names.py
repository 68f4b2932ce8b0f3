"""Which directives and roles of a text are handed back to Docutils."""

from __future__ import annotations

import re
from typing import Any, Iterable, Union

from docutils import nodes
from docutils.parsers.rst import directives, languages, roles

Hand = Union[str, Iterable[str], None]

_NAME = r"(?:(?!_)\w)+(?:[-._+:](?:(?!_)\w)+)*"
_MARK = re.compile(r":(?::|(?=`)|(?<=`:))")  # where a name may end or begin; a pattern that begins with one character is quick
_WORD = re.compile(_NAME)
_BEFORE = re.compile(rf":(?=({_NAME})\Z)")
_AFTER = re.compile(rf":({_NAME}):")
_LONGEST = 100  # characters of a name: no more are looked at, so the time grows with the text alone, whatever it is
_MADE = re.compile(rf"(?<!\S){_NAME} ?:: +({_NAME})")  # by the directive `role`
_FILE = re.compile(r"^[^\S\n]*:(?:file|url):", re.MULTILINE)  # options with which `raw` reads a file
PLACES = frozenset({"class", "contents"})
"""Directives of Docutils that leave a place for a transform: they are always handed back."""
_MORE = frozenset({"default-role", "include", "role"})  # directives that change what roles mean
UNNAMED = ""  # the name of the role of interpreted text that is written without one
_BASE = (
    frozenset(
        "admonition attention caution code code-block danger error figure hint image important note replace sourcecode tip topic warning".split()
    ),
    frozenset("emphasis literal strong sub subscript sup superscript t title title-reference".split()),
)
_WIDER = (
    frozenset("compound container epigraph highlights line-block list-table math parsed-literal pull-quote raw rubric sidebar table".split()),
    frozenset(
        "ab abbreviation ac acronym anonymous-reference citation-reference code footnote-reference i index math named-reference pep "
        "pep-reference raw rfc rfc-reference substitution-reference target uri uri-reference url".split()
    ),
)
# What the library never does isn't its own: to include a file. Nor are the directives that leave a place for a transform: where something is
# handed back, the transforms are Docutils' own.
OWN = {"base": _BASE, "docutils": (_BASE[0] | _WIDER[0], _BASE[1] | _WIDER[1])}
"""The directives and the roles that a profile has itself."""


class Names:
    """What is handed back: "registered" is what Docutils finds, but for what the profile has itself; "all" is all.

    A list adds its names to what is registered. "others" is all that the profile doesn't have itself.
    """

    def __init__(self, hand: Hand, profile: str) -> None:
        if isinstance(hand, str) and hand not in ("registered", "all", "others"):
            raise ValueError('rst2pseudoxml: bad hand: it has to be "registered", "all", or a list of names')
        self.all, self.others = hand == "all", hand == "others"
        given = () if isinstance(hand, str) or hand is None else tuple(hand)
        if not all(isinstance(name, str) for name in given):
            raise TypeError('hand has to be "registered", "all", or a list of names')
        self.given = frozenset(name.lower() for name in given)
        self.own = OWN[profile]

    def of(self, text: str, language_code: str) -> tuple[set[str], set[str]]:
        """The names of directives and of roles that are used in a text, as far as they are handed back. A name may be more than is used.

        The role without a name is among them if it may be another than that of a title.
        """
        of_directives, of_roles = _used(text)
        more: frozenset[str] = frozenset()
        if of_directives or of_roles:
            language = languages.get_language(language_code, _SILENT)
            reads_file = "raw" in of_directives and _FILE.search(text)
            of_directives = {name for name in of_directives if self._is_handed(name, 0, language) or (reads_file and name == "raw")}
            more = _MORE.intersection(language.directives.get(name, name) for name in of_directives) if of_directives else more
            made = {name.lower() for name in _MADE.findall(text)} if "role" in more else more
            of_roles = {name for name in of_roles if name in made or self._is_handed(name, 1, language, "include" in more)}
        if "`" in text and (_has_default_role() or "default-role" in more or "include" in more):
            of_roles.add(UNNAMED)
        return of_directives, of_roles

    def _is_handed(self, name: str, kind: int, language: Any, more: bool = False) -> bool:
        if self.all or name in self.given or (kind == 0 and name in PLACES):
            return True
        if name in self.own[kind]:
            return not _is_of_docutils(_found(name, kind, language))
        return self.others or more or _found(name, kind, language) is not None


def _used(text: str) -> tuple[set[str], set[str]]:
    """The words of a text that may be names of directives, and those that may be names of roles.

    Before the name of a directive there are dots in its line, those of explicit markup.
    """
    of_directives: list[str] = []
    of_roles: list[str] = []
    for mark in _MARK.finditer(text):
        place, end = mark.span()
        first = max(0, place - _LONGEST)
        start = text.rfind("\n", first, place) + 1 or first
        if end - place == 2:
            before = text[start:place]
            if ".." in before or start == place - _LONGEST:
                of_directives += before.split()[-1:]
            continue
        found = _AFTER.match(text, place, place + _LONGEST)
        of_roles += found.groups() if found else _BEFORE.findall(text, max(start, text.rfind("`", start, place)), place)
    return {name.lower() for name in of_directives if _WORD.fullmatch(name)}, {name.lower() for name in of_roles}


def _has_default_role() -> bool:
    """Whether text without a role has another role now than that of a title."""
    found: Any = roles._roles.get(UNNAMED) or roles._role_registry[roles.DEFAULT_INTERPRETED_ROLE]
    return getattr(found, "node_class", None) is not nodes.title_reference


class _Silent:
    """A reporter, and a document that has it, for looking names up: what is said on names is said when they are used."""

    current_line = None

    def __init__(self) -> None:
        self.reporter = self

    def _nothing(self, *_: Any, **__: Any) -> None:
        pass

    info = warning = error = _nothing


_SILENT: Any = _Silent()


def _found(name: str, kind: int, language: Any) -> Any:
    """What Docutils runs for a name now; None if it knows none."""
    kept: Any = (directives._directives, roles._roles)[kind]
    is_kept = name in kept
    found = (directives.directive(name, language, _SILENT) if kind == 0 else roles.role(name, language, 0, _SILENT))[0]
    if not is_kept:
        kept.pop(name, None)  # so that Docutils says how it found the name when it is used
    return found


def _is_of_docutils(found: Any) -> bool:
    """Whether a directive or a role is that of Docutils, and not what someone registered in its place."""
    module = getattr(found, "__module__", None) or type(found).__module__
    return found is None or str(module).startswith("docutils.")
