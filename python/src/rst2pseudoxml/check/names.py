"""The names that other tools read, and those that the messages of a page are on."""

from __future__ import annotations

import functools
import re
from pathlib import Path
from typing import Iterator

from .. import Message

HERE = Path(__file__).parent
MARKS = ("text", "title", "content", "sections", "lines", "terms", "none")

# What a line of a source may define. The first that it matches counts.
DEFINITIONS = [
    ("target:", re.compile(r"\.\. +_`([^`]+)`:")),
    ("target:", re.compile(r"\.\. +_([^_].*?):(?: |$)")),
    ("target:", re.compile(r"\.\. +\[#?([^]]+)\]")),
    ("substitution:", re.compile(r"\.\. +\|([^|]+)\| ")),
    ("role:", re.compile(r"\.\. +role:: *(.*?)(?:[ (]|$)")),
    ("target:", re.compile(r":name: +(.*)")),
]
PHRASE = re.compile(r"`([^`<]+?) +<[^`<>]+>`_")
SPACE = re.compile(r"[ \t\n]+")
UNKNOWN_OPTION = re.compile(r'Error in "[^"]*" directive:\nunknown option: ')
INCLUDED = re.compile(r"\.\. +include *:: +<([^<>]+)>")
ROLE = re.compile(r":([A-Za-z][-A-Za-z0-9_.+:]*):`|`:([A-Za-z][-A-Za-z0-9_.+:]*):")
OWN_ROLES = "emphasis strong literal subscript sub superscript sup title-reference title t".split()


def fold(name: str) -> str:
    """A name in the form in which names are compared: white space and case don't count."""
    return SPACE.sub(" ", name).lower()


def defined_in(source: str) -> Iterator[str]:
    """The names that the lines of a source define, each with its kind."""
    for line in source.split("\n"):
        line = line.strip(" \r")
        found = next(((kind, match) for kind, form in DEFINITIONS if (match := form.match(line))), None)
        if found:
            yield found[0] + fold(found[1][1].replace("\\", ""))
        for phrase in PHRASE.findall(line):
            yield "target:" + fold(phrase.replace("\\", ""))
        included = INCLUDED.match(line)
        yield from shipped_definitions().get(included[1], []) if included else []


@functools.lru_cache(maxsize=None)
def shipped_definitions() -> dict[str, list[str]]:
    """What each of Docutils' own files of definitions defines."""
    found: dict[str, list[str]] = {}
    names: list[str] = []
    for line in (HERE / "docutils-definitions.txt").read_text("utf-8").splitlines():
        if line.startswith("#"):
            continue
        if not line.startswith(" "):
            file, _, line = line.partition(":")
            names = found[file] = []
        names += [name if name.startswith("role:") else f"substitution:{name}" for name in line.split()]
    return found


class Known:
    """The names that other tools read. Each begins with `directive:`, `role:`, `substitution:` or `target:`.

    What is given is what options `--known` have. A file that isn't there is an OSError, a wrong mark a ValueError.
    """

    def __init__(self, *given: str) -> None:
        self.names: set[str] = set()
        self.marks: dict[str, str] = {}
        """How the text in a directive is read, if anything is."""
        self.excluded: list[str] = []
        """The patterns of pages that a folder has, and that aren't checked."""
        self.files: set[Path] = set()
        for one in given:
            self.add_all(one)

    def __contains__(self, name: str) -> bool:
        return name in self.names

    def mark(self, directive: str) -> str | None:
        mark = self.marks.get(directive.lower())
        return None if mark == "none" else mark

    def add(self, given: str, folder: str = "") -> None:
        """Adds what a line of a file in a folder says. A file that isn't there is an OSError, a wrong mark a ValueError."""
        given = given.strip(" \t\r")
        kind, colon, value = given.partition(":")
        if given.startswith("@"):
            self.add_file(given[1:], folder)
        elif kind + colon == "definitions:":
            self.names.update(defined_in(_text(_found(value, folder))))
        elif kind + colon == "exclude:":
            self.excluded.append(value.rstrip("/"))
        elif kind + colon in ("substitution:", "target:"):
            self.names.add(fold(given))
        elif given and not given.startswith("#"):
            self._add_name(*given.split())

    def _add_name(self, given: str, *marks: str) -> None:
        """Adds a directive or a role or both. A name of a domain is known without it too."""
        kind, colon, name = given.partition(":")
        kinds, name = ([kind], name) if kind + colon in ("directive:", "role:") else (["directive", "role"], given)
        if marks and (marks[0] not in MARKS or marks[1:] or kinds == ["role"]):
            raise ValueError(f"no such mark of a name: {' '.join(marks)}")
        given = fold(name)
        for form in (given, re.sub("^[a-z]+:", "", given)):
            self.names.update(f"{kind}:{form}" for kind in kinds)
            if marks and (form == given or form not in self.marks):
                self.marks[form] = marks[0]

    def add_file(self, file: str, folder: str = "") -> None:
        path = _found(file, folder)
        if path in self.files:
            return
        self.files.add(path)
        for line in _text(path).split("\n"):
            self.add(line, str(path.parent))

    def add_all(self, given: str) -> None:
        """Adds the names of an option: one line or more, each a file or names with commas between them."""
        for line in given.split("\n"):
            for name in [line] if line.startswith("@") else line.split(","):
                self.add(name)


def _found(file: str, folder: str) -> Path:
    """A file that is named in a folder: there, in the current folder, or in this package."""
    for path in (Path(folder, file), Path(file), HERE / file):
        if path.is_file():
            return path
    raise FileNotFoundError(f"cannot read {file}")


def _text(path: Path) -> str:
    return path.read_text("utf-8", "surrogateescape")


class Names:
    """The names that the messages of a page are on, and what the directives of the page define."""

    def __init__(self, known: Known) -> None:
        self.known = known
        self.defined: dict[str, str] = {}
        self.sources: list[tuple[str, str]] = []
        """Unknown directives, with their sources, that weren't looked through yet."""

    def name_of(self, message: Message) -> str:
        """The name that, if it is known, takes a message away; an empty one if none does. The messages are taken in their order."""
        text, source = message.text, message.block or ""
        quoted = fold(text[text.find('"') + 1 : max(text.rfind('"'), 0)])
        if text.startswith('Unknown directive type "'):
            return self._define("directive:" + quoted, source)
        if text.startswith('Unknown interpreted text role "'):
            return self._definer("role:" + quoted, "role:" + quoted)
        if text.endswith('" directive disabled.'):
            return self._define("directive:" + quoted, source)
        if UNKNOWN_OPTION.match(text):
            return self._define("directive:" + quoted.partition('"')[0], source)
        if text.startswith('Substitution definition "'):
            return self._of_substitution(text, quoted, source)
        if text.startswith("Undefined substitution referenced: "):
            return self._definer("substitution:" + quoted)
        if text.startswith("Indirect hyperlink target ") and text.endswith(" which does not exist."):
            return self._definer("target:" + re.sub('.*" refers to target "', "", quoted))
        return self._definer("target:" + quoted) if text.startswith("Unknown target name: ") else ""

    def _of_substitution(self, text: str, name: str, source: str) -> str:
        """The directive or role that a substitution definition has, where that is what is wrong with it."""
        if text.endswith('" may hold only image or replace.'):
            directive = re.sub(r"^\.\. +\|[^|]*\| +", "", source)
            directive = re.sub(r" ?::.*", "", directive, flags=re.DOTALL)
            return self.define("substitution:" + name, self._define("directive:" + fold(directive), source))
        if text.endswith('" contains an illegal element.'):
            return self.define("substitution:" + name, self._role_in(source))
        return ""

    def _role_in(self, text: str) -> str:
        """A role in a text that isn't one of this package: a known one, if there is one."""
        roles = ["role:" + fold(one or other) for one, other in ROLE.findall(text) if fold(one or other) not in OWN_ROLES]
        return next((role for role in roles if role in self.known), roles[0] if roles else "")

    def define(self, what: str, name: str) -> str:
        """Notes who defines what: a name that is known comes first."""
        if name and (what not in self.defined or name in self.known):
            self.defined[what] = name
        return name

    def _definer(self, what: str, otherwise: str = "") -> str:
        sources, self.sources = self.sources, []
        for name, source in sources:
            for defined in defined_in(source):
                self.define(defined, name)
        return what if what in self.known else self.defined.get(what, otherwise)

    def _define(self, name: str, source: str) -> str:
        """Notes that the source of an unknown directive may define names."""
        self.sources.append((name, source))
        return name
