"""Documents of Docutils that this library has read: `doctree`, and `Parser` for the functions of `docutils.core`.

Docutils has to be installed (tried with 0.19). The library reads a text and does the transforms of Docutils' standalone reader: it replaces
substitutions, resolves references, and puts the title and the bibliographic fields in their places. These transforms aren't run again;
all others are. A document has all messages, INFO too: a writer leaves out those below the report level. Messages that transforms don't place
are in `transform_messages`, and a writer makes their section.

With `hand` directives and roles are handed back to Docutils. Where a text has some, the library only parses it: Docutils' own transforms run.

These settings count: `report_level`, `halt_level`, `doctitle_xform`, `docinfo_xform`, `tab_width`, `line_length_limit`,
`trim_footnote_reference_space`, and what other transforms and writers read. Others of the reStructuredText parser (such as
`syntax_highlight`) change nothing. The profile is "docutils" if no other is given: what docs/profile/wider.md of this project adds to markup is
read as Docutils reads it. The page docs/DOCUTILS.md says what is read otherwise than by Docutils. The document's tables are filled, except
`refnames`, `indirect_targets` and, in `footnote_refs`, references to automatic footnotes, which only the transforms that are done would read.
`rawsource` is empty.
"""

from __future__ import annotations

import functools
import re
from json import loads
from typing import TYPE_CHECKING, Any, Callable, Iterable

from docutils import frontend, nodes, readers, utils
from docutils.parsers import rst
from docutils.parsers.rst import roles
from docutils.readers import standalone
from docutils.transforms import Transform, frontmatter, references, universal

from . import HALTED, LEVELS, LIBRARY, Refused, Settings, Text, answer, collector_paused, messages, options_of
from ._hand import build
from ._machine import lines_of
from ._names import UNNAMED, Hand, Names
from ._nodes import fill, read

if TYPE_CHECKING:
    from typing_extensions import Unpack

_DONE = set(standalone.Reader().get_transforms()) - set(readers.Reader().get_transforms()) - {frontmatter.SectionSubTitle}
_HANDED = re.compile(r'\["handed",')
_UNDEFINED = 'Undefined substitution referenced: "'


class Parser(rst.Parser):
    """A parser for Docutils, as in `publish_string(text, parser=Parser(), writer_name="html5")`.

    Messages are reported in the order of the document, those of transforms when transforms are applied: they are written to the warning
    stream. One at or above the halt level is a `docutils.utils.SystemMessage`. A text that the library refuses is a
    `rst2pseudoxml.Refused`. Another profile than "base" and "docutils" is a ValueError.

    `hand` names what is handed back to Docutils: "registered" is each directive and role that Docutils finds by its name, but for what the
    profile has itself; a list of names adds these; "all" is all. Docutils' own transforms run then.
    """

    def __init__(self, rfc2822: bool = False, inliner: Any = None, profile: str = "docutils", hand: Hand = None) -> None:
        super().__init__(rfc2822, inliner)
        options_of({"profile": profile})  # refuses a wrong one
        self.profile = profile
        self.names = None if hand is None else Names(hand, profile)

    def parse(self, inputstring: Text, document: Any) -> None:
        """Puts what is read of a text into a document that is empty."""
        text: Any = inputstring  # Docutils asks for a str, and only keeps it
        written = text if isinstance(text, str) else bytes(text).decode("utf-8", "replace")
        used = self.names.of(written, document.settings.language_code) if self.names else ()
        self.setup_parse(text, document)
        settings = _settings_of(document, self.profile)
        made = parsed(text, *used, settings) if any(used) else ""
        if self.names and _HANDED.search(made):
            lines = lines_of(written, settings["tab_width"], document["source"])
            build(document, lines, self.inliner, self.state_classes, reading(self.names, document, settings), loads(made))
            self.finish_parse()
        else:
            self._fill(text, document)
        if self.names:
            roles._roles.pop(UNNAMED, None)  # a document's default role ends with it

    def _fill(self, text: Text, document: Any) -> None:
        """Puts a text into a document as the library finishes it."""
        made = _read(text, document, self.profile)
        with collector_paused():
            of_parser, of_transforms = fill(document, made)
        for message in of_parser:
            _report(message, document.reporter)
        self.finish_parse()
        transformer = document.transformer
        transformer.add_transforms = functools.partial(_add_others, transformer.add_transforms)
        if of_transforms:
            transformer.add_transform(_Finished, messages=of_transforms)


def doctree(text: Text, settings: Any = None, source: str = "<stdin>", profile: str = "docutils", hand: Hand = None) -> nodes.document:
    """The document of a text, as `docutils.core.publish_doctree` gives it.

    `settings` are those of Docutils, by default its defaults (no configuration file is read). `source` is the name of the text in messages.
    The `profile`, `hand` and exceptions are those of `Parser`.
    """
    parser = Parser(profile=profile, hand=hand)
    document: Any = utils.new_document(source, settings or _new_settings())
    parser.parse(text, document)
    document.transformer.add_transforms([transform for transform in _ALL if _is_needed(transform, document.settings)])
    document.transformer.apply_transforms()
    document.current_source = document.current_line = None
    made: nodes.document = document
    return made


def pseudoxml(text: Text, source: str = "<stdin>", hand: Hand = "registered", **given: Unpack[Settings]) -> str:
    """The tree of a document as `rst2pseudoxml.pseudoxml` prints it, with what Docutils makes of what is handed back to it.

    The settings are those of `rst2pseudoxml`, with "docutils" as the profile if none is given. A message that halts is a
    `docutils.utils.SystemMessage`, and nothing is written.
    """
    options_of(given)  # refuses wrong ones
    settings = _new_settings()
    settings.warning_stream = False
    settings.report_level = LEVELS[given.get("report", "warning")]
    settings.halt_level = LEVELS[given.get("halt", "severe")]
    settings.doctitle_xform = not given.get("no_doc_title")
    settings.docinfo_xform = not given.get("no_doc_info")
    settings.tab_width = given.get("tab_width", 8)
    settings.line_length_limit = given.get("line_length_limit", 10_000)
    document = doctree(text, settings, source, given.get("profile", "docutils"), hand)
    for transform in (universal.Messages, universal.FilterMessages):
        transform(document).apply()
    return str(document.pformat())


_ALL = standalone.Reader().get_transforms() + Parser().get_transforms()
_NEEDS: dict[Any, tuple[str, ...]] = {  # transforms that do nothing if none of these settings is set
    frontmatter.SectionSubTitle: ("sectsubtitle_xform",),
    universal.Decorations: ("generator", "datestamp", "source_link", "source_url"),
    universal.ExposeInternals: ("expose_internals",),
    universal.SmartQuotes: ("smart_quotes",),
    universal.StripComments: ("strip_comments",),
}


def _is_needed(transform: Any, settings: Any) -> bool:
    return transform not in _NEEDS or any(getattr(settings, name, None) for name in _NEEDS[transform])


@functools.lru_cache(maxsize=1)
def _defaults() -> Any:
    return getattr(frontend, "get_default_settings")(Parser, standalone.Reader)  # unknown to types-docutils of 2022


def _new_settings() -> Any:
    """Docutils' defaults, for one document."""
    settings = object.__new__(frontend.Values)
    vars(settings).update(vars(_defaults()))
    return settings


def _read(text: Text, document: Any, profile: str) -> memoryview:
    """The finished document for `fill`, with all messages. If one of them halts the run, all up to it are reported, which is an exception."""
    settings, reporter = _settings_of(document, profile), document.reporter
    made, status = read(text, settings)
    if status == HALTED:
        for message in messages(text, **settings):
            block = [nodes.literal_block(message.block, message.block)] if message.block else []
            reporter.system_message(message.level, message.text, *block, source=document["source"], line=message.line)
    reporter.max_level = max(reporter.max_level, status - 10)
    return made


def _settings_of(document: Any, profile: str) -> Any:
    """The settings of a call of the library for a document."""
    given = document.settings
    return {
        "report": "info",
        "halt": max(document.reporter.halt_level, 1),
        "exit_status": "info",  # so that the status tells the highest level
        "no_doc_title": not getattr(given, "doctitle_xform", True),
        "no_doc_info": not getattr(given, "docinfo_xform", True),
        "tab_width": getattr(given, "tab_width", 8),
        "line_length_limit": getattr(given, "line_length_limit", 10_000),
        "profile": profile,
    }


def parsed(text: Text, of_directives: Iterable[str], of_roles: Iterable[str], settings: Settings) -> str:
    """The document as the library parses it, before the transforms, as JSON; names in these sets are handed back."""
    names = "\n".join([*of_directives, *(":" + name for name in of_roles)]).encode()
    return answer(LIBRARY.rst_parse, text, settings, (names, len(names)))[0]


def reading(names: Names, document: Any, settings: Settings) -> Callable[[str], Any]:
    """What parses a part of a document."""

    def read(text: str) -> Any:
        try:
            return loads(parsed(text, *names.of(text, document.settings.language_code), settings))
        except Refused:
            return None

    return read


def _report(message: Any, reporter: Any) -> None:
    """Does what a reporter does with a message that it makes."""
    if reporter.stream and message["level"] >= reporter.report_level:
        reporter.stream.write(message.astext() + "\n")
    reporter.notify_observers(message)


def _add_others(add: Any, transforms: list[Any]) -> None:
    """Adds transforms, without those that the library has done."""
    add([transform for transform in transforms if transform not in _DONE])


class _Finished(Transform):
    """Runs before all other transforms: reports the messages of those that the library has done.

    Sphinx has a transform that replaces some substitutions before Docutils' does. So if one comes before that, references to undefined
    substitutions are given back, and Docutils' transform is run.
    """

    default_priority = 0

    def apply(self, messages: list[Any]) -> None:
        document: Any = self.document
        substituted = references.Substitutions.default_priority
        if any(int(priority.partition("-")[0]) < substituted for priority, *_ in document.transformer.transforms):
            document.transformer.add_transform(references.Substitutions)
            messages = [message for message in messages if not _given_back(message, document)]
        for message in messages:
            _report(message, document.reporter)


def _given_back(message: Any, document: Any) -> bool:
    """Whether a message is on an undefined substitution; the references that it is on are made anew."""
    text = message.astext().partition(") ")[2]
    if not text.startswith(_UNDEFINED):
        return False
    name = text[len(_UNDEFINED) : -2]
    for one in message["backrefs"]:
        problematic = document.ids.pop(one)
        reference = nodes.substitution_reference(problematic.astext(), name, refname=name)
        problematic.parent.replace(problematic, reference)
    for one in message["ids"]:
        del document.ids[one]
    return True
