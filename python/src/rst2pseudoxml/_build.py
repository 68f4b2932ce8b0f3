"""A document that the library has parsed, before the transforms, as nodes of Docutils; what is handed back is given to Docutils' machine.

What Docutils' parser does with a document while it reads is done here in the same order: ids and names are given, references are noted,
messages are reported.
"""

from __future__ import annotations

import re
from typing import Any, Callable

from docutils import nodes, utils
from docutils.nodes import fully_normalize_name, whitespace_normalize_name
from docutils.statemachine import StringList

from . import _sources as sources
from ._escapes import mark_escapes
from ._machine import Machine, style_of

_CLASSES = vars(nodes)
_new_element, _new_text, _Text, _TextElement = object.__new__, str.__new__, nodes.Text, nodes.TextElement
_FIXED = nodes.FixedTextElement
_IS_LAST = "is_last"  # in a directive, and so without the blank lines after it
_HIDDEN = (_IS_LAST, "inline", "mark", "message", "own_name", "rawsource", "serial", "text_messages")
# Where the text of these has a message on a name, it goes to the parent of the block that they are in.
_OF_BLOCK = frozenset({"title", "subtitle", "attribution", "term", "classifier", "field_name", "line"})
_LATER = frozenset({"attribution", "term", "classifier", "field_name", "line", "caption"})  # messages on these don't follow at once
_BEGINS_WITH_NOTES = frozenset({"definition", "field_body", "legend"})
_FIRST_OUTSIDE = frozenset({"definition_list", "field_list", "line_block"})  # the same holds for the first part of these
_PLAIN = frozenset({"paragraph", "block_quote", "literal_block", "doctest_block", "table", "transition"})
_PSEUDO_SECTIONS = frozenset({"topic", "sidebar"})
_OF_DIRECTIVES = frozenset(
    "admonition attention caution compound container danger error figure hint important note sidebar tip topic warning".split()
)
_ALIAS = re.compile(r"<([^<>]*)_>`_\Z", re.DOTALL)


class Builder:
    """Builds a document."""

    def __init__(self, document: Any, machine: Machine, lines: StringList, parent: Any, offset: int = 0) -> None:
        self.document, self.machine, self.reporter = document, machine, document.reporter
        self.lines, self.items = lines, lines.items
        self.offset = offset  # what Docutils adds to the number of a line
        self.open: list[Any] = [parent]  # the sections that are open, and what they are in; titles may be directly in it
        self.last = -1  # the line of the last title
        self.added = 0  # how many lines directives have added
        self.made: dict[Any, Any] = {}  # messages that were made for a problematic, by their numbers
        self.read: dict[Any, list[Any]] = {}  # messages as they were read, by their numbers
        self.notes: list[Any] = []  # messages on the text that is read
        self.has_others = False  # whether some of these are by a role that is handed back
        self.tables = 0  # how many tables are open
        self.shift = 0  # what Docutils adds to the number of the line of a term
        self.has_quotes = bool(getattr(document.settings, "smart_quotes", False))
        self.trim = utils.get_trim_footnote_ref_space(document.settings)

    def fill(self, root: list[Any]) -> None:
        """Puts what was read into the document."""
        _number(root, self.read)
        self.put_all(root[3:])
        self.machine.at = 0
        self.machine.root.line_offset = len(self.items) + (len(root) > 3 and self.is_past_end(root[-1]))

    def fill_inside(self, parent: Any, children: list[Any]) -> None:
        """Puts what was read of a part of the document into a parent."""
        for found in children:
            _number(found, self.read)
            if found[0] == "system_message" and "message" in found[2]:
                self.read[found[2]["message"]] = found
        self.put(parent, children, parent, parent)

    def is_past_end(self, last: Any) -> bool:
        """Whether Docutils' machine ends after the end of the text, so that a message without a line has none. It goes there from a list."""
        lines = self.lines
        tag, line = last[:2]
        if self.machine.memo.section_level or tag not in (*_PLAIN, "target"):
            return True
        return bool(lines[-1]) and (tag == "target" or sources.row(lines, line).startswith(".."))

    def put_all(self, children: list[Any]) -> None:
        """Puts what is directly in the document or in a section into what is open then."""
        for found in children:
            current = self.open[-1]
            self.machine.stand(found[0], found[1])
            if found[0] == "section":
                self.section(found)
            else:
                self.put(current, [found], current, current)

    def put(self, parent: Any, children: list[Any], holder: Any, outer: Any) -> None:
        """Puts nodes into a parent. `holder` takes the messages on names of the text in it, `outer` those of its titles and the like."""
        append = parent.children.append
        for found in children:
            if found.__class__ is str:
                node = _new_text(_Text, found)
                node.parent = parent
                append(node)
                continue
            tag = found[0]
            special = _SPECIAL.get(tag)
            if special:
                special(self, parent, found, holder)
            else:
                self.element(parent, found, outer if tag in _OF_BLOCK else holder)

    def new(self, found: list[Any]) -> Any:
        """An element with its attributes, without its nodes."""
        tag, line, given = found[:3]
        node = _new_element(_CLASSES[tag])
        node.rawsource = given.get("rawsource", "")
        node.children = []
        node.attributes = {"ids": [], "classes": [], "names": [], "dupnames": [], "backrefs": [], **given}
        for name in _HIDDEN:
            if name in given:
                del node.attributes[name]
        node.tagname = tag
        node.source, node.line = self.place(line + self.shift)
        return node

    def place(self, line: int) -> tuple[Any, Any]:
        if 0 < line <= len(self.items):
            source, offset = self.items[line - 1]
            return source, offset + 1
        return (self.document["source"], line) if line else (None, None)

    def element(self, parent: Any, found: list[Any], holder: Any) -> None:
        """An element of which nothing but its name is noted."""
        node, given, inside = self.new(found), found[2], found[3:]
        tag = node.tagname
        if tag == "table" and self.open[0] is not self.document:
            node.source = node.line = None  # as it is in Docutils while a directive has it
        if isinstance(node, _TextElement):
            self.put(node, inside, holder, holder)
            if tag in sources.OF:
                self.source(parent, node, found[1])
            elif isinstance(node, _FIXED) and len(inside) == 1 and inside[0].__class__ is str:
                node.rawsource = inside[0]
            self.name(node, given, node)
            _attach(parent, node)
            if self.notes and tag not in _LATER and not isinstance(parent, _TextElement):
                self.flush(parent)
        elif tag == "definition_list":
            self.put(node, inside[:1], holder, holder)
            _attach(parent, node)
            self.put(node, inside[1:], node, node)
        else:
            _attach(parent, node)
            self.block(node, found, holder)
            if tag in ("block_quote", "line_block") and parent.tagname != "line_block":
                self.flush(parent)
            elif tag == "figure" and self.notes:
                self.flush(_legend(node))

    def source(self, parent: Any, node: Any, line: int) -> None:
        """Gives an element that begins at a line its source text, and the line that it has in Docutils."""
        tag, outside = node.tagname, parent
        while outside.tagname == "line_block":
            outside = outside.parent
        text = sources.OF[tag](self.lines, line)
        if self.has_quotes and "\\" in text and tag == "paragraph":
            mark_escapes(node, text)
        node.rawsource = "" if self.tables else text  # in a table the lines hold other cells, too
        line = sources.line_of(self.lines, tag, line, parent.tagname, outside is self.open[-1])
        node.source, node.line = self.place(line and line + self.shift)

    def block(self, node: Any, found: list[Any], holder: Any) -> None:
        """What is in an element that holds no text itself."""
        tag, given, inside = node.tagname, found[2], found[3:]
        if tag in _FIRST_OUTSIDE:
            self.name(node, given, node)
            self.put(node, inside[:1], holder, holder)
            self.put(node, inside[1:], node, node)
            return
        if tag == "definition_list_item":
            self.item(node, found, holder)
            return
        if tag in _OF_DIRECTIVES:
            _note_end(found)
        elif tag in _BEGINS_WITH_NOTES:
            self.flush(node)
        if tag in _PSEUDO_SECTIONS:
            titles = _titles(inside)
            self.put(node, inside[:titles], node, holder)
            inside = inside[titles:]
        elif tag == "field_body":
            node.rawsource = "" if self.tables else sources.of_field_body(self.lines, found[1])
        self.name(node, given, node)
        self.tables += tag == "table"
        self.put(node, inside, node, holder)
        self.tables -= tag == "table"

    def item(self, node: Any, found: list[Any], holder: Any) -> None:
        """What is in an item of a definition list."""
        inside = found[3:]
        terms = sum(child[0] != "definition" for child in inside)
        self.shift = 0 if self.tables else sources.line_of_term(self.lines, found[1], _IS_LAST in found[2]) - found[1]
        node.source, node.line = self.place(found[1] + self.shift)
        self.put(node, inside[:terms], holder, holder)
        self.shift = 0
        self.put(node, inside[terms:], holder, holder)

    def name(self, node: Any, given: dict[str, Any], holder: Any) -> None:
        """Gives an element the name that it was written with, if there is one."""
        if "own_name" in given:
            node.attributes["names"].append(given["own_name"])
            place = node.source, node.line
            node.source = node.line = None  # as in Docutils a message has the line at which the machine stands
            self.document.note_explicit_target(node, holder)
            node.source, node.line = place

    def section(self, found: list[Any]) -> None:
        """Begins a section: in the section whose title has the style before its own, among the styles in use."""
        line, title = found[1], found[3]
        memo = self.machine.memo
        style = style_of(self.lines, title[1], self.last)
        self.last = title[1]
        styles: list[Any] = memo.title_styles
        if style not in styles and len(styles) == memo.section_level:
            styles.append(style)
        level = styles.index(style) + 1 if style in styles else len(styles) + 1
        if level > memo.section_level + 1:
            self.inconsistent(found, style)
            return
        if level == 1:
            self.machine.root.line_offset = title[1]
        del self.open[level:]
        memo.section_level = level
        parent = self.open[-1]
        node = self.new(found)
        node.line = self.place(title[1] + 1)[1]
        _attach(parent, node)
        count = 1 + found[2].get("text_messages", 0)
        of_text = _numbers(title)
        notes = sorted(found[4 : count + 3], key=lambda note: note[2].get("message") in of_text)
        for note in notes:
            if note[2].get("message") not in of_text:
                self.message_of(note)  # it is reported before the title's text is read
        self.put(node, [title], parent, parent)
        node.children[0].rawsource = sources.row(self.lines, title[1]).strip()
        node.children[0].source, node.children[0].line = node.source, node.line
        node.attributes["names"].append(fully_normalize_name(node.children[0].astext()))
        self.put(node, notes, node, node)
        self.document.note_implicit_target(node, node)
        self.open.append(node)
        self.put_all(found[count + 3 :])

    def inconsistent(self, found: list[Any], style: Any) -> None:
        """A title of a style that may not stand here: what follows belongs to the section before it."""
        line = found[3][1]
        lines = self.lines[line - len(style) : line + 1]
        source = "\n".join(lines)
        block = nodes.literal_block("", source)
        self.open[-1] += self.reporter.severe("Title level inconsistent:", block, line=line + 2 - len(style))
        self.put_all(found[4 + found[2].get("text_messages", 0) :])

    def message_of(self, found: list[Any]) -> Any:
        """A message, which is reported when it is asked for the first time."""
        given = found[2]
        key = given.get("message", id(found))
        if key not in self.made:
            text, blocks = found[3][3], [one[3] if len(one) > 3 else "" for one in found[4:]]
            shown = [nodes.literal_block(block, block) for block in blocks]
            self.made[key] = self.reporter.system_message(given["level"], text, *shown, line=given["line"] + self.offset + self.shift)
        return self.made[key]

    def message(self, parent: Any, found: list[Any], holder: Any) -> None:
        node = self.message_of(found)
        if node.parent is None:  # else it came with those of a role
            _attach(parent, node)

    def flush(self, parent: Any) -> None:
        """Puts the messages of a text into a parent, if there are others among them than those that were read."""
        if self.notes:
            if self.has_others:
                for note in self.notes:
                    _attach(parent, note)
            self.notes, self.has_others = [], False

    def problematic(self, parent: Any, found: list[Any], holder: Any) -> None:
        node = self.new(found)
        self.put(node, found[3:], holder, holder)
        node.rawsource = node.astext()
        read = self.read.get(found[2].get("message"))
        if read is not None:
            message = self.message_of(read)
            node["refid"] = self.document.set_id(message, holder)
            message.add_backref(self.document.set_id(node))
            self.notes.append(message)
        _attach(parent, node)

    def reference(self, parent: Any, found: list[Any], holder: Any) -> None:
        node, given = self.new(found), found[2]
        self.put(node, found[3:], holder, holder)
        _attach(parent, node)
        if isinstance(node.children[0] if node.children else None, nodes.substitution_reference):
            node.children[0].rawsource = node.rawsource
        if "refname" not in given:
            return
        alias = _ALIAS.search(node.rawsource)
        if alias:
            target = nodes.target(alias[0][:-2], refname=given["refname"])
            target.indirect_reference_name = whitespace_normalize_name(nodes.unescape(utils.escape2null(alias[1])))
            target["names"].append(fully_normalize_name(given["name"]))
            self.document.note_indirect_target(target)
            _attach(parent, target)
        self.document.note_refname(node)

    def target(self, parent: Any, found: list[Any], holder: Any) -> None:
        given = found[2]
        if "inline" in given and "refname" in given:
            return  # that of an alias, which its reference has made, as it does by the base
        node = self.new(found)
        node.rawsource = sources.of_explicit(self.lines, found[1], until_blank=True) if "refname" in given else ""
        self.put(node, found[3:], holder, holder)
        if "inline" in given:
            node.source = node.line = None
            node.referenced = int("refuri" in given)
        else:
            node.source, node.line = None, found[1] + self.offset
        if "anonymous" in given:
            self.document.note_anonymous_target(node)
        if "own_name" in given:
            node.attributes["names"].append(given["own_name"])
            self.document.note_explicit_target(node, holder)
        if "refname" in given:
            node.indirect_reference_name = given["refname"]
            self.document.note_indirect_target(node)
        if parent is self.open[-1] and self.open[0] is self.document:  # as Docutils has it, lines that were added count here
            node.source, node.line = self.place(found[1])[0], found[1] + self.added
        _attach(parent, node)

    def footnote(self, parent: Any, found: list[Any], holder: Any) -> None:
        node, given = self.new(found), found[2]
        document, auto = self.document, given.get("auto")
        if auto is None:
            self.put(node, found[3:4], node, node)
        if "own_name" in given:
            node.attributes["names"].append(given["own_name"])
        {None: document.note_footnote, 1: document.note_autofootnote, "*": document.note_symbol_footnote}[auto](node)
        if "own_name" in given:
            document.note_explicit_target(node, node)
        _attach(parent, node)
        self.put(node, found[4:], node, node)

    def citation(self, parent: Any, found: list[Any], holder: Any) -> None:
        node = self.new(found)
        self.put(node, found[3:4], node, node)
        self.document.note_citation(node)
        node.attributes["names"].append(found[2]["own_name"])
        self.document.note_explicit_target(node, node)
        _attach(parent, node)
        self.put(node, found[4:], node, node)

    def label(self, parent: Any, found: list[Any], holder: Any) -> None:
        """A reference to a footnote or to a citation."""
        node, document = self.new(found), self.document
        self.put(node, found[3:], holder, holder)
        if node.tagname == "citation_reference":
            document.note_citation_ref(node)
        else:
            auto = found[2].get("auto")
            if auto:
                (document.note_autofootnote_ref if auto == 1 else document.note_symbol_footnote_ref)(node)
            if "refname" in found[2]:
                document.note_footnote_ref(node)
            if self.trim:
                _trim(parent)
        _attach(parent, node)

    def substitution(self, parent: Any, found: list[Any], holder: Any) -> None:
        """A substitution definition; one whose directive is handed back is read as a whole by Docutils."""
        first = found[3] if len(found) > 3 else ""
        if first[0] == "handed" and first[2]["kind"] == "directive":
            self.handed(parent, first, holder)
            return
        node, name = self.new(found), found[2]["own_name"]
        node.rawsource = sources.of_explicit(self.lines, found[1], until_blank=False)
        node["names"].append(name)
        inside = nodes.Element()
        self.put(node, found[3:], inside, inside)
        for note in self.notes:
            note["backrefs"] = []
        self.flush(parent)
        self.document.note_substitution_def(node, name, holder)
        _attach(parent, node)

    def handed(self, parent: Any, found: list[Any], holder: Any) -> None:
        """What is handed back: a role in a text, or a directive."""
        _, line, given, source = found
        if given["kind"] == "role":
            made, messages = self.machine.role(given["name"], source, line + self.offset + self.shift, holder)
            for node in made:
                _attach(parent, node)
            if messages:
                self.notes += messages
                self.has_others = True
            return
        in_section = parent is self.open[-1]
        lines = self.lines_of(source.split("\n"), line, _IS_LAST in given)
        line += self.offset
        has_more = False
        while lines:
            lines, line, count = self.machine.run(lines, line, parent, in_section, has_more)
            self.added += count
            has_more = has_more or count > 0
            if in_section and has_more and self.open[0] is self.document:  # the lines may have left sections open, or ended some
                self.reopen(parent, bool(lines))
                parent = self.open[-1]

    def lines_of(self, rows: list[str], line: int, is_last: bool) -> StringList:
        """The lines of a directive, with the blank lines after them if they belong to it."""
        first = line - 1
        end = first + len(rows)
        while not is_last and end < len(self.items) and not self.lines[end]:
            rows.append("")
            end += 1
        return StringList(rows, items=self.items[first:end])

    def reopen(self, parent: Any, is_ended: bool) -> None:
        """Finds the sections that are open after lines were added to one."""
        memo = self.machine.memo
        if is_ended:
            del self.open[memo.section_level :]
            memo.section_level -= 1
            return
        while parent.children and isinstance(parent.children[-1], nodes.section):
            parent = parent.children[-1]
            self.open.append(parent)
        memo.section_level = len(self.open) - 1


_SPECIAL: dict[str, Callable[[Builder, Any, list[Any], Any], None]] = {
    "citation": Builder.citation,
    "citation_reference": Builder.label,
    "footnote": Builder.footnote,
    "footnote_reference": Builder.label,
    "handed": Builder.handed,
    "problematic": Builder.problematic,
    "reference": Builder.reference,
    "substitution_definition": Builder.substitution,
    "system_message": Builder.message,
    "target": Builder.target,
}


def _attach(parent: Any, node: Any) -> None:
    """Adds a node to its parent as it is."""
    node.parent = parent
    parent.children.append(node)


def _number(found: list[Any], read: dict[Any, list[Any]]) -> None:
    """Enters the messages in an element by their numbers."""
    for child in found[3:]:
        if child.__class__ is list:
            if child[0] == "system_message" and "message" in child[2]:
                read[child[2]["message"]] = child
            else:
                _number(child, read)


def _numbers(title: list[Any]) -> set[Any]:
    """The numbers of the messages on a text."""
    return {child[2].get("message") for child in title[3:] if child[0] == "problematic"}


def _titles(inside: list[Any]) -> int:
    """How many nodes before the content of a topic or a sidebar are its titles, and messages on them."""
    tags = [child[0] for child in inside]
    count = sum(tag in ("title", "subtitle") for tag in tags)
    for child in inside[:count]:
        count += int(child[2].get("text_messages", 0))
    return count


def _legend(figure: Any) -> Any:
    """The legend of a figure, which is made if there is none."""
    if not isinstance(figure.children[-1], nodes.legend):
        _attach(figure, nodes.legend())
    return figure.children[-1]


def _note_end(found: list[Any]) -> None:
    """Notes at the last directive that is handed back in another, and at the last definition, that blank lines after it don't belong to it."""
    while found[3:] and found[-1].__class__ is list:
        found = found[-1]
        if found[0] in ("handed", "definition_list_item"):
            found[2][_IS_LAST] = True


def _trim(parent: Any) -> None:
    """Takes the spaces at the end of a text away, before a reference to a footnote."""
    last = parent.children[-1] if parent.children else None
    if isinstance(last, nodes.Text):
        parent.children.pop()
        if last.rstrip():
            _attach(parent, nodes.Text(last.rstrip()))
