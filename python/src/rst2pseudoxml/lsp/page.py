"""A text that an editor has open: its messages, sections and references. Lines are counted from 1 here, and from 0 by the editor."""

from __future__ import annotations

import re
from typing import Any, Iterator

from .. import Node, Refused, tree
from ..check import Pages

LINE_END = re.compile("\r\n|[\n\r\x1c-\x1e\x85\u2028\u2029]")  # those of the library; an editor counts the first three
REFERENCE = re.compile(
    r"\[(?P<label>[^]\[\s]+)\]_"
    r"|\|(?P<substitution>[^|\s](?:[^|]*[^|\s])?)\|"
    r"|`(?:[^`<]*<(?P<given>[^<>`]+)_>|(?P<phrase>[^`]+))`__?"
    r"|(?P<word>[^\W_]+(?:[-._+:][^\W_]+)*)__?(?!\w)"
)
EXPLICIT = re.compile(r"^(?=( *)(\.\. .*(?:\n(?:[ \t]*\n)*\1[ \t].*)+))", re.MULTILINE)  # with what is indented below it
SEVERITY = {1: 3, 2: 2, 3: 1, 4: 1}  # INFO is an information, SEVERE an error
HEADING = 15  # the kind of a symbol, `String`, that editors show for headings


def folded(name: str) -> str:
    """A name in the form in which names are compared."""
    return " ".join(name.replace("\\", "").lower().split())


def elements(node: Node) -> Iterator[Node]:
    """An element and all in it."""
    yield node
    for child in node.children:
        if isinstance(child, Node):
            yield from elements(child)


def strings(node: Node, name: str) -> list[str]:
    """An attribute that is a list of ids or names."""
    value = node.attributes.get(name)
    return value if isinstance(value, list) else []


class Page:
    def __init__(self, text: str, reader: Pages) -> None:
        self.text, self.reader = text, reader
        self.data = text.encode("utf-8", "replace")
        """What the tree is of: the text, in which known directives that hold text are opened."""
        self.directives: dict[int, str] = {}
        """The names of those directives, by their lines."""
        self.titles: dict[str, int] = {}
        """The lines of the titles in them."""
        self.lines = LINE_END.split(text)
        self.numbers = [0]
        """The editor's number of each line."""
        for found in LINE_END.finditer(text):
            self.numbers.append(self.numbers[-1] + (found[0] in ("\n", "\r", "\r\n")))
        self.messages = self._messages()

    def _messages(self) -> list[tuple[int, int, str]]:
        """The messages that rst-check has, as lines, severities and texts; or the refusal of the text."""
        try:
            read = self.reader.read(self.data)
        except Refused as refused:
            return [((refused.kind == "too deep" and refused.place) or 1, 1, str(refused).removeprefix("rst2pseudoxml: "))]
        if read.text:
            self.data = read.text.data()
            self.directives = {place + 1: name for place, name in read.text.opened.items()}
            self.titles = {name: line for name, (line, _) in read.text.titles.items()}
        return [(message.line, SEVERITY[message.level], message.text) for message in read.messages]

    def tree(self, no_doc_title: bool = False) -> Node:
        """The document; one without elements if the text is refused."""
        try:
            return tree(self.data, report="none", halt="none", no_doc_title=no_doc_title, profile=self.reader.profile)
        except Refused:
            return Node("document", {}, (), 0)

    def range(self, first: int, last: int = 0) -> dict[str, Any]:
        """From the first character of a line to the end of this line, or of a later one."""
        first, last = min(first, len(self.lines)), min(max(first, last), len(self.lines))
        line, end = self.lines[first - 1], self.lines[last - 1].encode("utf-16-le", "surrogatepass")  # editors count as UTF-16 does
        start = {"line": self.numbers[first - 1], "character": len(line) - len(line.lstrip())}
        return {"start": start, "end": {"line": self.numbers[last - 1], "character": len(end) // 2}}

    def place(self, position: dict[str, int]) -> tuple[int, int]:
        """The line of a position of the editor, and how many characters come before it there."""
        line = self.numbers.index(min(position["line"], self.numbers[-1])) + 1
        before = self.lines[line - 1].encode("utf-16-le", "surrogatepass")[: 2 * position["character"]]
        return line, len(before.decode("utf-16-le", "replace"))

    def diagnostics(self) -> list[dict[str, Any]]:
        return [{"range": self.range(line), "severity": at, "source": "rst2pseudoxml", "message": text} for line, at, text in self.messages]

    def symbols(self) -> list[dict[str, Any]]:
        """The sections, for an outline."""
        last = max((number for number, line in enumerate(self.lines, 1) if line.strip()), default=1)
        return self._symbols(self.tree(no_doc_title=True), last)

    def _symbols(self, node: Node, last: int) -> list[dict[str, Any]]:
        found = [child for child in node.children if isinstance(child, Node) and child.tag == "section"]
        ends = [self._before(section.line) for section in found[1:]] + [last]
        return [
            {
                "name": self.lines[section.line - 1].strip(),
                "kind": HEADING,
                "range": self.range(section.line, end),
                "selectionRange": self.range(section.line),
                "children": self._symbols(section, end),
            }
            for section, end in zip(found, ends)
        ]

    def _before(self, title: int) -> int:
        """The last line before a title that isn't blank and isn't the overline."""
        over, under = self.lines[title - 2], self.lines[title] if title < len(self.lines) else ""
        last = title - 2 if over.strip() and over.rstrip() == under.rstrip() else title - 1
        while not self.lines[last - 1].strip():
            last -= 1
        return last

    def folds(self) -> list[dict[str, int]]:
        """Sections, and explicit markup blocks of more than one line."""
        parts, whole = list(self._parts(self.symbols())), "\n".join(self.lines)
        for found in EXPLICIT.finditer(whole):
            first = whole.count("\n", 0, found.start())
            parts.append((self.numbers[first], self.numbers[first + found[2].count("\n")]))
        return [{"startLine": first, "endLine": last} for first, last in parts]

    def _parts(self, symbols: list[dict[str, Any]]) -> Iterator[tuple[int, int]]:
        for one in symbols:
            yield one["range"]["start"]["line"], one["range"]["end"]["line"]
            yield from self._parts(one["children"])

    def path(self, line: int) -> str:
        """The names of the elements that the text at a line is in, and the last of them with its attributes."""
        node, names = self.tree(), []
        while True:
            directive = self.directives.get(node.line) if node.tag == "tip" else None
            names.append(directive or node.tag)
            inside = [child for child in node.children if isinstance(child, Node) and 0 < begin(child) <= line]
            if not inside or any(isinstance(child, str) for child in node.children) or (directive and node.line == line):
                break
            node = inside[-1]
        shown = [f'{name}="{" ".join(value) if isinstance(value, list) else value}"' for name, value in sorted(node.attributes.items())]
        return " > ".join(names) + f"\n<{' '.join([names[-1], *shown])}>"

    def definition(self, line: int, place: int) -> int | None:
        """The line of what the reference at a place refers to."""
        first = last = line
        while first > 1 and self.lines[first - 2].strip():
            first -= 1
        while last < len(self.lines) and self.lines[last].strip():
            last += 1
        before = "".join(f"{text}\n" for text in self.lines[first - 1 : line - 1])
        found = list(REFERENCE.finditer(before + "\n".join(self.lines[line - 1 : last])))
        here = next((one for one in found if one.start() <= len(before) + place <= one.end()), None)
        if here is None:
            return None
        nodes = list(elements(self.tree(no_doc_title=True)))
        mark = (here["label"] or "")[:1]
        if mark in ("#", "*"):
            count = sum(one.start() < here.start() and (one["label"] or "").startswith(mark) for one in found)
            return numbered(nodes, count, mark, range(first, last + 1))
        name, is_substitution = folded(next(filter(None, here.groups()))), here["substitution"] is not None
        return named(nodes, name, is_substitution) or (None if is_substitution else self.titles.get(name))


def begin(node: Node) -> int:
    """The line at which an element, or the first in it, begins; 0 if none has a line."""
    return next((one.line for one in elements(node) if one.line), 0)


def named(nodes: list[Node], name: str, substitution: bool) -> int | None:
    """The line of the element with a name, or of an internal target before it. The target that an alias leaves, with a name and no id, isn't meant."""
    for node in nodes:
        if (node.tag == "substitution_definition") != substitution or not (substitution or strings(node, "ids")):
            continue
        if name in map(folded, strings(node, "names")):
            refid = dict(zip(map(folded, strings(node, "names")), strings(node, "ids"))).get(name, "")
            before = (one.line for one in nodes if one.tag == "target" and one.attributes.get("refid") == refid and not strings(one, "names"))
            return next(before, node.line)
    return None


def numbered(nodes: list[Node], count: int, mark: str, lines: range) -> int | None:
    """The line of the footnote that an automatic reference refers to: that after COUNT others in these lines."""
    kind = ("footnote_reference", 1 if mark == "#" else mark)
    found = [node for node in nodes if (node.tag, node.attributes.get("auto")) == kind and node.line in lines]
    refid = found[count].attributes.get("refid") if count < len(found) else None
    return next((node.line for node in nodes if refid in strings(node, "ids")), None)
