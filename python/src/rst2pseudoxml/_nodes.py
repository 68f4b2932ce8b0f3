"""What the library has read of a text, as nodes of Docutils in a document."""

from __future__ import annotations

from json import loads
from operator import itemgetter
from typing import Any

from docutils import nodes, utils
from docutils.transforms import frontmatter, misc, references

from . import LIBRARY, Settings, Text, called

try:
    from . import _records
except ImportError:  # it wasn't built, or not for this Python: nodes are made from JSON, which takes longer
    _records = None  # type: ignore[assignment]

_CLASSES = vars(nodes)
_new_element, _new_text, _Text = object.__new__, str.__new__, nodes.Text  # the constructors of nodes would take four times as long
_NOTED = frozenset({"ids", "names", "dupnames", "refid", "level"})  # what an element is noted for
_LISTS = {
    ("footnote", None): "footnotes",
    ("footnote", 1): "autofootnotes",
    ("footnote", "*"): "symbol_footnotes",
    ("footnote_reference", 1): "autofootnote_refs",
    ("footnote_reference", "*"): "symbol_footnote_refs",
    ("citation", None): "citations",
}
_LABELS = {("footnote_reference", None): "footnote_refs", ("citation_reference", None): "citation_refs"}
_LABELLED = frozenset(tag for tag, _ in (*_LISTS, *_LABELS))
_UNPLACED = {"ids": [], "classes": ["system-messages"], "names": [], "dupnames": [], "backrefs": []}  # those of the section of messages
# How messages of transforms begin: those that a transform places in the document, and others.
_PLACED: list[tuple[Any, tuple[str, ...]]] = [
    (misc.ClassAttribute, ("No suitable element following ",)),
    (frontmatter.DocInfo, ("There can only be one ", "Cannot extract ", "Bibliographic field ")),
    (misc.Transitions, ("Document may not ", "Document or section may not ", "At least one body element ")),
]
_OTHERS: list[tuple[Any, tuple[str, ...]]] = [
    (references.Substitutions, ("Undefined substitution ", "Circular substitution ", "Substitution definition ")),
    (references.DanglingReferences, ("Unknown target name: ", "Duplicate target name, ", "Hyperlink target ")),
    (references.IndirectHyperlinks, ("",)),
]


def read(text: Text, settings: Settings) -> tuple[memoryview, int]:
    """A finished document for `fill`, and the program's exit status."""
    return called(LIBRARY.rst_records if _records else LIBRARY.rst_json, text, settings)


def fill(document: Any, made: memoryview) -> tuple[list[Any], list[Any]]:
    """Puts nodes into a document, and enters them into its tables.

    Gives the messages of the parser, in the order of the document, and those of transforms, in the order in which Docutils reports them. Those
    that transforms don't place in the document have no parent.
    """
    noted: list[Any] = [document]
    whole = _nodes(document, made, noted)
    unplaced: list[Any] = []
    if whole and isinstance(whole[-1], nodes.section) and whole[-1].attributes == _UNPLACED:
        unplaced = whole.pop().children[1:]  # those after the title
    for message in unplaced:
        message.parent = None
    document.children += whole
    placed = [element for element in noted if element.tagname == "system_message" and element.parent is not None]
    for element in noted:
        _note(element, document)
    if getattr(document.settings, "title", None) is not None:
        document["title"] = document.settings.title
    if utils.get_trim_footnote_ref_space(document.settings):
        _trim(document)
    return _sorted(placed, unplaced)


def _nodes(document: Any, made: memoryview, noted: list[Any]) -> list[Any]:
    """The nodes in a document, whose attributes it gets; to `noted` are added the elements with attributes that are noted."""
    if _records:
        return _records.nodes(bytes(made), document, document.attributes, _CLASSES, nodes.Element, nodes.Text, document["source"], noted)
    _, _, attributes, *whole = loads(str(made, "utf-8"))
    document.attributes.update(attributes)
    _make(document, whole, document["source"], noted)
    return whole


def _make(parent: Any, children: list[Any], source: str, noted: list[Any]) -> None:
    """Makes nodes of what was read, in place: the lists become those of the nodes."""
    for place, found in enumerate(children):
        if found.__class__ is str:
            node: Any = _new_text(_Text, found)
        else:
            tag, line, given = found[:3]
            del found[:3]
            node = _new_element(_CLASSES[tag])
            node.rawsource = ""
            node.children = found
            node.attributes = {"ids": [], "classes": [], "names": [], "dupnames": [], "backrefs": []}
            node.tagname = tag
            node.source = source
            node.line = line or None
            if given:
                node.attributes.update(given)
                if not _NOTED.isdisjoint(given):
                    noted.append(node)
            _make(node, found, source, noted)
        node.parent = parent
        children[place] = node


def _sorted(placed: list[Any], others: list[Any]) -> tuple[list[Any], list[Any]]:
    """The messages of the parser and those of transforms, given those that are in the document and those that aren't."""
    of_parser, of_transforms = [], []
    for message in placed:
        priority = _priority(message, _PLACED)
        of_parser.append(message) if priority is None else of_transforms.append((priority, message))
    of_transforms += [(_priority(message, _OTHERS), message) for message in others]
    of_transforms.sort(key=itemgetter(0))
    return of_parser, [message for _, message in of_transforms]


def _priority(message: Any, transforms: list[tuple[Any, tuple[str, ...]]]) -> Any:
    """The priority of the transform that makes a message; None if none of these does."""
    text = message.children[0].astext()
    return next((transform.default_priority for transform, texts in transforms if text.startswith(texts)), None)


def _trim(document: Any) -> None:
    """Takes the spaces before references to footnotes away, as Docutils' parser does for some writers."""
    for reference in list(document.findall(nodes.footnote_reference)):
        parent, place = reference.parent, reference.parent.index(reference)
        if place and isinstance(parent[place - 1], nodes.Text):
            trimmed = parent[place - 1].rstrip()
            parent[place - 1 : place] = [nodes.Text(trimmed)] if trimmed else []


def _note(element: Any, document: Any) -> None:
    """Enters an element into the tables of its document."""
    attributes, tag = element.attributes, element.tagname
    ids, names = attributes["ids"], attributes["names"]
    for one in ids:
        document.ids[one] = element
    if tag == "system_message":
        attributes["source"] = document["source"]
    elif tag == "substitution_definition":
        for name in names:
            document.substitution_defs[name] = element
            document.substitution_names[nodes.fully_normalize_name(name)] = name
        return
    if names or attributes["dupnames"]:
        _note_names(element, ids, names, attributes["dupnames"], document)
    if "refid" in attributes:
        document.refids.setdefault(attributes["refid"], []).append(element)
    if tag in _LABELLED:
        kind = (tag, attributes.get("auto"))
        if kind in _LISTS:
            getattr(document, _LISTS[kind]).append(element)
        elif kind in _LABELS:
            getattr(document, _LABELS[kind]).setdefault(nodes.fully_normalize_name(element.astext()), []).append(element)


def _note_names(element: Any, ids: list[str], names: list[str], dupnames: list[str], document: Any) -> None:
    """Enters the names of an element into the tables of its document; the target of an alias has a name but no id, and isn't in them."""
    title = _title(element)
    for place, name in enumerate(names if ids else ()):
        own = ids[place] if len(ids) == len(names) else nodes.make_id(name)
        document.nameids[name] = own if own in ids else ids[0]
        document.nametypes[name] = name != title or name in dupnames
    for name in dupnames:
        document.nameids.setdefault(name, None)
        document.nametypes.setdefault(name, name != title)


def _title(element: Any) -> str | None:
    """The name that an element has by its title, if it is one that has a title."""
    if element.tagname in ("section", "document"):
        element = element.children[0]
    elif element.tagname != "subtitle":
        return None
    name: str = nodes.fully_normalize_name(element.astext())
    return name
