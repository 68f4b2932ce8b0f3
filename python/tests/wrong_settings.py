"""Calls that a type checker has to refuse, in each line with a comment; test_types.py looks whether it does. Nothing runs this file."""

from rst2pseudoxml import Message, Node, Settings, json, messages, pseudoxml, tree
from rst2pseudoxml.testing import assert_tree

pseudoxml("text", report="info", halt=5, no_doc_title=True, tab_width=4, line_length_limit=80, source="page.rst")
pseudoxml(b"text")
json(bytearray(b"text"))
tree(memoryview(b"text"), report=1)
settings: Settings = {"report": "info", "no_doc_info": True, "profile": "docutils"}
found: list[Message] = messages("text", **settings)
inside: tuple[Node | str, ...] = tree("text").children

pseudoxml("text", loud=True)  # no such setting
messages("text", level="info")  # no such setting
json("text", source="page.rst")  # no such setting
tree("text", tab_width="4")  # a number
pseudoxml("text", line_length_limit=1.5)  # a whole number
pseudoxml("text", no_doc_title="no")  # True or False
pseudoxml("text", report=["info"])  # a level
messages("text", source=1)  # a str
tree("text", profile=1)  # a str
pseudoxml(1)  # a text
pseudoxml(None)  # a text
assert_tree("text", "tree", tabs=4)  # no such setting
wrong: Settings = {"reports": "info"}  # no such setting
count: int = messages("text")  # a list
