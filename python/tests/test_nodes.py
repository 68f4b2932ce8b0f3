#!/usr/bin/env python3
"""Tests that nodes made from records by the module in C are those made from JSON; pytest runs them, and so does python3 by itself."""

import collections
import copy
import gc
import os
import random
import struct
import subprocess
import sys
import tracemalloc
import unittest
import unittest.mock
import weakref

import cases

from docutils import frontend, nodes
from docutils.readers import standalone

import rst2pseudoxml
from rst2pseudoxml import LIBRARY, _nodes, called
from rst2pseudoxml.docutils import Parser, _defaults, doctree

TEXT = "Title\n=====\n\nA *word*, a link_ and [1]_ with \u00e9.\n\n- an item\n\n.. [1] a\n.. _link: https://x.org/\n.. image:: a.png\n   :scale: 50\n"
DEFAULTS = frontend.get_default_settings(Parser, standalone.Reader)
DEFAULTS.warning_stream = False
DEFAULTS.halt_level = 5
SOURCE = "a name of a source"
VARIABLES = {**os.environ, "PYTHONPATH": os.pathsep.join(sys.path)}
# Lets each allocation of a call fail in turn. Prints how many calls failed, and how many nodes the others made.
FAILING = """
import _testcapi, sys
from docutils import nodes
from rst2pseudoxml import LIBRARY, _nodes, called
records = bytes(called(LIBRARY.rst_records, sys.argv[1], {})[0])
failed, made = 0, set()
for number in range(1, 1000):
    given = {}, vars(nodes), nodes.Element, nodes.Text, "x", []
    try:
        _testcapi.set_nomemory(number, number + 1)
        try:
            found = _nodes._records.nodes(records, None, *given)
        finally:
            _testcapi.remove_mem_hooks()
        made.add(len(found))
    except MemoryError:
        failed += 1
print(failed, *made)
"""


def described(value, numbers):
    """All that a value has, in its order. A node is described where it is met first, and is its number in `numbers` from then on."""
    if isinstance(value, nodes.Node):
        if id(value) in numbers:
            return numbers[id(value)]
        numbers[id(value)] = len(numbers)
        return type(value), str(value) if isinstance(value, str) else None, described(vars(value), numbers)
    if isinstance(value, dict):
        return type(value), [(name, described(one, numbers)) for name, one in value.items()]
    if isinstance(value, (list, tuple)):
        return type(value), [described(one, numbers) for one in value]
    return type(value), value if isinstance(value, (str, int)) else None


@unittest.skipUnless(_nodes._records, "there is no module in C")
class BesideJson(unittest.TestCase):
    def made(self, module, data, profile):
        """The document and its tables, with this module in the place of that in C; or why there is none."""
        with unittest.mock.patch.object(_nodes, "_records", module):
            try:
                return described(doctree(data, copy.copy(DEFAULTS), profile=profile), {})
            except rst2pseudoxml.Refused as refused:
                return str(refused)

    def same(self, documents, profile="docutils"):
        """How many documents there are, all the same both ways."""
        count = 0
        for name, data in documents:
            with self.subTest(name):
                made = self.made(_nodes._records, data, profile)
                self.assertEqual(made, self.made(None, data, profile))
                count += not isinstance(made, str)
        return count

    def test_rows(self):
        self.assertGreater(self.same(((name, data) for name, _, data in cases.rows()), "base"), 70)
        self.assertGreater(self.same((name, text) for name, text, *_ in (*cases.WIDER, *cases.SAME)), 40)

    def test_mutated_documents(self):
        self.assertGreater(self.same((name, data) for name, _, data in cases.mutated(500)), 400)

    def test_pages(self):
        self.same((name, data) for name, _, data in cases.pages(50))

    def test_lists_are_own(self):
        elements = list(doctree(TEXT).findall(nodes.Element))
        lists = [value for element in elements for value in (element.children, *element.attributes.values()) if isinstance(value, list)]
        self.assertEqual(len(lists), 6 * len(elements))
        self.assertEqual(len({id(one) for one in lists}), len(lists))

    def test_differences_are_found(self):
        document = doctree(TEXT)
        whole = described(document, {})
        self.assertEqual(described(doctree(TEXT), {}), whole)
        paragraph = next(document.findall(nodes.paragraph))
        for change in (
            lambda: setattr(paragraph, "line", "4"),
            lambda: setattr(paragraph, "other", None),
            lambda: setattr(paragraph[0], "parent", document),
            lambda: paragraph.attributes.update(ids=paragraph.attributes.pop("ids")),
            lambda: paragraph.children.reverse(),
            lambda: document.nameids.clear(),
        ):
            change()
            self.assertNotEqual(described(document, {}), whole)
            whole = described(document, {})


@unittest.skipUnless(_nodes._records, "there is no module in C")
class Records(unittest.TestCase):
    def setUp(self):
        self.records = bytes(called(LIBRARY.rst_records, TEXT, {})[0])

    def nodes_of(self, records, **other):
        given = {"attributes": {}, "classes": vars(nodes), "element": nodes.Element, "text": nodes.Text, "source": SOURCE, "noted": [], **other}
        return _nodes._records.nodes(records, None, *given.values())

    def test_fronts(self):
        self.assertEqual([node.tagname for node in self.nodes_of(self.records)], "title paragraph bullet_list footnote target image".split())
        for length in range(len(self.records)):
            with self.assertRaises(ValueError):
                self.nodes_of(self.records[:length])

    def test_any_bytes(self):
        rng = random.Random(1)
        ends = collections.Counter()
        for _ in range(20_000):
            records = bytearray(self.records)
            for _ in range(rng.randint(1, 4)):
                records[rng.randrange(len(records))] = rng.choice((0, 1, 2, 8, 255, rng.randrange(256)))
            try:
                ends[type(self.nodes_of(bytes(records)))] += 1
            except (ValueError, KeyError) as wrong:
                ends[type(wrong)] += 1
        self.assertEqual(set(ends), {list, ValueError, KeyError, UnicodeDecodeError})

    def test_wrong_arguments(self):
        for other in (
            {"attributes": []},
            {"classes": None},
            {"element": "Element"},
            {"text": nodes.Element},
            {"text": "Text"},
            {"noted": ()},
        ):
            with self.assertRaises(TypeError):
                self.nodes_of(self.records, **other)
        for records in (bytearray(self.records), "a", None):
            with self.assertRaises(TypeError):
                self.nodes_of(records)
        for classes in ({}, {**vars(nodes), "paragraph": int}, {**vars(nodes), "paragraph": "a"}):
            with self.assertRaises(KeyError):
                self.nodes_of(self.records, classes=classes)

    def test_too_deep(self):
        head = struct.pack("<BQQ6sQ", 1, 0, 6, b"inline", 0)
        depth = 200_000
        records = b"".join(struct.pack("<Q", len(head) + (8 + len(head)) * inner) + head for inner in reversed(range(depth)))
        with self.assertRaises(RecursionError):
            self.nodes_of(records)
        self.assertEqual(len(self.nodes_of(records[-50 * (8 + len(head)) :])), 1)

    def test_references(self):
        shared = [None, "", SOURCE, 1, *self.words(), *(getattr(nodes, name) for name in ("Text", "paragraph", "image", "footnote"))]
        self.made_often(100)
        tracemalloc.start()
        self.addCleanup(tracemalloc.stop)
        counts = [sys.getrefcount(one) for one in shared]
        self.made_often(1000)
        for one, count in zip(shared, counts):
            self.assertLess(abs(sys.getrefcount(one) - count), 100, one)
        self.assertLess(tracemalloc.get_traced_memory()[0], 50_000)

    def words(self):
        """The texts that nodes have in common."""
        node = self.nodes_of(self.records)[0]
        return [*vars(node), *node.attributes, node.tagname]

    def made_often(self, count):
        """Makes nodes and gives them up, also of records that end too early and of an attribute whose second text does."""
        texts = struct.pack("<Q3sBQ1sQ1s", 3, b"ids", 2, 1, b"a", 9, b"b")
        element = struct.pack("<BQQ6sQQ", 1, 0, 6, b"inline", 8 + len(texts), len(texts)) + texts
        document = struct.pack("<BQQ8sQQ", 1, 0, 8, b"document", 0, len(element)) + element
        for number in range(count):
            self.nodes_of(self.records)
            for wrong in (self.records[: number % len(self.records)], struct.pack("<Q", len(document)) + document):
                with self.assertRaises(ValueError):
                    self.nodes_of(wrong)
        gc.collect()

    def test_failed_allocations(self):
        run = subprocess.run([sys.executable, "-c", FAILING, TEXT], env=VARIABLES, stdout=subprocess.PIPE, stderr=subprocess.PIPE, text=True)
        if "No module named '_testcapi'" in run.stderr:
            self.skipTest("this Python can't refuse memory")
        self.assertEqual((run.returncode, run.stderr), (0, ""))
        failed, *made = map(int, run.stdout.split())
        self.assertGreater(failed, 100)
        self.assertEqual(made, [len(self.nodes_of(self.records))])


class Settings(unittest.TestCase):
    def test_own(self):
        one, other = doctree("a").settings, doctree("a").settings
        self.assertEqual((type(one), vars(one)), (type(DEFAULTS), vars(_defaults())))
        one.tab_width = 4
        self.assertEqual(other.tab_width, 8)


class Collector(unittest.TestCase):
    def test_as_it_was(self):
        for module in {_nodes._records, None}:
            for switch, enabled in ((gc.disable, False), (gc.enable, True)):
                switch()
                with unittest.mock.patch.object(_nodes, "_records", module):
                    doctree(TEXT)
                    self.assertEqual(gc.isenabled(), enabled)
                    with unittest.mock.patch.object(_nodes, "_note", side_effect=MemoryError), self.assertRaises(MemoryError):
                        doctree(TEXT)
                    self.assertEqual(gc.isenabled(), enabled)

    def test_documents_are_freed(self):
        gc.collect()
        document = doctree(TEXT)
        paragraph = next(document.findall(nodes.paragraph))
        paragraph["own"] = [paragraph]
        found = weakref.ref(paragraph)
        del document, paragraph
        self.assertIsNotNone(found())
        gc.collect()
        self.assertIsNone(found())


if __name__ == "__main__":
    unittest.main()
