#!/usr/bin/env python3
"""Tests the calls of the package beside the program; pytest runs them, and so does python3 by itself."""

import doctest
import gc
import json
import pickle
import re
import resource
import subprocess
import sys
import threading
import unittest
from ctypes import byref, c_char

import cases

import rst2pseudoxml
from rst2pseudoxml import Message, Node, Refused, messages, pseudoxml, tree

HELLO = '<document source="<stdin>">\n    <paragraph>\n        Hello\n'


def shown(node, level=0):
    """A tree as the program prints it."""
    indent = "    " * level
    if isinstance(node, str):
        return "".join(f"{indent}{line}\n" for line in node.removesuffix("\n").split("\n"))
    attributes = dict(node.attributes)
    if node.tag in ("document", "system_message"):
        attributes["source"] = "<stdin>"
    parts = [node.tag]
    for name, value in sorted(attributes.items()):
        if isinstance(value, list):
            value = " ".join(one.replace("\\", "\\\\").replace(" ", "\\ ") for one in value)
        parts.append(f'{name}="{value}"')
    return f"{indent}<{' '.join(parts)}>\n" + "".join(shown(child, level + 1) for child in node.children)


def written(message):
    """A message as the program writes it."""
    block = "" if message.block is None else f"\n{message.block}\n"
    return f"{message.file}:{message.line}: ({message.type}/{message.level}) {message.text}\n{block}"


class BesideTheProgram(unittest.TestCase):
    def same(self, settings, data, out, err, status):
        if status == 2:
            with self.assertRaises(ValueError) as wrong:
                pseudoxml(data, **settings)
            self.assertEqual(f"{wrong.exception}\n", err)
        elif status in cases.SHOWN:
            self.assertEqual(pseudoxml(data, **settings), out)
            self.assertEqual(shown(tree(data, **settings)), out)
            self.assertEqual("".join(map(written, messages(data, **settings))), err)
        else:
            with self.assertRaises(Refused) as refused:
                pseudoxml(data, **settings)
            line = f"{refused.exception}\n"
            if refused.exception.kind == "halted":
                line = "".join(map(written, messages(data, **settings))) + line
            self.assertEqual(line, err)
        return status

    def all_same(self, documents):
        statuses = []
        for name, settings, data, answer in cases.cases(documents):
            with self.subTest(name):
                statuses.append(self.same(settings, data, *answer))
        return statuses

    def test_rows(self):
        self.assertLess({0, 1, 2}, set(self.all_same(cases.rows())))

    def test_mutated_documents(self):
        self.assertLess({0, 1, 12}, set(self.all_same(cases.mutated(1000))))

    def test_pages(self):
        self.all_same(cases.pages(100))

    def test_profiles(self):
        for name, text, expected, err in cases.WIDER:
            answer = cases.printed([], text.encode())
            self.assertNotEqual(answer[0], expected)
            for settings, wanted in ({}, answer), ({"profile": "base"}, answer), ({"profile": "docutils"}, (expected, err, 0)):
                with self.subTest(name, **settings):
                    self.same(settings, text.encode(), *wanted)
        for name, text in cases.SAME:
            for profile in "base", "docutils":
                with self.subTest(name, profile=profile):
                    self.same({"profile": profile}, text.encode(), *cases.printed([], text.encode()))


class Values(unittest.TestCase):
    def test_text_and_bytes(self):
        self.assertEqual(pseudoxml("Grüße"), HELLO.replace("Hello", "Grüße"))
        self.assertEqual(pseudoxml("Grüße".encode()), HELLO.replace("Hello", "Grüße"))
        with self.assertRaises(UnicodeEncodeError):
            pseudoxml("\ud800")

    def test_source(self):
        self.assertEqual(pseudoxml("Hello", source="ä.rst"), HELLO.replace("<stdin>", "ä.rst"))
        self.assertEqual([message.file for message in messages("*a", source="ä.rst")], ["ä.rst"])

    def test_tree(self):
        text = Node("emphasis", {}, ("b",), 2)
        self.assertEqual(tree("\na *b*"), Node("document", {}, (Node("paragraph", {}, ("a ", text), 2),), 0))
        with self.assertRaises(AttributeError):
            text.tag = "strong"

    def test_json(self):
        self.assertEqual(json.loads(rst2pseudoxml.json('"a\\\\')), ["document", 0, {}, ["paragraph", 1, {}, '"a\\']])

    def test_messages(self):
        message = Message("<stdin>", 1, 3, "ERROR", 'Unknown directive type "a".', ".. a::")
        self.assertEqual(messages(".. a::\n\n*b"), [message, Message("<stdin>", 3, 2, "WARNING", messages("*b")[0].text)])
        self.assertEqual(messages(".. a::\n\n*b", report="error"), [message])
        self.assertEqual(messages(".. a::\n\n*b", halt=3), [message])

    def test_levels(self):
        for level in ("error", 3, "3"):
            self.assertEqual(messages("*a", report=level), [])

    def test_kinds_of_bytes(self):
        for given in (bytearray(b"Hello"), memoryview(b"Hello"), memoryview(b"H-e-l-l-o")[::2]):
            self.assertEqual(pseudoxml(given), HELLO)
            self.assertEqual(messages(given), [])
        self.assertEqual(tree(bytearray(b"Hello")), tree("Hello"))

    def test_wrong_settings(self):
        wrong = [("report", "loud"), ("halt", 0), ("halt", 6), ("tab_width", 0), ("tab_width", 256 + 8), ("line_length_limit", 2**24 + 1)]
        for name, value in wrong:
            with self.subTest(name), self.assertRaises(ValueError):
                pseudoxml("a", **{name: value})
        for profile in "", "wide", "BASE", "1":
            for call in (pseudoxml, tree, rst2pseudoxml.json, messages):
                with self.subTest(profile), self.assertRaises(ValueError) as wrong:
                    call("a", profile=profile)
                self.assertEqual(str(wrong.exception), 'rst2pseudoxml: bad profile: it has to be "base" or "docutils"')

    def test_other_names_and_types(self):
        levels = '"info", "warning", "error", "severe", "none" or 1 to 5'
        for settings, said in (
            ({"report": ["info"]}, f"report has to be {levels}, not of the type list"),
            ({"halt": 2.0}, f"halt has to be {levels}, not of the type float"),
            ({"exit_status": True}, f"exit_status has to be {levels}, not of the type bool"),
            ({"no_doc_title": 1}, "no_doc_title has to be True or False, not of the type int"),
            ({"no_doc_info": "no"}, "no_doc_info has to be True or False, not of the type str"),
            ({"tab_width": "4"}, "tab_width has to be an int, 1 to 99, not of the type str"),
            ({"line_length_limit": None}, "line_length_limit has to be an int, 1 to 16,777,216, not of the type NoneType"),
            ({"profile": 1}, 'profile has to be "base" or "docutils", not of the type int'),
            (
                {"loud": True},
                "there is no setting 'loud'; the settings are report, halt, exit_status, no_doc_title, no_doc_info, tab_width, line_length_limit, "
                "profile",
            ),
        ):
            for call in (pseudoxml, tree, rst2pseudoxml.json, messages):
                with self.subTest(said), self.assertRaises(TypeError) as wrong:
                    call("a", **settings)
                self.assertEqual(str(wrong.exception), said)
        for call in (pseudoxml, tree, rst2pseudoxml.json, messages):
            with self.assertRaises(TypeError) as wrong:
                call(1)
            self.assertEqual(str(wrong.exception), "the text has to be a str, bytes, a bytearray or a memoryview, not of the type int")
        for call in (pseudoxml, messages):
            with self.assertRaises(TypeError) as wrong:
                call("a", source=b"x")
            self.assertEqual(str(wrong.exception), "source has to be a str, not of the type bytes")

    def test_refusals(self):
        for text, kind, place, line in (
            (b"a\xff", "not UTF-8", 1, "rst2pseudoxml: not UTF-8 at byte 1"),
            ("b\n\n" + "- " * 251 + "a", "too deep", 3, "rst2pseudoxml: line 3: nesting too deep"),
            (b"\n" * (2**24 + 1), "too long", None, "rst2pseudoxml: input too long"),
            ("b\n\n- One\n  ===\n", "halted", 4, "Exiting due to level-4 (SEVERE) system message."),
        ):
            for call in (pseudoxml, tree, rst2pseudoxml.json):
                with self.subTest(kind), self.assertRaises(Refused) as refused:
                    call(text)
                one = pickle.loads(pickle.dumps(refused.exception))
                self.assertEqual((one.kind, one.place, str(one)), (kind, place, line))


class Records(unittest.TestCase):
    """The walk that docs/LIBRARY.md shows."""

    def records(self, data):
        entry = rst2pseudoxml.LIBRARY.rst_records
        entry.argtypes, entry.restype = rst2pseudoxml.LIBRARY.rst_json.argtypes, None
        room, result = bytearray(100 * len(data) + 4096), rst2pseudoxml._Result()
        entry(data, len(data), rst2pseudoxml._options(halt="none"), byref(c_char.from_buffer(room)), len(room), result)
        self.assertEqual(result.end, 0)
        self.assertLessEqual(result.length, len(room))
        return bytes(memoryview(room)[: result.length])

    def test_walk(self):
        walk, shown_trees = {}, 0
        page = (cases.TOP / "docs/LIBRARY.md").read_text(encoding="utf-8")
        exec(re.search("### A walk in Python\n.*?```python\n(.*?)```", page, re.DOTALL)[1], walk)
        for name, _, data in cases.mutated(200):
            try:
                found = rst2pseudoxml.json(data, halt="none")
            except Refused:
                continue
            records = self.records(data)
            with self.subTest(name):
                self.assertEqual(list(walk["nodes"](records, 0, len(records))), [json.loads(found)])
            shown_trees += 1
        self.assertGreater(shown_trees, 100)


class WiderPage(unittest.TestCase):
    """What docs/profile/wider.md shows."""

    def test_examples(self):
        page = (cases.TOP / "docs/profile/wider.md").read_text(encoding="utf-8")
        examples = "\n".join(re.findall("```pycon\n(.*?)```", page, re.DOTALL))
        examples = re.sub("(?m)^ +$", "<BLANKLINE>", examples)  # for a doctest, a line of spaces alone is the end of what is printed
        test = doctest.DocTestParser().get_doctest(examples, {}, "wider.md", None, None)
        self.assertGreater(len(test.examples), 2)
        said = []
        doctest.DocTestRunner(verbose=False).run(test, out=said.append)
        self.assertEqual("".join(said), "")


class Calls(unittest.TestCase):
    def test_threads(self):
        texts = [f"{'=' * 9}\nTitle {number}\n{'=' * 9}\n\n" + f"- *{number}* `a\n" * number for number in range(40)]
        wanted = [(pseudoxml(text), tree(text)) for text in texts]
        found = {}

        def work(first):
            for turn in range(400):
                number = (first + turn) % len(texts)
                found[first, turn] = (pseudoxml(texts[number]), tree(texts[number])) == wanted[number]

        threads = [threading.Thread(target=work, args=(first,)) for first in range(8)]
        for thread in threads:
            thread.start()
        for thread in threads:
            thread.join()
        self.assertEqual((len(found), all(found.values())), (3200, True))

    def test_collector(self):
        """It runs a few times for a large tree, where without a pause it runs hundreds of times; after a call it is as it was."""
        runs = []

        def count(phase, _):
            runs.append(phase)

        text = "- a\n" * 50_000
        gc.callbacks.append(count)
        self.addCleanup(gc.callbacks.remove, count)
        self.assertTrue(gc.isenabled())
        made = tree(text)
        self.assertLess(len(runs), 20)
        self.assertEqual((gc.isenabled(), len(made.children[0].children)), (True, 50_000))
        with self.assertRaises(Refused):
            tree(b"\xff")
        self.assertTrue(gc.isenabled())
        gc.disable()
        self.addCleanup(gc.enable)
        tree("a")
        self.assertFalse(gc.isenabled())

    def test_memory(self):
        """In a process of its own, whose memory no other test has used."""
        self.assertLess(int(subprocess.run([sys.executable, __file__, "grown"], stdout=subprocess.PIPE, check=True).stdout), 500)


def grown():
    """The KB by which the memory grew between the first thousand calls and twenty thousand."""
    text = "Title\n=====\n\n- *one* `two\n\n.. note:: b_\n\n" + "Some text.\n" * 100

    def most(calls):
        for _ in range(calls // 4):
            pseudoxml(text), tree(text), messages(text), rst2pseudoxml.json(text)
        gc.collect()
        return resource.getrusage(resource.RUSAGE_SELF).ru_maxrss

    before = most(1000)
    return most(19_000) - before


if __name__ == "__main__":
    if sys.argv[1:] == ["grown"]:
        print(grown())
    else:
        unittest.main()
