#!/usr/bin/env python3
"""Tests documents of Docutils beside the program and beside Docutils' own parser; pytest runs them, and so does python3 by itself."""

import collections
import importlib.util
import io
import os
import pathlib
import re
import subprocess
import sys
import tempfile
import threading
import unittest

import cases

import docutils.core
import docutils.utils
from docutils import frontend, nodes
from docutils.parsers.rst import roles
from docutils.transforms import universal

import rst2pseudoxml
from rst2pseudoxml.docutils import Parser, doctree

SETTINGS = {
    "_disable_config": True,
    "halt_level": 5,
    "warning_stream": False,
    "syntax_highlight": "none",
    "file_insertion_enabled": False,
    "output_encoding": "unicode",
    "use_latex_citations": False,
    "legacy_column_widths": True,
}
TABLES = (
    "nameids nametypes footnotes autofootnotes symbol_footnotes autofootnote_refs symbol_footnote_refs citations citation_refs "
    "substitution_defs substitution_names"
).split()
PAGE = """
Title
=====

:Author: me

.. _here:

First
-----

*a* [1]_ [#]_ [#x]_ [*]_ [C]_ here_ `u <http://x.org/>`_ anonymous__ |s| _`in`

__ http://y.org/

.. [1] one
.. [#] two
.. [#x] three
.. [*] four
.. [C] five
.. |s| image:: s.png
   :scale: 50

3. a

   +---+---+
   | a     |
   +---+---+
   | b | c |
   +---+---+

.. note:: *d

   ::

     e

First
-----

.. foo:: bar

x
"""


def published(text, writer, parser=None, **settings):
    roles._roles.clear()  # those that a document defines last as long as the process
    return docutils.core.publish_string(text, "<stdin>", parser=parser, writer_name=writer, settings_overrides={**SETTINGS, **settings})


def written(document):
    """The tree of a document as a writer prints it."""
    for transform in (universal.Messages, universal.FilterMessages):
        transform(document).apply()
    return document.pformat()


def settings_of(given):
    """The settings of Docutils that settings of a call are."""
    settings = frontend.get_default_settings(Parser, docutils.readers.standalone.Reader)
    for ours, theirs in (("report", "report_level"), ("halt", "halt_level")):
        if ours in given:
            setattr(settings, theirs, rst2pseudoxml.LEVELS[given[ours]])
    for ours, theirs in (("no_doc_title", "doctitle_xform"), ("no_doc_info", "docinfo_xform")):
        setattr(settings, theirs, not given.get(ours))
    for name in {"tab_width", "line_length_limit"} & set(given):
        setattr(settings, name, given[name])
    settings.warning_stream = io.StringIO()
    return settings


def named(value):
    """What tables hold, with the tags and ids of elements in their place. The source text of a message may end in a line feed in Docutils."""
    if isinstance(value, nodes.Element):
        return value.tagname, value["ids"], re.sub("\n(?=\n\n|\\Z)", "", value.astext())
    if isinstance(value, dict):
        return {name: named(one) for name, one in value.items()}
    return [named(one) for one in value] if isinstance(value, list) else value


def listed(messages):
    """What lists of messages hold, and whether each message is in a document."""
    return [(message.parent is None, message.pformat()) for message in messages]


def kept(document):
    """The elements in a document and in the messages beside it. Docutils' tables also have some of texts that it reads twice."""
    return [element for whole in (document, *document.transform_messages) for element in whole.findall(nodes.Element)]


def typed(element):
    """The attributes of an element, with their types."""
    return sorted((name, type(value).__name__, value) for name, value in element.attributes.items())


class BesideTheProgram(unittest.TestCase):
    def same(self, given, data, out, err, status):
        """Whether a tree was compared."""
        if status == 2:  # the tests of the calls see to it
            return False
        settings = settings_of(given)
        if status in cases.SHOWN:
            document = doctree(data, settings, profile="base")
            if "\0" not in out:  # a mark of Docutils' own, which it leaves out of texts
                self.assertEqual(written(document), out)
            # in the order of the tree
            self.assertEqual(sorted(settings.warning_stream.getvalue().split()), sorted(err.split()))
            highest = max((message.level for message in rst2pseudoxml.messages(data, **{**given, "report": 1})), default=-1)
            self.assertEqual(document.reporter.max_level, highest)
            return True
        with self.assertRaises((rst2pseudoxml.Refused, docutils.utils.SystemMessage)) as refused:
            doctree(data, settings, profile="base")
        if isinstance(refused.exception, docutils.utils.SystemMessage):
            shown, _, last = err.rstrip("\n").rpartition("\n")
            self.assertEqual(settings.warning_stream.getvalue().rstrip("\n"), shown.rstrip("\n"))
            self.assertTrue(last.startswith(f"Exiting due to level-{refused.exception.level} "))
        else:
            self.assertEqual(f"{refused.exception}\n", err)
        return False

    def all_same(self, documents):
        count = 0
        for name, given, data, answer in cases.cases(documents):
            with self.subTest(name):
                count += self.same(given, data, *answer)
        return count

    def test_rows(self):
        self.assertGreater(self.all_same(cases.rows()), 70)

    def test_mutated_documents(self):
        self.assertGreater(self.all_same(cases.mutated(1700)), 1000)

    def test_pages(self):
        self.all_same(cases.pages(300))


class BesideItsOwnParser(unittest.TestCase):
    """Where the trees with all messages are the same, so is all else."""

    def counted(self, documents):
        """How many trees are the same, and how many aren't. Pages are made of the first hundred."""
        count = collections.Counter()
        for number, (name, _, data) in enumerate(documents):
            text = data.decode("utf-8", "replace")
            try:
                theirs = published(text, "pseudoxml", report_level=1)
            except (LookupError, RecursionError):  # some make Docutils raise these
                continue
            with self.subTest(name):
                same = published(text, "pseudoxml", Parser(), report_level=1) == theirs
                count[same] += 1
                if same:
                    self.same_documents(text)
                if same and number < 100:  # a tree doesn't show whether a text ends in a line feed
                    self.assertEqual(*(published(text, "html5", parser).replace("\n</pre>", "</pre>") for parser in (None, Parser())))
        return count

    def same_documents(self, text):
        roles._roles.clear()
        theirs = docutils.core.publish_doctree(text, settings_overrides=SETTINGS)
        ours = doctree(text, theirs.settings.copy(), theirs["source"])
        self.assertEqual(ours.pformat(), theirs.pformat())
        self.assertEqual(listed(ours.transform_messages), listed(theirs.transform_messages))
        of_parser = listed(set(kept(theirs)) & set(theirs.parse_messages))
        self.assertEqual(sorted(listed(ours.parse_messages)), sorted(of_parser))  # ours are in the order of the document
        for table in TABLES:
            self.assertEqual(named(getattr(ours, table)), named(getattr(theirs, table)), table)
        self.assertEqual(set(ours.ids), set(theirs.ids) & {one for element in kept(theirs) for one in element["ids"]})
        for one, other in zip(ours.findall(nodes.Element), theirs.findall(nodes.Element)):
            self.assertEqual(typed(one), typed(other))

    def test_rows(self):
        self.assertGreater(self.counted(cases.rows())[True], 70)

    def test_mutated_documents(self):
        short = ((name, words, data) for name, words, data in cases.mutated(1500) if len(data) < 5000)
        self.assertGreater(self.counted(short)[True], 1000)

    def test_pages(self):
        self.counted((name, words, data) for name, words, data in cases.pages(20) if len(data) < 10_000)


class Profiles(unittest.TestCase):
    """By default what a wider profile has is read as by Docutils' own parser."""

    def test_wider(self):
        for name, text, tree, _ in cases.WIDER:
            with self.subTest(name):
                self.assertEqual(published(text, "pseudoxml"), tree)
                for parser in Parser(), Parser(profile="docutils"):
                    self.assertEqual(published(text, "pseudoxml", parser), tree)
                self.assertEqual(written(doctree(text, settings_of({}))), tree)
                base = rst2pseudoxml.pseudoxml(text)
                self.assertNotEqual(base, tree)
                self.assertEqual(published(text, "pseudoxml", Parser(profile="base")), base)
                self.assertEqual(written(doctree(text, settings_of({}), profile="base")), base)

    def test_same(self):
        for name, text in cases.SAME:
            with self.subTest(name):
                self.assertEqual(doctree(text, settings_of({})).pformat(), doctree(text, settings_of({}), profile="base").pformat())

    def test_wrong(self):
        for call in (lambda profile: Parser(profile=profile), lambda profile: doctree("a", profile=profile)):
            with self.assertRaises(ValueError) as wrong:
                call("wide")
            self.assertEqual(str(wrong.exception), 'rst2pseudoxml: bad profile: it has to be "base" or "docutils"')
            with self.assertRaises(TypeError):
                call(1)


class Documents(unittest.TestCase):
    def test_other_writers(self):
        text = PAGE.replace(".. foo:: bar", "").replace("3. a", "1. a")
        for writer in ("latex", "xml", "html4css1", "manpage"):
            with self.subTest(writer):
                self.assertEqual(published(text, writer, Parser()), published(text, writer))

    def test_own_document_is_published(self):
        document = doctree(PAGE, settings_of({"report": "none"}))
        page = docutils.core.publish_from_doctree(document, writer_name="html5", settings_overrides=SETTINGS)
        self.assertIn('<h1 class="title">Title</h1>', page)

    def test_lines_and_sources(self):
        document = doctree("a\n\n- b\n\n  *c*\n", source="x.rst")
        found = [(node.tagname, node.line, node.source) for node in document.findall(nodes.TextElement)]
        self.assertEqual(found, [("paragraph", 1, "x.rst"), ("paragraph", 3, "x.rst"), ("paragraph", 5, "x.rst"), ("emphasis", 5, "x.rst")])
        self.assertIs(next(document.findall(nodes.emphasis)).document, document)

    def test_tables(self):
        document = doctree(PAGE, settings_of({"report": 1, "halt": 5}))
        for element in document.findall(nodes.Element):
            for one in element["ids"]:
                self.assertIs(document.ids[one], element)
            self.assertTrue(all(child.parent is element for child in element.children))
        self.assertEqual(document.nameids["here"], "here")
        self.assertIsNone(document.nameids["first"])
        self.assertEqual((document.nametypes["here"], document.nametypes["first"], document.nametypes["title"]), (True, False, False))
        self.assertEqual([node.tagname for node in document.refids["here"]], ["target", "reference"])
        self.assertEqual(document.parse_messages, list(document.findall(nodes.system_message)))

    def test_messages_of_transforms(self):
        text = "A |b| and c_.\n\nd. e\n"
        for level, shown in ((1, 3), (2, 2), (5, 0)):
            settings = settings_of({"report": level})
            document = doctree(text, settings)
            self.assertEqual([message["level"] for message in document.transform_messages], [3, 3])
            self.assertEqual([message["level"] for message in document.parse_messages], [1])
            self.assertEqual([element.tagname for element in document], ["paragraph", "enumerated_list", "system_message"])
            self.assertEqual(settings.warning_stream.getvalue().count("<stdin>:"), shown)
            self.assertEqual(written(document).count("<system_message "), shown)

    def test_settings_of_transforms(self):
        self.assertEqual(doctree("A\n=\n\nb", settings_of({"no_doc_title": True}))[0].tagname, "section")
        self.assertIn("“a”", published('"a"', "pseudoxml", Parser(), smart_quotes=True))
        text = 'A\n=\n\nB\n=\n\nC\n-\n\n.. c\n\n"d"\n'
        plain = doctree(text).pformat()
        for setting, value in (
            ("datestamp", "%C"),
            ("expose_internals", ["tagname"]),
            ("generator", True),
            ("sectsubtitle_xform", True),
            ("smart_quotes", True),
            ("source_url", "http://x.org"),
            ("strip_comments", True),
        ):
            theirs = docutils.core.publish_doctree(text, "<stdin>", settings_overrides={**SETTINGS, setting: value})
            self.assertEqual(doctree(text, theirs.settings.copy(), "<stdin>").pformat(), theirs.pformat())
            self.assertNotEqual(theirs.pformat(), plain, setting)
        self.assertNotIn("comment", published(".. a\n\nb", "pseudoxml", Parser(), strip_comments=True))
        self.assertIn('title="T"', published("a", "pseudoxml", Parser(), title="T"))
        text = "A\n=\n\nB\n=\n\nC\n-\n\nd"
        self.assertEqual(*(published(text, "pseudoxml", parser, sectsubtitle_xform=True) for parser in (None, Parser())))

    def test_messages_are_reported(self):
        for parser in (None, Parser()):
            stream = io.StringIO()
            with self.assertRaises(docutils.utils.SystemMessage):
                published("*a\n\n.. b::\n", "pseudoxml", parser, halt_level=3, warning_stream=stream)
            self.assertEqual(stream.getvalue().count("<stdin>:1: (WARNING/2) Inline emphasis"), 1)
            self.assertIn('<stdin>:3: (ERROR/3) Unknown directive type "b".\n\n.. b::', stream.getvalue())

    def test_threads(self):
        texts = [PAGE.replace("First", f"Number {number}") for number in range(8)]
        wanted = [doctree(text, settings_of({"report": 5})).pformat() for text in texts]
        settings = settings_of({"report": 5})
        found = []

        def work(number):
            for _ in range(50):
                found.append(doctree(texts[number], settings.copy()).pformat() == wanted[number])

        threads = [threading.Thread(target=work, args=(number,)) for number in range(len(texts))]
        for thread in threads:
            thread.start()
        for thread in threads:
            thread.join()
        self.assertEqual((len(found), all(found)), (400, True))


CONF = """
def setup(app):
    from rst2pseudoxml.docutils import Parser
    app.add_source_parser(Parser, override=True)
"""
# Names of footnotes and messages are other ones there, where the setting `auto_id_prefix` isn't Docutils' own.
SOURCES = {
    "index.rst": "Index\n=====\n\nAs of |today|, with |release|: `a link <https://example.org/>`_ and One_.\n\n.. _One: one.html\n",
    "one.rst": ":orphan:\n\nOne\n===\n\n.. note:: *A* note.\n\nPart\n----\n\n1. Text\n2. ``more``\n\nPart_\n",
    "two.rst": ":orphan:\n\nAbove\n\nTwo\n===\n\n+---+---+\n| a | b |\n+---+---+\n\n::\n\n  code\n\n:Field: x\n",
}


@unittest.skipUnless(importlib.util.find_spec("sphinx"), "there is no Sphinx")
class Sphinx(unittest.TestCase):
    def built(self, conf, **sources):
        """The pages of a project, and what Sphinx says."""
        with tempfile.TemporaryDirectory() as name:
            folder = pathlib.Path(name)
            for file, text in {**SOURCES, **sources, "conf.py": "release = '7'\n" + conf}.items():
                (folder / file).write_text(text)
            command = [sys.executable, "-m", "sphinx", "-q", "-b", "html", folder, folder / "out"]
            variables = {**os.environ, "PYTHONPATH": os.pathsep.join(sys.path), "SOURCE_DATE_EPOCH": "0"}
            run = subprocess.run(command, env=variables, stdout=subprocess.PIPE, stderr=subprocess.STDOUT, text=True)
            self.assertEqual(run.returncode, 0, run.stdout)
            pages = {path.stem: path.read_text() for path in (folder / "out").glob("*.html")}
            return pages, run.stdout.replace(name, "")

    def test_pages(self):
        pages, said = self.built(CONF)
        self.assertEqual((pages, said), self.built(""))
        self.assertIn("As of Jan 01, 1970, with 7: ", pages["index"])

    def test_undefined(self):
        pages, said = self.built(CONF, **{"one.rst": ":orphan:\n\nOne\n===\n\n|a| of |today| by |a|\n"})
        self.assertEqual(re.findall("/one.rst.*", said), ['/one.rst:6: ERROR: Undefined substitution referenced: "a".'] * 2)
        self.assertIn(" of Jan 01, 1970 by ", pages["one"])


if __name__ == "__main__":
    unittest.main()
