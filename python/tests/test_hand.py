#!/usr/bin/env python3
"""Tests what is handed back to Docutils beside its own parser; pytest runs them, and so does python3 by itself."""

import collections
import importlib.util
import io
import os
import pathlib
import re
import subprocess
import sys
import tempfile
import unittest
from unittest import mock

import cases
import hand_cases

import docutils.core
from docutils import nodes
from docutils.parsers.rst import Directive, directives, roles
from docutils.transforms import Transform

import rst2pseudoxml
from rst2pseudoxml import _names
from rst2pseudoxml import docutils as ours
from rst2pseudoxml.docutils import Parser, doctree
from rst2pseudoxml.testing import assert_tree

SETTINGS = {
    "_disable_config": True,
    "halt_level": 5,
    "report_level": 1,
    "syntax_highlight": "none",
    "output_encoding": "unicode",
    "use_latex_citations": False,
    "legacy_column_widths": True,
}
ALL = {**hand_cases.DIRECTIVES, **hand_cases.NAMES}


def published(text, parser=None, source="<stdin>", **settings):
    """The tree of a text, and what is written of messages."""
    roles._roles.clear()  # those that a document defines last as long as the process
    register()
    stream = io.StringIO()
    given = {**SETTINGS, "warning_stream": stream, **settings}
    return docutils.core.publish_string(text, source, parser=parser, writer_name="pseudoxml", settings_overrides=given), stream.getvalue()


class Box(Directive):
    """A directive that parses its content, which may hold titles, and that has an argument and an option."""

    has_content = True
    optional_arguments = 1
    final_argument_whitespace = True
    option_spec = {"titles": directives.flag}

    def run(self):
        box = nodes.container(self.block_text, classes=[f"line-{self.lineno}", f"content-{self.content_offset}", f"level-{self.state.memo.section_level}"])
        box["styles"] = repr(self.state.memo.title_styles)
        box["place"] = ":".join(map(str, self.state_machine.get_source_and_line(self.lineno)))
        box["parent"] = self.state.parent.tagname
        if self.arguments:
            text, messages = self.state.inline_text(self.arguments[0], self.lineno)
            box += nodes.rubric("", "", *text)
            box += messages
        self.state.nested_parse(self.content, self.content_offset, box, match_titles="titles" in self.options)
        return [box, self.state.document.reporter.info("boxed", line=self.lineno)]


class Here(Directive):
    """A directive that adds a target, and refers to a name."""

    required_arguments = 2

    def run(self):
        target = nodes.target(names=[self.arguments[0]])
        self.state.document.note_explicit_target(target, self.state.parent)
        reference = nodes.reference("", "there", refname=self.arguments[1], name=self.arguments[1])
        self.state.document.note_refname(reference)
        return [target, nodes.paragraph("", "", reference)]


class Counted(Transform):
    default_priority = 700

    def apply(self):
        count = len(list(self.document.findall(nodes.paragraph)))
        self.startnode.replace_self(nodes.paragraph("", f"{count} paragraphs, {self.startnode.details['of']}"))


class Count(Directive):
    """A directive with a `pending` and a transform."""

    required_arguments = 1

    def run(self):
        pending = nodes.pending(Counted, {"of": self.arguments[0]})
        self.state.document.note_pending(pending)
        return [pending]


class Refuse(Directive):
    """A directive that refuses what it is given."""

    has_content = True

    def run(self):
        raise self.severe("no") if self.content else self.error("nothing")


class Inserted(Directive):
    """A directive that adds lines to those that are read."""

    has_content = True

    def run(self):
        self.state_machine.insert_input(list(self.content), "inserted")
        return []


def shout(role, rawtext, text, lineno, inliner, options=None, content=None):
    """A role with options, which tells what it was given."""
    given = {**(options or {}), "role": role, "raw": rawtext, "given": text.replace("\0", "NUL"), "at": lineno, "parent": inliner.parent.tagname}
    message = inliner.reporter.info("shouted", line=lineno)
    if text == "wrong":
        message = inliner.reporter.error("wrong", line=lineno)
        return [inliner.problematic(rawtext, rawtext, message)], [message]
    return [nodes.strong(rawtext, text.upper(), **given)], [message] if text == "said" else []


shout.options = {"size": directives.unchanged}


def register():
    for name, made in (("box", Box), ("x:here", Here), ("count", Count), ("refuse", Refuse), ("inserted", Inserted)):
        directives.register_directive(name, made)
    roles.register_local_role("shout", shout)


class Examples(unittest.TestCase):
    def same(self, text, lowest=1, **settings):
        for hand in ("registered", "all"):
            level = 2 if hand == "registered" else lowest  # on an unknown name Docutils has an INFO more
            wanted = published(text, report_level=level, **settings)
            got = published(text, Parser(hand=hand), report_level=level, **settings)
            self.assertEqual(got[0], wanted[0], hand)
            self.assertEqual(got[1], wanted[1], hand)

    def test_directives_of_docutils(self):
        for name, text in ALL.items():
            with self.subTest(name):
                self.same(text)

    def test_extensions(self):
        for name, text in hand_cases.EXTENSIONS.items():
            with self.subTest(name):
                self.same(text)
                self.assertNotEqual(published(text, Parser())[0], published(text)[0])

    def test_settings(self):
        for given in ({"id_prefix": "x-"}, {"auto_id_prefix": "%"}, {"trim_footnote_reference_space": True}, {"doctitle_xform": False}, {"language_code": "de"}):
            for name in ("contents", "footnotes", "problematics", "titles", "in a figure"):
                with self.subTest(name, **given):
                    self.same(ALL[name], **given)

    def test_quotation_marks(self):
        self.same(hand_cases.QUOTES, smart_quotes=True)

    TRANSLATED = (nodes.field_body, nodes.field_name, nodes.label, nodes.line, nodes.paragraph, nodes.rubric, nodes.term, nodes.title)

    def test_source_texts(self):
        """What translations read is as in Docutils: source texts, and the lines of what has them."""

        def read(parser):
            document = docutils.core.publish_doctree(hand_cases.SOURCES, parser=parser, settings_overrides={**SETTINGS, "warning_stream": io.StringIO()})
            found = document.findall(lambda node: isinstance(node, self.TRANSLATED))
            return [(node.tagname, node.rawsource.rstrip(), node.tagname != "field_body" and node.line) for node in found if not isinstance(node.parent, nodes.system_message)]

        wanted = read(None)
        self.assertEqual(read(Parser(hand="registered")), wanted)
        self.assertEqual({tag for tag, *_ in wanted}, {node.__name__ for node in self.TRANSLATED})

    def test_files(self):
        with tempfile.TemporaryDirectory() as name:
            folder = pathlib.Path(name)
            (folder / "part.txt").write_text("In\n==\n\n*a* :nope:`b`\n\nDeep\n----\n\n.. role:: made\n\n.. |in| replace:: c\n")
            (folder / "more.txt").write_text(".. include:: part.txt\n\n.. default-role:: sub\n\n.. _more:\n\nd\n")
            text = "{}.. include:: part.txt\n\nbelow |in| :made:`e`\n\n{}.. include:: more.txt\n   :start-line: 0\n\n- .. include:: part.txt\n     :literal:\n\n.. _f:\n\n.. raw:: html\n   :file: part.txt\n\ng_ `h`\n"
            for above, title in (("", ""), ("A\n=\n\n", "B\n-\n\n"), ("", "In\n==\n\n"), ("A\n-\n\nB\n=\n\n", "C\n-\n\n")):
                for given in ({}, {"file_insertion_enabled": False}):
                    with self.subTest(above=above, title=title, **given):
                        self.same(text.format(above, title), 2, source=str(folder / "page.rst"), **given)

    def test_default_role(self):
        """A role that was registered as the default role counts, for one document."""
        for text, strong in (("`a` :title:`b` `c`_\n", ["A"]), (".. box::\n\n   `d`\n", ["D"]), ("e\n", []), (".. box:: f\n", [])):
            with self.subTest(text):
                register()
                roles._roles[""] = shout
                with mock.patch.object(docutils.parsers.rst.Parser, "parse", side_effect=AssertionError("Docutils reads the whole text")):
                    document = doctree(text, hand="registered")
                self.assertEqual([node.astext() for node in document.findall(nodes.strong)], strong)
                self.assertNotIn("", roles._roles)


class Beside(unittest.TestCase):
    """What is built of a parsed document is what Docutils' own parser makes, wherever the library reads a text as it does."""

    def counted(self, documents):
        count = collections.Counter()
        for name, _, data in documents:
            text = data.decode("utf-8", "replace")
            try:
                theirs = published(text, file_insertion_enabled=False)
            except (LookupError, RecursionError):  # some make Docutils raise these
                continue
            if published(text, Parser())[0] != theirs[0]:
                continue
            with self.subTest(name):
                got = self.built(text)
                count[got == theirs] += 1
                self.assertEqual(got[0], theirs[0])
        return count

    def built(self, text):
        with mock.patch.object(ours, "_HANDED", re.compile("")), mock.patch.object(_names.Names, "of", lambda *_: ({"-", *_names.PLACES}, set())):
            return published(text, Parser(hand="registered"), file_insertion_enabled=False)

    def test_rows(self):
        self.assertGreater(self.counted(cases.rows())[True], 60)

    def test_mutated_documents(self):
        short = ((name, words, data) for name, words, data in cases.mutated(400) if len(data) < 5000)
        self.assertGreater(self.counted(short)[True], 200)

    def test_pages(self):
        self.counted((name, words, data) for name, words, data in cases.pages(20) if len(data) < 10_000)


class NothingHanded(unittest.TestCase):
    """Where nothing is handed back a document is as without `hand`."""

    def test_documents(self):
        count = 0
        for documents in (cases.rows(), cases.mutated(300), cases.pages(50)):
            for name, _, data in documents:
                text = data.decode("utf-8", "replace")
                if len(text) < 20_000 and not any(_names.Names("registered", "docutils").of(text, "en")):
                    with self.subTest(name):
                        self.assertEqual(published(text, Parser(hand="registered")), published(text, Parser()))
                        count += 1
        self.assertGreater(count, 200)

    def test_names_without_use(self):
        text = "See class:: and :class: and ``:shout:`a```.\n\n  .. class\n\n*b\n\n..\n   .. box:: c\n"
        self.assertEqual(published(text, Parser(hand=["box", "class", "shout"])), published(text, Parser()))


class Printed(unittest.TestCase):
    def test_as_without(self):
        text = "A\n=\n\n*b\n\n1. c\n\n\td\n"
        for given in ({}, {"report": "none"}, {"no_doc_title": True, "tab_width": 2}, {"line_length_limit": 3}, {"profile": "base", "report": 1}):
            self.assertEqual(ours.pseudoxml(text, **given), rst2pseudoxml.pseudoxml(text, **{"profile": "docutils", **given}))
        with self.assertRaises(TypeError):
            ours.pseudoxml(text, loud=True)
        with self.assertRaises(docutils.utils.SystemMessage):
            ours.pseudoxml(text, halt="warning")

    def test_assertion(self):
        register()
        tree = '<document source="<stdin>">\n    <paragraph>\n        0 paragraphs, a\n'
        assert_tree(".. count:: a", tree, hand="registered")
        for given in ({}, {"hand": "registered", "report": 1}):
            with self.assertRaises(AssertionError):
                assert_tree(".. count:: a\n\n.. box::", tree, **given)

    def test_check_trees(self):
        with tempfile.TemporaryDirectory() as name:
            folder = pathlib.Path(name)
            (folder / "extension.py").write_text("import docutils.parsers.rst.roles as roles\nroles.register_generic_role('loud', __import__('docutils').nodes.strong)\n")
            (folder / "a.rst").write_text(":loud:`b` *c\n")

            def run(*options):
                command = [cases.TOP / "integrations/check-trees.sh", *options, "."]
                variables = {**os.environ, "PATH": os.pathsep.join([str(pathlib.Path(sys.executable).parent), os.environ["PATH"]])}
                done = subprocess.run(command, cwd=folder, env=variables, stdout=subprocess.PIPE, stderr=subprocess.STDOUT, text=True)
                return done.returncode, done.stdout

            self.assertEqual(run("--update", "--hand=extension"), (0, "written: ./a.tree\n"))
            self.assertIn("        <strong>\n            b\n", (folder / "a.tree").read_text())
            self.assertIn('level="1"', (folder / "a.tree").read_text())
            self.assertEqual(run("--hand=extension"), (0, ""))
            self.assertEqual(run()[0], 1)
            self.assertEqual(run("--hand=nothing"), (1, "./a.rst: rst2pseudoxml: No module named 'nothing'\n"))


PROJECT = {
    "conf.py": "release = '7'\nrst_prolog = '.. |pro| replace:: before *all*\\n'\nrst_epilog = '.. _epi: http://x.org\\n'\n",
    "index.rst": """Index
=====

:As of: |today|, with |release|, |pro|, epi_

:doc:`one`, :ref:`here`, :py:func:`f` and :func:`f`, `textwrap`, :nope:`a`. [#]_

.. toctree::

   one
   two

.. _here:

Part
----

.. code-block:: python
   :caption: A :ref:`caption <here>`
   :name: coded

   x = 1

::

   y = 2

.. py:function:: f(a, b=1)

   Does :c:func:`x`. |pro| *y

   :param a: `b`

   .. versionadded:: 3.2

      - .. note:: :func:`f`

        z

.. only:: html

   Sub
   ~~~

   text

.. figure:: a.png

   Caption :ref:`here`

   .. class:: x

   Legend

* :abbr:`LIFO (last)` :math:`a` :kbd:`C-x` :code:`c`

.. [#] A :pep:`8`

.. nope:: a

.. math:: a

""",
    "one.rst": """.. index:: a

One
===

.. currentmodule:: os

.. function:: path(x)
              path(y)

   :mod:`os`: *x* :nope:`y`

   Title
   -----

   .. rst:directive:: z

.. glossary::

   term `b`
     def

Sub :ref:`here`
---------------

:term:`term b`, coded_, Copyright |copy|

.. list-table::

   * - a
     - :ref:`here`

.. productionlist::
   a: b `a`

.. |copy| unicode:: 0xA9

.. include:: part.txt
""",
    "part.txt": "Sub of a part\n-------------\n\n:ref:`here` |copy| *a\n",
    "two.rst": ":orphan:\n\n.. default-role:: math\n\n.. highlight:: none\n\nTwo `a` ::\n\n  b\n\n.. cpp:class:: C\n\n   .. cpp:function:: int f()\n\n:cpp:any:`C::f`\n",
}


@unittest.skipUnless(importlib.util.find_spec("sphinx"), "there is no Sphinx")
class Sphinx(unittest.TestCase):
    """The pages of a project are those of Sphinx' own parser."""

    def built(self, folder, builder, more):
        """The files that Sphinx writes, and what it says."""
        for name, text in PROJECT.items():
            (folder / name).write_text(text + (more if name == "conf.py" else ""))
        command = [sys.executable, "-m", "sphinx", "-q", "-E", "-b", builder, folder, folder / "out"]
        variables = {**os.environ, "PYTHONPATH": os.pathsep.join(sys.path), "SOURCE_DATE_EPOCH": "0"}
        run = subprocess.run(command, env=variables, stdout=subprocess.PIPE, stderr=subprocess.STDOUT, text=True)
        self.assertEqual(run.returncode, 0, run.stdout)
        return {path.name: path.read_text() for path in (folder / "out").rglob(f"*.{builder}")}, run.stdout

    def test_project(self):
        for builder in ("pseudoxml", "html"):
            for more in ("", "default_role = 'py:obj'\n"):
                with self.subTest(builder, more=more), tempfile.TemporaryDirectory() as name:
                    pages, said = self.built(pathlib.Path(name), builder, more)
                    ours, we_said = self.built(pathlib.Path(name), builder, more + "extensions = ['rst2pseudoxml.sphinx']\n")
                    self.assertGreater(len(pages), 2)
                    for page, text in pages.items():
                        self.assertEqual(ours[page], text, page)
                    self.assertEqual(we_said, said)


if __name__ == "__main__":
    unittest.main()
