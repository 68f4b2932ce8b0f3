#!/usr/bin/env python3
"""Tests what rst-check reads in known directives; pytest runs them, and so does python3 by itself."""

import itertools
import pathlib
import re
import unittest

from checking import EMPHASIS, Checking
from rst2pseudoxml import check

SPHINX = "--known=@sphinx-names.txt"
LISTS = pathlib.Path(check.__file__).parent
MARKED = [
    tuple(line.removeprefix("directive:").split())
    for path in sorted(LISTS.glob("*-names.txt"))
    for line in path.read_text().splitlines()
    if line.startswith("directive:") and " " in line
]
# A directive of each mark, and how far the text in it is indented.
KINDS = {
    "text": (".. seealso::\n\n", 3),
    "content": (".. container:: a *b\n   :class: ours\n\n", 3),
    "sections": (".. py:function:: f(*args,\n                **rest)\n   :noindex:\n\n", 3),
    "title": (".. versionadded:: 3.2\n   more\n\n", 3),
    "terms": (".. glossary::\n   :sorted:\n\n   one\n   two\n", 5),
    "note": (".. note::\n\n", 3),
    "item": ("- an item\n\n", 2),
}


def inside(text, head, indentation):
    """A text in a directive, whose first lines are given."""
    return head + "".join(" " * indentation + line if line.strip() else line for line in text.splitlines(True))


class Contents(Checking):
    def faults(self, text, *arguments):
        """What is said of a page, without its name."""
        self.write("page.rst", text)
        status, lines = self.said(*(arguments or (SPHINX,)), "page.rst")
        self.assertEqual(status, 1 if lines else 0)
        return [re.sub(r"^page\.rst:(?=[0-9])", "", line) for line in lines]

    def finds(self, text, *arguments):
        """The lines with the word *fault, and no other, have a message, which is that its emphasis has no end."""
        wanted = [number for number, line in enumerate(text.split("\n"), 1) if "*fault" in line]
        self.assertTrue(wanted)
        messages = [EMPHASIS.format("page.rst", number).removeprefix("page.rst:") for number in wanted]
        self.assertEqual(self.faults(text, *arguments), messages, text)

    def test_each_directive_of_the_lists(self):
        self.assertGreater(len(MARKED), 80)
        for name, mark in MARKED:
            with self.subTest(name):
                if mark == "none":
                    self.assertEqual(self.faults(f".. {name}:: *x\n\n   *y\n"), [])
                    continue
                if mark in ("text", "title"):
                    self.finds(f".. {name}:: 1 *fault\n\nend\n")
                if mark == "terms":
                    self.finds(f".. {name}::\n\n   a *fault\n   b *fault\n     c *fault\n\n   d\n     *fault\n")
                else:
                    self.finds(f"text\n\n.. {name}::\n\n   *fault\n\nend\n")
                    self.finds(f"- text\n\n  .. {name}::\n     :name: b\n     :own: c\n\n     a *fault\n\n  end b_\n")

    def test_nested(self):
        for names in itertools.product(KINDS, repeat=3):
            with self.subTest(names):
                text = "last *fault\n"
                for name in names:
                    text = inside("a *fault\n\n" + text, *KINDS[name])
                self.finds("Title\n=====\n\n" + text + "\nend *fault\n")

    def test_nested_deeply(self):
        text = "*fault\n"
        for _ in range(100):
            text = inside(text, ".. only:: html\n\n", 1)
        self.finds(text)

    def test_without_blank_lines(self):
        self.finds("- .. seealso:: a *fault\n- .. only:: a *b\n\n     .. todo:: *fault\n")
        self.finds(".. function:: f(*a)\n.. function:: g(*a)\n\n   *fault\n\n1. .. only:: a\n\n      *fault\n")
        self.finds("term\n   .. versionadded:: 1 *fault\n      b\n")

    def test_no_blank_line_after(self):
        unindent = "Explicit markup ends without a blank line; unexpected unindent."
        for directive in (".. contents::\n    :local:\n    :depth: 1\n", ".. contents:: a\n   b\n   :local:\n   :name: b\n", ".. only:: a\n          b\n"):
            with self.subTest(directive):
                line = directive.count("\n") + 1
                self.assertEqual(self.faults(directive + "text\n\nb\n"), [f"{line}: (WARNING/2) {unindent}"])
                self.assertEqual(self.faults(directive + ".. only:: a\n"), [])
                self.assertEqual(self.faults(directive + "\ntext\n"), [])

    def test_tables(self):
        self.finds(
            "+----------------------+-------------------+\n"
            "| .. versionadded:: 1  | .. only:: a *b    |\n"
            "|    :name: x          |                   |\n"
            "|                      |    .. todo::      |\n"
            "|    a *fault          |                   |\n"
            "|                      |       b *fault    |\n"
            "+----------------------+-------------------+\n"
        )
        self.finds("=====  =====\nα      .. only:: html *x\n\n          a *fault\nβ      .. todo:: b *fault\n=====  =====\n")

    def test_lines(self):
        # All of it is one text, so a message has the line at which it begins.
        text = ".. parsed-literal::\n\n  {}a b\n\n  - b\n  ======\n    *c\n    d* {}\n\n\nend *fault\n"
        for indented in (text, text.replace("\n  ", "\n     "), text.replace("\n  ", "\n ")):
            self.finds(indented.format("*fault ", "").replace("*c", "c").replace("d*", "d"))
            self.assertEqual(self.faults(indented.format("", "*x")), [EMPHASIS.format("", line)[1:] for line in (3, 11)])
        self.finds("- a\n\n  .. parsed-literal::\n\n    a *fault\n\n    b\n\n    - c\n\n  d\n")
        self.finds(".. line-block::\n   :name: x\n\n   a *fault\n     b x_\n")
        for name in ("line-block", "parsed-literal"):  # they are read by the wider profile
            self.assertEqual(self.faults(f".. {name}::\n\nend\n")[0].partition(") ")[2].partition(";")[0],
                             f'Content block expected for the "{name}" directive')

    def test_field_lists(self):
        self.finds(".. function:: f(a)\n   :noindex:\n\n   :param a: *fault\n   :class: b\n")
        self.finds(".. todo::\n\n   :class: *fault\n")

    def test_terms(self):
        page = ".. glossary::\n\n   one\n   two : a\n      text::\n\n         *x\n\n      *fault\n"
        self.finds(page + "   .. comment *x\n\n   three *fault\n")

    def test_arguments(self):
        self.finds(".. sectionauthor:: A. M. *fault\n.. centered:: - *fault\n")
        self.finds(".. versionchanged:: 3\n      - more:\n      * this::\n\n   text *fault\n\n.. rubric:: *fault\n")
        self.finds(".. versionadded::\n   3.2 *fault\n\n   a\n")
        self.finds(".. function:: a *b\n              :c *d\n\n   *fault\n")

    def test_titles(self):
        text = "Top\n===\n\nSub\n---\n\n.. only:: html\n\n   One\n   ===\n\n   a *fault\n\n"
        text += "   ~~~~~\n    Two\n   ~~~~~\n\n   One_ `two`_\n\n   ----\n\n"
        self.finds(text + "   .. topic:: Three\n\n      *fault\n\nEnd\n---\n\ntwo_\n")
        short = ["4: (WARNING/2) Title underline too short.", "", "Title", "===="]
        self.assertEqual(self.faults(".. only:: a\n\n   Title\n   ====\n"), short)
        self.assertEqual(self.faults(".. only:: a\n\n   One\n   ===\n   Two\n   ===\n\nOne_ two_\n"), [])
        wrong = "3: (SEVERE/4) Unexpected section title or transition."
        self.assertEqual(self.faults(".. only:: a\n\n   =====\n   a\n   b\n\n   ----\n\n   c\n"), [wrong, "", "====="])
        unexpected = [": (SEVERE/4) Unexpected section title.", "", "One", "==="]
        self.assertEqual(self.faults(".. todo::\n\n   One\n   ===\n"), ["4" + unexpected[0], *unexpected[1:]])
        self.assertEqual(self.faults(".. only:: a\n\n   - One\n     ===\n"), ["4" + unexpected[0], *unexpected[1:]])

    def test_topics_and_sidebars(self):
        """They may be where sections may."""
        own = "--known=directive:only sections,directive:todo text"
        for name, known in itertools.product(("topic", "Topic", "sidebar", "Sidebar"), (own, SPHINX)):
            with self.subTest((name, known)):
                text = f".. only:: html\n\n   .. {name}:: A *fault\n      :class: b\n      :name: c\n\n      *fault c_\n"
                self.finds(text + "\n   end\n", known)
                self.finds(text + "\n      .. note:: *fault\n\nend *fault\n", known)
        for name, shown in (("topic", "topic"), ("Topic", "topic"), ("Sidebar", "Sidebar")):
            misplaced = f'3: (ERROR/3) The "{shown}" directive may not be used within topics or body elements.'
            for text in (".. todo::\n\n   .. {}:: a\n\n      b\n", ".. only:: html\n\n   - .. {}:: a\n\n        b\n"):
                self.assertEqual(self.faults(text.format(name), own)[0], misplaced)
        for known in (own, SPHINX):
            self.finds(".. only:: html\n\n   .. sidebar::\n\n      *fault\n\n   .. sidebar::\n      :class: b\n\n      *fault\n", known)
            for option in (":subtitle: b *c", ":SubTitle: b\n        *c\n      :class: d", ":class: d\n      :subtitle: *c"):
                text = f".. only:: html\n\n   .. sidebar:: a\n      {option}\n\n      d\n"
                self.assertEqual(self.faults(text, known), [EMPHASIS.format("", 3)[1:]], text)

    def test_names(self):
        page = ".. only:: a\n   :name: here\n\n   .. _one: u\n\n   |sub| [1]_ two_ [#]_\n\nhere_ one_ `a`__\n\n"
        more = ".. _two: u\n.. |sub| replace:: a\n.. [1] a\n.. todo::\n\n   .. [#] b\n\n   __ u\n"
        self.assertEqual(self.faults(page + more), [])
        twice = '4: (WARNING/2) Duplicate explicit target name: "one".'
        self.assertEqual(self.faults(".. only:: a\n\n   .. _one: u\n   .. _one: v\n"), [twice])

    def test_what_is_no_text(self):
        for text in (
            "::\n\n  .. only:: a\n\n     *x\n",
            "..\n  .. only:: a\n\n     *x\n",
            ".. only:: *x\n",
            ".. only::\n   :a: *x\n   :b: y\n       *z\n",
            ".. index:: a\n\n   *x\n",
            ".. code-block:: c\n   :linenos:\n\n   .. only:: a\n\n      *x\n",
        ):
            with self.subTest(text):
                self.assertEqual(self.faults(text), [])
        self.assertEqual(self.faults("text\n.. only:: *x\n"), [EMPHASIS.format("", 1)[1:]])

    def test_marks_of_a_project(self):
        text = ".. change:: a *b\n   :tags: c\n\n   *fault\n"
        self.finds(text, "--known=directive:change content")
        self.finds(text, "--known=change content")
        self.finds(text.replace("*b", "b *fault"), "--known=directive:change title")
        self.assertEqual(self.faults(text, "--known=directive:change"), [])
        self.finds(text, "--known=directive:change sections,directive:own:change none,directive:change")
        self.assertEqual(self.faults(text, "--known=own:change text,change none"), [])
        self.write("own/.rst-known", "change sections\n")
        self.write("own/a.rst", text)
        self.same(1, [EMPHASIS.format("own/a.rst", 4)], "own")

    def test_levels(self):
        page = ".. only:: a\n\n   *x\n\n   - a\n     ===\n"
        self.assertEqual(self.faults(page, SPHINX, "--level=severe")[0], "6: (SEVERE/4) Unexpected section title.")
        self.assertEqual(self.faults(page, SPHINX, "--level=none"), [])
        self.assertEqual(self.faults(".. only:: a\n\n   *x\n", SPHINX, "--level=error"), [])
        start = '3: (INFO/1) Enumerated list start value not ordinal-1: "c" (ordinal 3)'
        self.assertEqual(self.faults(".. only:: a\n\n   c. one\n\n   :func:`a`\n", SPHINX, "--level=info"), [start])

    def test_source_texts(self):
        """A message shows what the page has."""
        source = ".. spam::\n\n   .. only:: html *x\n\n      :func:`a`\n"
        wanted = [*source.rstrip("\n").split("\n")]
        self.assertEqual(
            self.faults(inside(source, ".. only:: a\n\n", 3)),
            ['3: (ERROR/3) Unknown directive type "spam".', "", *wanted, "page.rst: passes with --known=directive:spam"],
        )
        option = self.faults(".. seealso:: a\n   :name:\n\n   b\n")
        self.assertEqual([line for line in option if "tip" in line], [])

    def test_a_page_that_is_refused(self):
        deep = inside("- " * 251 + "a\n", ".. only:: a\n\n", 3)
        self.assertEqual(self.faults(deep), ["page.rst: rst2pseudoxml: line 3: nesting too deep"])

    def test_lines_of_other_kinds(self):
        for end in ("\r\n", "\r", "\x85", "\u2028", "\x1c"):
            with self.subTest(repr(end)):
                text = end.join(["a", "", "..\tonly::\thtml\f", "", "\ta", "", "\t.. todo::\v *x", "", ":func:`b`: *x", ""])
                self.assertEqual(self.faults(text), [EMPHASIS.format("", line)[1:] for line in (7, 9)])

    def test_roles(self):
        self.assertEqual(self.faults(":func:`a`: b\nc\n\n*:func:`a`* :func:`a <b>` (:py:func:`x`)\n"), [])
        for text in ("x\\ :func:`a`", "``:func:`a```", ":func:``a``", "a:func:`b`", ":func:` a"):
            with self.subTest(text):
                self.assertEqual([line for line in self.faults(text + "\n") if "Unknown" in line], [])
        mismatch = "Mismatch: both interpreted text role and reference suffix."
        self.assertTrue(re.search(f"{mismatch}|Unknown target", " ".join(self.faults(":func:`a`_\n"))))


if __name__ == "__main__":
    unittest.main()
