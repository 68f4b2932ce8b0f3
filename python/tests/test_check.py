#!/usr/bin/env python3
"""Tests rst-check; pytest runs them, and so does python3 by itself."""

import json
import os
import pathlib
import re
import subprocess
import sys
import unittest

import rst2pseudoxml
from checking import Checking
from rst2pseudoxml import check
from rst2pseudoxml.check.names import MARKS

LISTS = pathlib.Path(check.__file__).parent
WARNING = "{}:1: (WARNING/2) Inline emphasis start-string without end-string."
USAGE = "[--level LEVEL] [--known NAMES|@FILE].. [--code] [--profile PROFILE] [--format FORMAT] [--jobs N] [--name FILE] [--] FILE|FOLDER|-.."
PAGES = {
    "good.rst": b"fine\n",
    "a b.rst": b"A *word\n",
    "-x.rst": b"A *word\n",
    "info.rst": b"c. one\n",
    "role.rst": b":mod:`email`: mail\n",
    "deep.rst": b"text\n\n" + b"- " * 251 + b"a\n",
    "bytes.rst": b"a\xff",
    "tree/b/-x.rst": b"A *word\n",
    "tree/b/.hidden/c.rst": b"A *word\n",
    "tree/a *.txt": b"A *word\n",
    "tree/no.md": b"A *word\n",
    "tree/empty/no.md": b"",
    "short.rst": b":a:`x`\n\n.. b::\n",
    "sphinx.rst": b".. toctree::\n\n:func:`a` :c:func:`b` :mod:`c`\n\n.. contents::\n.. py:class:: x\n",
    "project/short.rst": b":a:`x`\n\n.. b::\n",
    "project/.rst-known": b"# ours\n\n  a \r\ndirective:b\n@more.txt\n",
    "names.txt": b"# ours\n\n  a \r\ndirective:b\n@more.txt\n",
    "more.txt": b"@names.txt\nc\n",
    "page.rst": b"""\
.. Spam:: an option

   page.rst:1: (ERROR/3) No message.

   .. _In Spam: u
   .. _`with: colon`: u
   .. |sub| image:: a
   .. [CIT] x

   .. ham::
      :name: by name

   `text <https://example.org/>`_

See :ni:`x` |today| |sub| `in spam`_ [cit]_ `by name`_ text_ `with: colon`_

.. _far: nowhere_

.. |day| date:: %d
.. |ni|  replace:: a :ni:`x`
.. |b|   replace:: |day|

far_ |Day| |ni| |b|

.. role:: own(emphasis)

:own:`x`

.. code-block:: py
   :linenos:

   x
""",
}


class Pages(Checking):
    pages = PAGES

    @classmethod
    def setUpClass(cls):
        super().setUpClass()
        os.symlink("/proc/self/mem", cls.folder / "memory.rst")  # a file that can be opened, and not read

    def test_module(self):
        command = [sys.executable, "-m", "rst2pseudoxml.check", "good.rst", "a b.rst"]
        variables = {**os.environ, "PYTHONPATH": str(LISTS.parents[1])}
        run = subprocess.run(command, cwd=self.folder, env=variables, stdout=subprocess.PIPE)
        self.assertEqual((run.returncode, run.stdout.decode()), (1, WARNING.format("a b.rst") + "\n"))

    def test_pages(self):
        self.same(0, [], "good.rst")
        self.same(1, [WARNING.format("a b.rst")], "good.rst", "a b.rst", "good.rst")
        self.same(1, [WARNING.format("./-x.rst")], "--", "-x.rst")

    def test_levels(self):
        self.same(1, ['info.rst:1: (INFO/1) Enumerated list start value not ordinal-1: "c" (ordinal 3)'], "--level=info", "info.rst")
        self.same(0, [], "--level=error", "--", "a b.rst")
        self.same(0, [], "--level", "error", "--format", "json", "--known", "x", "--jobs", "1", "a b.rst")

    def test_profiles(self):
        unknown = 'role.rst:1: (ERROR/3) Unknown interpreted text role "mod".'
        wanted = [unknown, "role.rst: passes with --known=role:mod"]
        self.same(1, wanted, "role.rst")
        self.same(1, wanted, "--profile", "docutils", "role.rst")
        self.same(0, [], "--profile=base", "role.rst")
        for settings, count in ({}, 1), ({"profile": "docutils"}, 1), ({"profile": "base"}, 0):
            self.assertEqual(len(check.Pages(**settings).read(PAGES["role.rst"]).messages), count)
        with self.assertRaises(ValueError):
            check.Pages(profile="wide")

    def test_refused_pages(self):
        lines = [
            "deep.rst: rst2pseudoxml: line 3: nesting too deep",
            "bytes.rst: rst2pseudoxml: not UTF-8 at byte 1",
            "memory.rst: rst2pseudoxml: read failed",
            "none.rst: rst2pseudoxml: cannot open none.rst",
            WARNING.format("a b.rst"),
        ]
        self.same(1, lines, "deep.rst", "bytes.rst", "memory.rst", "none.rst", "a b.rst")

    def test_wrong_arguments(self):
        for line, *arguments in (
            (f"no file was named (usage: rst-check {USAGE})", "--"),
            ("no such format: xml", "--format=xml", "good.rst"),
            ("no such option: -x.rst", "-x.rst"),
            ("no such option: --code=yes", "--code=yes", "good.rst"),
            ("no such level: loud", "--level=loud", "good.rst"),
            ("no such level: good.rst", "--level", "good.rst"),
            ("no such profile: wide", "--profile=wide", "good.rst"),
            ("nothing comes after --level", "--level"),
            ("no such number of jobs: 0", "--jobs=0", "good.rst"),
            ("no such mark of a name: loud", "--known=spam loud", "good.rst"),
            ("no such mark of a name: text", "--known=role:spam text", "good.rst"),
            ("no such mark of a name: text title", "--known=directive:spam text title", "good.rst"),
            ("cannot read none.inc", "--known=definitions:none.inc", "good.rst"),
            ("there is no *.rst or *.txt in tree/empty", "tree/empty"),
            ("a name has a line feed: a", "a\nb"),
            ("cannot read none.txt", "--known=@none.txt", "good.rst"),
        ):
            with self.subTest(line):
                self.same(2, [f"rst-check: {line}", *arguments[-1].split("\n")[1:]], *arguments)

    def test_in_python(self):
        text = ".. only:: html\n\n   c. :issue:`1` *word\n\n.. code:: json\n\n   ]\n"
        known = check.Known("@sphinx-names.txt", "role:issue")
        for arguments, lines in (
            ({}, [1]),
            ({"known": known}, [3]),
            ({"known": known, "level": "info"}, [3, 3]),
            ({"known": known, "level": 3, "code": True}, [7]),
        ):
            for given in text, text.encode():
                found = check.Pages(**arguments).read(given, "a.rst").messages
                self.assertEqual([(one.file, one.line) for one in found], [("a.rst", line) for line in lines])
        with self.assertRaises(ValueError):
            check.Pages(level="loud")
        with self.assertRaises(OSError):
            check.Known("@none.txt")
        with self.assertRaises(rst2pseudoxml.Refused):
            check.Pages().read(b"\xff")

    def test_help(self):
        self.same(0, check.__doc__.strip().split("\n"), "--help")
        self.assertIn(f"rst-check {USAGE}", check.__doc__)

    def test_folders(self):
        self.same(1, [WARNING.format("tree/a *.txt"), WARNING.format("tree/b/-x.rst"), WARNING.format("a b.rst")], "tree", "a b.rst")
        self.same(1, [WARNING.format("./a *.txt"), WARNING.format("./b/-x.rst")], ".", folder="tree")

    def test_known_names(self):
        other = 'page.rst:17: (ERROR/3) Indirect hyperlink target "far" refers to target "nowhere", which does not exist.'
        today = 'page.rst:15: (ERROR/3) Undefined substitution referenced: "today".'
        self.same(1, [today, other], "--known=spam,Ni,role", "--known=directive:date, code-block", "page.rst")
        self.same(0, [], "--known=spam,ni,role,date,code-block,substitution:today,target:Nowhere", "page.rst")

    def test_proposed_option(self):
        a, b = 'short.rst:1: (ERROR/3) Unknown interpreted text role "a".', 'short.rst:3: (ERROR/3) Unknown directive type "b".'
        self.same(1, [a, b, "", ".. b::", "short.rst: passes with --known=role:a,directive:b"], "short.rst")
        self.same(0, [], "--known=role:a,directive:b", "short.rst")
        self.same(1, [a, "short.rst: passes with --known=role:a"], "--known=directive:a,b", "short.rst")
        (self.folder / "none helps.rst").write_text("*x\n\n:a:`x`\n")
        wanted = [WARNING.format("none helps.rst"), 'none helps.rst:3: (ERROR/3) Unknown interpreted text role "a".']
        self.same(1, wanted, "none helps.rst")

    def test_files_of_names(self):
        self.same(0, [], "--known=@names.txt", "short.rst")
        self.same(0, [], "project")
        (self.folder / "project/names.txt").write_bytes(PAGES["names.txt"])
        (self.folder / "project/more.txt").write_bytes(PAGES["more.txt"])
        self.same(0, [], "short.rst", folder="project")
        self.same(0, [], "--known=@sphinx-names.txt", "sphinx.rst")

    def test_lists(self):
        self.assertEqual(len(list(LISTS.glob("*-names.txt"))), 2)
        for path in sorted(LISTS.glob("*-names.txt")):
            names = [line for line in path.read_text().splitlines() if line and not line.startswith("#")]
            self.assertEqual(len(names), len(set(names)))
            for name in names:
                form = rf"(@docutils-names\.txt|directive:[a-z][a-z0-9:-]*( ({'|'.join(MARKS)}))?|(role|substitution):[a-z][a-z0-9:-]*)"
                self.assertRegex(name, rf"\A{form}\Z")

    def test_directives_of_docutils_are_unknown(self):
        for name in re.findall("^directive:([^ \n]*)", (LISTS / "docutils-names.txt").read_text(), re.MULTILINE):
            (message,) = rst2pseudoxml.messages(f".. {name}:: a")
            self.assertEqual(message.text, f'Unknown directive type "{name}".')

    def test_formats(self):
        (self.folder / "a:b,%.rst").write_text('.. image::\n\n|a\\\\ "100%"|\n')
        wanted = [
            ("a:b,%.rst", 1, 3, "ERROR", 'Error in "image" directive:\n1 argument(s) required, 0 supplied.'),
            ("a:b,%.rst", 3, 3, "ERROR", 'Undefined substitution referenced: "a\\ "100%"".'),
            ("deep.rst", 3, None, "REFUSED", "nesting too deep"),
            ("none.rst", None, None, "REFUSED", "cannot open none.rst"),
        ]
        keys = ("file", "line", "level", "type", "text")
        lines = [json.dumps(dict(zip(keys, one))) for one in wanted]
        pages = ("a:b,%.rst", "deep.rst", "none.rst")
        self.same(1, lines, "--format=json", *pages)
        self.same(
            1,
            [
                '::error file=a%3Ab%2C%25.rst,line=1::Error in "image" directive:%0A1 argument(s) required, 0 supplied.',
                '::error file=a%3Ab%2C%25.rst,line=3::Undefined substitution referenced: "a\\ "100%25"".',
                "::error file=deep.rst,line=3::nesting too deep",
                "::error file=none.rst::cannot open none.rst",
            ],
            "--format=github",
            *pages,
        )


if __name__ == "__main__":
    unittest.main()
