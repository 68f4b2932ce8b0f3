#!/usr/bin/env python3
"""Tests which pages rst-check reads, in how many processes, and what else it is told; pytest runs them, and so does python3 by itself."""

import io
import os
import pathlib
import re
import subprocess
import sys
import unittest
from unittest import mock

from checking import EMPHASIS, Checking
from rst2pseudoxml import check
from rst2pseudoxml.check import jobs, names

FAULT = "A *word\n"
SHIPPED = pathlib.Path(check.__file__).parent
PAGES = {
    "in/a.rst": FAULT,
    "in/requirements.txt": FAULT,
    "in/requirements-dev.txt": FAULT,
    "in/requirements.rst": FAULT,
    "in/CMakeLists.txt": FAULT,
    "in/old/b.rst": FAULT,
    "in/old/more/c.txt": FAULT,
    "in/.rst-known": "exclude:old/*\nexclude:in/d.rst\nexclude:generated/\nexclude:LICEN?E.txt\n",
    "in/d.rst": FAULT,
    "in/generated/e.rst": FAULT,
    "in/deep/LICENSE.txt": FAULT,
    "in/deep/f.txt": FAULT,
    "links/links.inc": ".. _One: u\n.. |two| replace:: a\n.. role:: three\n.. _`four: 4`: u\n.. [FIVE] a\n.. include:: <isonum.txt>\n",
    "links/conf.py": 'rst_epilog = """\n.. _six: u\n.. |seven| replace:: a\n"""\n',
    "links/.rst-known": "definitions:links.inc\ndefinitions:conf.py\ninclude\n",
    "links/a.rst": "one_ |two| :three:`a` `four: 4`_ [five]_ six_ |seven| |copy|\n\neight_\n",
    "iso/known.rst": ".. include:: <isonum.txt>\n.. include:: <isogrk3.txt>\n\n|copy| |alpha| |Alpha|\n",
    "iso/other.rst": ".. include:: <isonum.txt>\n\n|alpha|\n",
    "iso/none.rst": "|copy|\n",
}


class Files(Checking):
    pages = PAGES

    def test_folders(self):
        wanted = [EMPHASIS.format(f"in/{name}", 1) for name in ("a.rst", "deep/f.txt", "requirements.rst")]
        self.same(1, wanted, "in")
        named = ["in/old/b.rst", "in/requirements.txt"]
        self.same(1, [EMPHASIS.format(name, 1) for name in named], *named)
        self.same(1, [EMPHASIS.format("in/deep/f.txt", 1)], "--known=exclude:in/*.rst,exclude:in/old", "in")
        self.same(2, ["rst-check: there is no *.rst or *.txt in in/old"], "--known=exclude:b.rst,exclude:more", "in/old")

    def test_what_files_define(self):
        eight = 'links/a.rst:3: (ERROR/3) Unknown target name: "eight".'
        self.same(1, [eight], "links")
        self.same(1, [eight.replace("links/", "")], "--known=definitions:links.inc,definitions:conf.py", "a.rst", folder="links")

    def test_files_of_docutils(self):
        undefined = 'iso/{}.rst:{}: (ERROR/3) Undefined substitution referenced: "{}".'
        hint = "rst-check: 2 pages pass with --known=directive:include"
        for level in "warning", "error":  # the message on a file that isn't read is a WARNING
            wanted = [undefined.format("none", 1, "copy"), undefined.format("other", 3, "alpha")]
            self.same(1, wanted, "--known=include", f"--level={level}", "iso")
        status, lines = self.said("iso/known.rst")
        self.assertEqual((status, lines[-1]), (1, "iso/known.rst: passes with --known=directive:include"))
        self.assertNotIn(hint, lines)

    def test_the_list_of_files_of_docutils(self):
        """Beside the files, if Docutils is here."""
        try:
            from docutils.parsers.rst import Directive  # noqa: F401
            from docutils.parsers.rst.directives.misc import Include
        except ImportError:
            self.skipTest("no Docutils is here")
        for file in sorted(pathlib.Path(Include.standard_include_path).glob("[!R]*.txt")):
            text = file.read_text("utf-8")
            wanted = {f"substitution:{name.lower()}" for name in re.findall(r"^\.\. +\|([^|]+)\|", text, re.MULTILINE)}
            wanted |= {f"role:{name}" for name in re.findall(r"^\.\. role:: *(\S+)", text, re.MULTILINE)}
            self.assertEqual(set(names.shipped_definitions()[file.name]), wanted, file.name)

    def test_one_hint_for_all_pages(self):
        self.write("hints/a.rst", ":a:`x` :b:`x`\n")
        self.write("hints/b.rst", ":b:`x` :c:`x`\n\n.. d::\n")
        self.write("hints/c.rst", ":e:`x`\n\n*x\n")
        hints = [line for line in self.said("hints")[1] if "--known" in line]
        self.assertEqual(hints, ["rst-check: 2 pages pass with --known=role:a,role:b,role:c,directive:d"])

    def test_standard_input(self):
        variables = {**os.environ, "PYTHONPATH": str(SHIPPED.parents[1])}
        for arguments, data, wanted in (
            (["-"], b"A *word\n", EMPHASIS.format("<stdin>", 1)),
            (["--name", "a.rst", "-"], b"A *word\n", EMPHASIS.format("a.rst", 1)),
            (["--name", "a.rst", "-"], b":a:`x`\n", 'a.rst:1: (ERROR/3) Unknown interpreted text role "a".\na.rst: passes with --known=role:a'),
            (["--name=a.rst", "--", "-"], b"\xff", "a.rst: rst2pseudoxml: not UTF-8 at byte 0"),
            (["-"], b"fine\n" * 100_000, ""),
        ):
            command = [sys.executable, "-m", "rst2pseudoxml.check", *arguments]
            run = subprocess.run(command, input=data, cwd=self.folder, env=variables, stdout=subprocess.PIPE, stderr=subprocess.STDOUT)
            self.assertEqual((run.returncode, run.stdout.decode()), (1, wanted + "\n") if wanted else (0, ""))

    def test_the_largest_text(self):
        self.write("large.rst", b"a\n" * (check.files.LONGEST // 2))
        self.same(0, [], "large.rst")
        self.write("large.rst", b"a\n" * (check.files.LONGEST // 2) + b"a")
        self.same(1, ["large.rst: rst2pseudoxml: input too long"], "large.rst")


class Jobs(Checking):
    pages = {f"many/{number:03}.rst": FAULT * (number % 3) + "\n.. only:: a\n\n   *x\n" * (number % 2) for number in range(150)}

    def test_the_same_with_any_number(self):
        self.write("many/077.rst", b"\xff")
        os.symlink("nowhere", self.folder / "many/none.rst")
        pages = [*sorted(self.pages), "many/none.rst", "many/000.rst"]
        one = self.said("--jobs=1", "--known=@sphinx-names.txt", *pages)
        self.assertEqual(one[0], 1)
        self.assertIn("many/077.rst: rst2pseudoxml: not UTF-8 at byte 0", one[1])
        self.assertIn("many/none.rst: rst2pseudoxml: cannot open many/none.rst", one[1])
        self.assertEqual([line.partition(":")[0] for line in one[1]], sorted(line.partition(":")[0] for line in one[1]))
        for number in (2, 3, 7, 100):
            self.assertEqual(self.said("--jobs", str(number), "--known=@sphinx-names.txt", *pages), one)

    def test_a_process_that_ends(self):
        def ends(page):
            return os._exit(3) if page == "90" else (page, False, ())

        pages = [str(number) for number in range(200)]
        found = []
        with self.assertRaises(jobs.Stopped):
            for shown, _, _ in jobs.outcomes(pages, ends, 2):
                found.append(shown)
        self.assertEqual(found, pages[: len(found)])
        self.assertLess(len(found), 91)

    def test_large_outcomes(self):
        found = jobs.outcomes(["a"] * 50, lambda page: (page * 1_000_000, True, ()), 3)
        self.assertEqual({shown for shown, _, _ in found}, {"a" * 1_000_000})

    def test_progress(self):
        stream = io.StringIO()
        with mock.patch.object(sys, "stderr", stream), mock.patch("time.monotonic", side_effect=[0, 0.9, 1, 1.1, 1.3]):
            stream.isatty = lambda: True
            progress = jobs.Progress(9)
            for done in range(1, 5):
                progress.at(done)
            progress.hide()
            progress.hide()
        self.assertEqual(stream.getvalue(), "\r2 of 9 pages\x1b[K\r4 of 9 pages\x1b[K\r\x1b[K")
        with mock.patch.object(sys, "stderr", io.StringIO()) as pipe, mock.patch("time.monotonic", side_effect=[0, 5]):
            jobs.Progress(9).at(1)
        self.assertEqual(pipe.getvalue(), "")


BLOCKS = (
    ("json", '{"a": [1,\n  2]}', None),
    ("json", '{"a": [1,\n  2,]}', 2),
    ("json", '{\n  "a":\n\n\n', 2),  # no block ends with blank lines
    ("python", 'def f():\n    """.. only:: html\n\n    .. only:: html"""\n    return 1', None),
    ("py", "def f():\n    x = = 1\n    return x", 2),
    ("Python3", "a = 1\n\n\nif a\n    b", 4),
    ("python", ">>> def f(:\n", None),
    ("python", "a = '\\d'", None),
    ("xml", "<a>\n  <b/>\n</a>", None),
    ("xml", "<a>\n  <b>\n</a>", 3),
    ("toml", "[a]\nb = 1", None),
    ("toml", "[a]\nb = \n", 2),
    ("c", "int main(", None),
    ("", "int main(", None),
)


class Code(Checking):
    def lines(self, text, *arguments):
        """The lines of the messages on a page, which are on code."""
        self.write("page.rst", text)
        found = self.said("--format=github", *arguments, "page.rst")[1]
        for line in found:
            self.assertRegex(line, r"^::error file=page.rst,line=[0-9]+::(JSON|Python|TOML|XML) code: .")
        return [int(re.sub(r".*,line=([0-9]+)::.*", r"\1", line)) for line in found]

    def test_languages(self):
        for language, block, wanted in BLOCKS:
            if language == "toml" and sys.version_info < (3, 11):
                wanted = None
            for directive in ("code", "code-block", "sourcecode"):
                with self.subTest(language=language, block=block):
                    lines = "".join(f"     {line}\n" for line in block.split("\n"))
                    page = f"Text\n\n- .. {directive}:: {language}\n     :class: x\n\n\n{lines}"
                    self.assertEqual(self.lines(page, "--code"), [6 + wanted] if wanted else [])
                    self.assertEqual(self.lines(page), [])

    def test_in_directives(self):
        page = ".. only:: html\n\n   .. code-block:: json\n      :caption: a\n        b\n      :linenos:\n\n      {\n      ,}\n\n"
        page += ".. code:: json\n\n   {]\n"
        self.assertEqual(self.lines(page, "--code", "--known=@sphinx-names.txt"), [9, 13])

    def test_in_tables(self):
        border = "+---------------+---+\n"
        page = border + "| .. code:: xml | b |\n|               |   |\n|    <a>        |   |\n|    <b></a>    |   |\n" + border
        self.assertEqual(self.lines(page, "--code"), [5])

    def test_nested_deeply(self):
        self.assertEqual(self.lines("- " * 249 + ".. code:: json\n\n" + " " * 501 + "]\n", "--code"), [3])

    def test_nested_too_deep_for_a_parser(self):
        for language, bracket in ("json", "["), ("python", "("):  # some versions of Python find the fault
            self.assertIn(self.lines(f".. code:: {language}\n\n   {bracket * 9000}\n", "--code"), ([], [3]))

    def test_levels(self):
        self.write("page.rst", ".. code:: json\n\n   ]\n")
        self.same(0, [], "--code", "--level=severe", "page.rst")
        self.same(1, ["page.rst:3: (ERROR/3) JSON code: Expecting value"], "--code", "--level=error", "page.rst")


if __name__ == "__main__":
    unittest.main()
