#!/usr/bin/env python3
"""Tests rst-lsp as an editor uses it; pytest runs them, and so does python3 by itself."""

import json
import pathlib
import subprocess
import sys
import tempfile
import unittest

import rst2pseudoxml

TEXT = """\
Top
===

See [1]_, [#]_ and [#x]_, [*]_ and [#]_,
`Sub part`_ or `this <there_>`_, a_ and |s|, 𝄞 CIT_ [Cit]_.

Sub part
--------

.. _a:
.. _there:

A paragraph
of *two* lines.

.. note::

   - one

     - two

==========
Part three
==========

.. [1] one
.. [#] first
.. [#x] named
.. [*] star
.. [#] second
.. [CIT] cited
.. |s| replace:: text

==========
Part four
==========

End.

"""
KNOWN = "@sphinx-names.txt\ndirective:change content\ndefinitions:links.inc\n"
LINKS = ".. _one: u\n.. |two| replace:: a\n"
NESTED = """\
Top
===

.. include:: <isonum.txt>

.. only:: html

   c. one_ |two| |copy| |alpha|

   .. versionadded:: 2.0 *b
      c

   .. change:: *no
      :tags: d

      .. seealso::

         .. note::

            *e :func:`f` :own:`g` |two| three_

            .. _inside:

            h

   Part three
   =====

`Part three`_ four_ inside_

.. todo::

   Five
   ====

.. code-block:: json
   :linenos:

   {"a": 1,
    b}
"""
UNFINISHED = "Inline emphasis start-string without end-string."
MESSAGES = [  # lines, severities and texts
    (8, 3, 'Enumerated list start value not ordinal-1: "c" (ordinal 3)'),
    (8, 1, 'Undefined substitution referenced: "alpha".'),
    (10, 2, UNFINISHED),
    (20, 2, UNFINISHED),
    (20, 1, 'Unknown interpreted text role "own".'),
    (20, 1, 'Unknown target name: "three".'),
    (27, 2, "Title underline too short."),
    (29, 1, 'Unknown target name: "four".'),
    (34, 1, "Unexpected section title."),
    (40, 1, "JSON code: Expecting property name enclosed in double quotes"),
]
VARIABLES = {"PYTHONPATH": str(pathlib.Path(rst2pseudoxml.__file__).parents[1])}


class Editor:
    """Starts rst-lsp, and speaks with it."""

    def __init__(self, test, *arguments):
        command = [sys.executable, "-c", "import sys; from rst2pseudoxml.lsp import main; sys.exit(main())", "--stdio", *arguments]
        self.process = subprocess.Popen(command, stdin=subprocess.PIPE, stdout=subprocess.PIPE, stderr=subprocess.PIPE, env=VARIABLES)
        test.addCleanup(self.end)
        self.count = 0

    def end(self):
        self.process.kill()
        self.process.wait()
        for pipe in self.process.stdin, self.process.stdout, self.process.stderr:
            pipe.close()

    def send(self, **message):
        data = json.dumps({"jsonrpc": "2.0", **message}, ensure_ascii=False).encode()
        self.process.stdin.write(b"Content-Length: %d\r\nContent-Type: application/vscode-jsonrpc; charset=utf-8\r\n\r\n%b" % (len(data), data))
        self.process.stdin.flush()

    def receive(self):
        length = int(self.process.stdout.readline().removeprefix(b"Content-Length: "))
        assert self.process.stdout.readline() == b"\r\n"
        return json.loads(self.process.stdout.read(length))

    def notify(self, method, **parameters):
        self.send(method=method, params=parameters)

    def ask(self, method, **parameters):
        """The answer to a request."""
        self.count += 1
        self.send(id=self.count, method=method, params=parameters)
        answer = self.receive()
        assert answer["id"] == self.count, answer
        return answer

    def result(self, method, **parameters):
        return self.ask(method, **parameters)["result"]

    def diagnostics(self):
        """What is published next: lines from 1, severities and texts."""
        given = self.receive()
        assert given["method"] == "textDocument/publishDiagnostics", given
        return [(one["range"]["start"]["line"] + 1, one["severity"], one["message"]) for one in given["params"]["diagnostics"]]


class Story(unittest.TestCase):
    def setUp(self):
        kept = tempfile.TemporaryDirectory()
        self.addCleanup(kept.cleanup)
        self.folder = pathlib.Path(kept.name)
        (self.folder / "some pages").mkdir()
        self.uri = (self.folder / "some pages" / "page.rst").as_uri()
        self.document = {"uri": self.uri}

    def open(self, text, *arguments):
        """The diagnostics of a text that is opened."""
        self.editor = Editor(self, *arguments)
        self.assertIn("capabilities", self.editor.result("initialize", processId=None, rootUri=None, capabilities={}))
        self.editor.notify("initialized")
        self.editor.notify("textDocument/didOpen", textDocument={"uri": self.uri, "languageId": "restructuredtext", "version": 1, "text": text})
        return self.editor.diagnostics()

    def change(self, text):
        self.editor.notify("textDocument/didChange", textDocument={"uri": self.uri, "version": 2}, contentChanges=[{"text": text}])
        return self.editor.diagnostics()

    def definition(self, text, more=0, page=TEXT):
        """The line, from 1, that the reference at the first place of a text in a page leads to."""
        before = page[: page.index(text) + more]
        character = len(before.rpartition("\n")[2].encode("utf-16-le")) // 2
        position = {"line": before.count("\n"), "character": character}
        found = self.editor.result("textDocument/definition", textDocument=self.document, position=position)
        self.assertIn(found and found["uri"], (None, self.uri))
        return found and found["range"]["start"]["line"] + 1

    def test_a_session(self):
        self.assertEqual(self.open("A *word\n"), [(1, 2, "Inline emphasis start-string without end-string.")])
        self.assertEqual(self.change("A *word*\n"), [])
        self.assertEqual(self.change("c. one\n\n.. nope::\n\n- a\n  ===\n"), [
            (1, 3, 'Enumerated list start value not ordinal-1: "c" (ordinal 3)'),
            (3, 1, 'Unknown directive type "nope".'),
            (6, 1, "Unexpected section title."),
        ])  # fmt: skip
        self.assertEqual(self.change("text\n\n" + "- " * 251 + "a\n"), [(3, 1, "line 3: nesting too deep")])
        self.assertEqual(self.editor.result("textDocument/documentSymbol", textDocument=self.document), [])
        self.assertEqual(self.change("- " * 250 + "a"), [])
        self.editor.notify("$/setTrace", value="off")  # a notification that it doesn't know isn't answered
        self.assertEqual(self.editor.ask("textDocument/rename")["error"]["code"], -32601)
        self.assertEqual(self.editor.ask("textDocument/hover", textDocument={"uri": "file:///other"})["error"]["code"], -32603)
        self.editor.notify("textDocument/didClose", textDocument=self.document)
        self.assertEqual(self.editor.diagnostics(), [])
        self.assertIsNone(self.editor.result("shutdown"))
        self.assertEqual(self.editor.ask("textDocument/hover")["error"]["code"], -32600)
        self.editor.send(method="exit")
        self.assertEqual(self.editor.process.wait(10), 0)

    def test_end_without_shutdown(self):
        editor = Editor(self)
        editor.process.stdin.close()
        self.assertEqual(editor.process.wait(10), 1)

    def open_nested(self, *arguments):
        (self.folder / "some pages" / ".rst-known").write_text(KNOWN)
        (self.folder / "some pages" / "links.inc").write_text(LINKS)
        return self.open(NESTED, *arguments)

    def test_messages_of_rst_check(self):
        severities = {"INFO": 3, "WARNING": 2, "ERROR": 1, "SEVERE": 1}
        command = [sys.executable, "-m", "rst2pseudoxml.check", "--format=json", "--level=info"]
        for arguments in ["--code"], ["--level=info"], ["--level=warning", "--code"], ["--level=error"]:
            with self.subTest(arguments):
                shown = self.open_nested(*arguments)
                (self.folder / "some pages" / "page.rst").write_text(NESTED)
                run = subprocess.run([*command, *arguments, "page.rst"], cwd=self.folder / "some pages", env=VARIABLES, stdout=subprocess.PIPE)
                checked = [json.loads(line) for line in run.stdout.splitlines()]
                self.assertEqual(shown, [(one["line"], severities[one["type"]], one["text"]) for one in checked])
                if arguments == ["--code"]:
                    self.assertEqual(sorted(shown), sorted(MESSAGES))

    def test_wrong_arguments(self):
        for argument in "--level=loud", "--profile=wide":
            editor = Editor(self, argument)
            self.assertEqual(editor.process.wait(10), 2)

    def test_profiles(self):
        text = ":mod:`email`: mail\n"
        for arguments, shown, path in (
            ([], [(1, 1, 'Unknown interpreted text role "mod".')], "document > paragraph"),
            (["--profile=docutils"], [(1, 1, 'Unknown interpreted text role "mod".')], "document > paragraph"),
            (["--profile=base"], [], "document > docinfo > field"),
        ):
            with self.subTest(arguments):
                self.assertEqual(self.open(text, *arguments), shown)
                found = self.editor.result("textDocument/hover", textDocument=self.document, position={"line": 0, "character": 0})
                self.assertTrue(found["contents"]["value"].startswith(path), found)

    def test_text_in_directives(self):
        self.open_nested()
        for text, line in ("`Part three`_", 26), ("inside_", 22), ("four_", None), ("one_", None):
            with self.subTest(text):
                self.assertEqual(self.definition(text, 1, NESTED), line)
        inner = "only > change > seealso"
        for line, path in (6, "only"), (10, "only > versionadded"), (16, inner), (20, f"{inner} > note > paragraph"):
            with self.subTest(line):
                found = self.editor.result("textDocument/hover", textDocument=self.document, position={"line": line - 1, "character": 0})
                self.assertEqual(found["contents"]["value"].partition("\n")[0], f"document > {path}")

    def test_known_names(self):
        (self.folder / ".rst-known").write_text("role:ref\n")
        text = ":ref:`a` :doc:`b`\n"
        doc = (1, 1, 'Unknown interpreted text role "doc".')
        self.assertEqual(self.open(text), [doc])
        (self.folder / "some pages" / ".rst-known").write_text("@sphinx-names.txt\n")
        self.assertEqual(self.change(text), [doc])
        self.editor.notify("textDocument/didSave", textDocument=self.document)
        self.assertEqual(self.editor.diagnostics(), [])
        (self.folder / "some pages" / ".rst-known").write_text("@none.txt\n")
        self.editor.notify("textDocument/didSave", textDocument=self.document)
        self.assertIn("none.txt", self.editor.receive()["params"]["message"])
        self.assertEqual(len(self.editor.diagnostics()), 2)

    def test_outline(self):
        self.open(TEXT)

        def outline(symbols):
            return [
                (one["name"], one["range"]["start"]["line"] + 1, one["range"]["end"]["line"] + 1, outline(one["children"])) for one in symbols
            ]

        found = self.editor.result("textDocument/documentSymbol", textDocument=self.document)
        self.assertEqual(outline(found), [("Top", 1, 38, [("Sub part", 7, 38, [("Part three", 23, 32, []), ("Part four", 35, 38, [])])])])
        self.assertEqual(found[0]["children"][0]["selectionRange"], {"start": {"line": 6, "character": 0}, "end": {"line": 6, "character": 8}})

    def test_folds(self):
        self.open(TEXT)
        found = self.editor.result("textDocument/foldingRange", textDocument=self.document)
        self.assertEqual([(one["startLine"] + 1, one["endLine"] + 1) for one in found], [(1, 38), (7, 38), (23, 32), (35, 38), (16, 20)])

    def test_definitions(self):
        self.open(TEXT)
        for text, more, line in (
            ("[1]_", 1, 26),
            ("[#]_ and", 0, 27),
            ("[#x]_", 4, 28),
            ("[*]_", 1, 29),
            ("[#]_,", 1, 30),
            ("`Sub part`_", 3, 7),
            ("`this <there_>`_", 2, 11),
            ("a_ and", 0, 10),
            ("|s|", 1, 32),
            ("[Cit]_", 2, 31),
            ("CIT_", 2, 31),
            ("See", 1, None),
            ("of *two*", 5, None),
        ):
            with self.subTest(text):
                self.assertEqual(self.definition(text, more), line)

    def test_hover(self):
        self.open(TEXT)
        for line, shown in (
            (1, 'document > title\n<title>'),
            (13, 'document > section > paragraph\n<paragraph ids="there a" names="there a">'),
            (18, "document > section > note > bullet_list > list_item > paragraph\n<paragraph>"),
            (20, "document > section > note > bullet_list > list_item > bullet_list > list_item > paragraph\n<paragraph>"),
        ):
            found = self.editor.result("textDocument/hover", textDocument=self.document, position={"line": line - 1, "character": 0})
            self.assertEqual(found["contents"], {"kind": "plaintext", "value": shown})

    def test_line_ends(self):
        """An editor counts no line where the library does, at a line separator, and the other way round nowhere."""
        self.assertEqual(self.open("a\u2028\u2028*b\r\n\r*c"), [(1, 2, rst2pseudoxml.messages("*b")[0].text), (3, 2, rst2pseudoxml.messages("*c")[0].text)])


if __name__ == "__main__":
    unittest.main()
