#!/usr/bin/env python3
"""Tests of assert_tree; pytest runs them, and so does python3 by itself."""

import unittest

from rst2pseudoxml import Refused
from rst2pseudoxml.testing import assert_tree

HELLO = '<document source="<stdin>">\n    <paragraph>\n        Hello\n'


class Assertions(unittest.TestCase):
    def test_equal(self):
        assert_tree("Hello", HELLO)

    def test_indented(self):
        # In an editor that takes spaces off the ends of lines, write the space at such an end as \x20.
        assert_tree(
            "A **word**.",
            """
            <document source="<stdin>">
                <paragraph>
                    A\x20
                    <strong>
                        word
                    .
            """,
        )

    def test_settings(self):
        assert_tree("a\tb", HELLO.replace("Hello", "a   b"), tab_width=4)

    def test_severe_messages_do_not_halt(self):
        with self.assertRaisesRegex(AssertionError, 'level="4"'):
            assert_tree("- One\n  ===\n", HELLO)
        with self.assertRaises(Refused):
            assert_tree("- One\n  ===\n", HELLO, halt="severe")

    def test_difference(self):
        with self.assertRaises(AssertionError) as failed:
            assert_tree("*Hello*", HELLO)
        self.assertEqual(
            str(failed.exception).split("\n"),
            [
                "the tree differs",
                "--- expected",
                "+++ the tree",
                "@@ -1,4 +1,5 @@",
                ' <document source="<stdin>">',
                "     <paragraph>",
                "-        Hello",
                "+        <emphasis>",
                "+            Hello",
                " ",
            ],
        )

    def test_marks(self):
        for expected, marked in (
            ("    Hallo\n", ["-    Hallo", "?     ^", "+    Hello", "?     ^"]),
            ("    Hello \n", ["-    Hello ", "?         ^", "+    Hello"]),
            ("    Hell\n", ["-    Hell", "+    Hello", "?        ^"]),
            ("    Hello  \n    you\n", ["-    Hello  ", "?         ^^", "-    you", "+    Hello"]),
        ):
            with self.subTest(expected=expected), self.assertRaises(AssertionError) as failed:
                assert_tree("Hello", HELLO.replace("        Hello\n", expected.replace("    ", " " * 8)))
            lines = str(failed.exception).split("\n")
            self.assertEqual([line for line in lines[4:] if line[:1] in tuple("-+?")], [line.replace("    ", " " * 8, 1) for line in marked])

    def test_spaces_and_line_ends_count(self):
        for expected in (HELLO.replace("Hello", "Hello "), HELLO + "\n", HELLO.rstrip("\n"), " " + HELLO, ""):
            with self.subTest(expected=expected), self.assertRaises(AssertionError):
                assert_tree("Hello", expected)


if __name__ == "__main__":
    unittest.main()
