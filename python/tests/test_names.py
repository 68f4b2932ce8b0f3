"""Which directives and roles of a text are handed back to Docutils."""

import unittest
from unittest import mock

from test_hand import Box, register, shout

from docutils.parsers.rst import directives, roles

import rst2pseudoxml
from rst2pseudoxml import _names
from rst2pseudoxml.docutils import Parser, doctree


class Names(unittest.TestCase):
    def test_own(self):
        """The library has what the lists say, and nothing else that Docutils has."""
        for profile, (of_directives, of_roles) in _names.OWN.items():
            for name in {*directives._directive_registry, *of_directives, *_names.languages.en.directives}:
                said = [message.text for message in rst2pseudoxml.messages(f".. {name}:: a\n\n   b", profile=profile, halt="none")]
                if name != "include" and name not in _names.PLACES:  # the first is known, but no file is read; the others are handed back
                    self.assertEqual(name in of_directives, f'Unknown directive type "{name}".' not in said, (profile, name))
            for name in {*roles._role_registry, *of_roles, *_names.languages.en.roles}:
                said = [message.text for message in rst2pseudoxml.messages(f":{name}:`a`", profile=profile, halt="none")]
                self.assertEqual(name in of_roles, f'Unknown interpreted text role "{name}".' not in said, (profile, name))

    def test_registered(self):
        text = ".. box::\n\n.. nope::\n\n.. note:: :shout:`a` :b:`c` :math:`d` `e`:sub:\n\n.. |f| count:: g\n\n.. class:: h\n"
        register()
        for hand, wanted in (
            ("registered", ({"box", "count", "class"}, {"shout"})),
            (["note", "sub"], ({"box", "count", "class", "note"}, {"shout", "sub"})),
            ("all", ({"box", "nope", "note", "count", "class"}, {"shout", "b", "math", "sub"})),
            ("others", ({"box", "nope", "count", "class"}, {"shout", "b"})),
        ):
            self.assertEqual(_names.Names(hand, "docutils").of(text, "en"), wanted, hand)

    def test_places(self):
        """Directives that leave a place for a transform are handed back whatever else is, also where they have content."""
        text = "a\n\n.. class:: b\n\n.. Contents:: c\n\n- .. CLASS:: d\n\n     e\n"
        for profile in ("base", "docutils"):
            for hand in ("registered", "all", "others", ["note"], []):
                self.assertEqual(_names.Names(hand, profile).of(text, "en"), ({"class", "contents"}, set()), (profile, hand))
        for text, wanted in (
            (".. class:: x\n\na", '<paragraph classes="x">'),
            (".. class:: x\n\n   a", '<paragraph classes="x">'),
            (".. contents:: x\n\na\n=", '<reference ids="toc-entry-1" refid="a">'),
        ):
            for profile in ("base", "docutils"):
                self.assertIn(wanted, doctree(text, profile=profile, hand=["note"]).pformat(), (profile, text))

    def test_default_role(self):
        """Text without a role is handed back only if it may have another role than Docutils gives it."""
        title = roles._role_registry["title-reference"]
        for text, language, default, wanted in (
            ("`a` :title:`b`", "en", title, (set(), set())),
            ("`a`", "en", shout, (set(), {""})),
            ("a", "en", shout, (set(), set())),
            ("`a`\n\n.. default-role:: sub", "en", title, ({"default-role"}, {""})),
            ("a\n\n.. default-role:: sub", "en", title, ({"default-role"}, set())),
            ("`a`\n\n.. include:: b", "en", title, ({"include"}, {""})),
            ("`a`\n\n.. Standardrolle:: sub", "de", title, ({"standardrolle"}, {""})),
            (".. rolle:: a\n\n:a:`b` :c:`d`", "de", title, ({"rolle"}, {"a"})),
        ):
            with self.subTest(text), mock.patch.dict(roles._roles, {"": default}):
                self.assertEqual(_names.Names("registered", "docutils").of(text, language), wanted)
        with mock.patch.dict(roles._role_registry, {"title-reference": shout}):
            roles._roles.pop("", None)
            self.assertEqual(_names.Names("registered", "docutils").of("`a`", "en"), (set(), {""}))

    def test_words_before_colons(self):
        """A directive is only where dots are before its name."""
        text = "a::\n\n  b c::\n\n.. d:: e::\n\n.. |f| g:: h\n\n:i:`j` k:`l` `m`: n `o`:p:\n"
        self.assertEqual(_names.Names("all", "docutils").of(text, "en"), ({"d", "e", "g"}, {"i", "p"}))

    def test_long_lines(self):
        """However long the line before a name is, the name is found."""
        text = f".. |{'a b ' * 90}| c:: d\n\n{'a:b ' * 90}:e:`f` {'`a`:b:' * 90} `g`:h:\n"
        self.assertEqual(_names.Names("all", "docutils").of(text, "en"), ({"c"}, {"b", "e", "h"}))

    def test_in_the_place_of_docutils(self):
        """What an extension has registered under a name of the profile is handed back."""
        text = ".. note:: a\n\n:sub:`b`\n"
        with mock.patch.dict(directives._directives, {"note": Box}), mock.patch.dict(roles._roles, {"sub": shout}):
            self.assertEqual(_names.Names("registered", "docutils").of(text, "en"), ({"note"}, {"sub"}))
        roles._roles.clear()
        directives._directives.pop("note", None)
        self.assertEqual(_names.Names("registered", "docutils").of(text, "en"), (set(), set()))

    def test_wrong(self):
        for call in (lambda hand: Parser(hand=hand), lambda hand: doctree("a", hand=hand)):
            for wrong, error in (("some", ValueError), (["a", 1], TypeError), (7, TypeError)):
                with self.assertRaises(error):
                    call(wrong)


if __name__ == "__main__":
    unittest.main()
