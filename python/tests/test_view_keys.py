"""Tests of the keys of rst-view's page in Chromium: messages, their filter, searching, and copying a path."""

import os
import unittest
from xml.etree import ElementTree

import rst2pseudoxml
from browser import SAMPLE, Browser

try:
    from selenium.webdriver.common.action_chains import ActionChains
    from selenium.webdriver.common.by import By
    from selenium.webdriver.common.keys import Keys
except ImportError:
    pass  # then the tests are skipped

FIRST = "WARNING, line 15: Inline emphasis start-string without end-string. (1 of 2)"
SECOND = 'ERROR, line 20: Unknown target name: "end". (2 of 2)'
OF_EACH_LEVEL = """\
c. a

An *error

Gone_.

- Title
  =====
"""
FOUND = """\
Wide
words of *great
weight* (*all* of them)

.. image:: plan.png
   :alt: The plan
   :name: big plan

.. image:: map.png
   :alt: The map
   :class: wide tall

x=1 and <b>

Title
-----

| heavy line
"""


class Keyed(Browser):
    def said(self):
        return self.js("return document.getElementById('said').textContent")

    def button(self, name):
        return self.driver.find_element(By.ID, name)

    def pasted(self):
        """What was copied, as the field for searching takes it."""
        self.press("/")
        self.js("document.activeElement.value = ''")
        ActionChains(self.driver).key_down(Keys.CONTROL).send_keys("v").key_up(Keys.CONTROL).perform()
        return self.js("return document.activeElement.value")


class AtOnce(Keyed):
    """Each key works as soon as the page is open, before any click."""

    def opened(self, *keys):
        self.open(SAMPLE)
        self.assertEqual(self.js("return document.activeElement.localName"), "body")
        self.press(*keys)

    def test_the_next_message(self):
        self.opened("n")
        self.assertEqual((self.said(), self.selected(), self.focused()[0]), (FIRST, "system_message", "source"))
        self.press("n")
        self.assertEqual(self.said(), SECOND)

    def test_the_message_before(self):
        self.opened("p")
        self.assertEqual((self.said(), self.selected(), self.focused()[0]), (SECOND, "system_message", "source"))

    def test_finding(self):
        self.opened("/", "n")
        self.assertEqual((self.focused()[0], self.js("return document.activeElement.value"), self.said()), ("wanted", "n", ""))

    def test_copying(self):
        self.opened("c")
        self.js_waits("copied: document")
        self.assertEqual(self.pasted(), "document")

    def js_waits(self, said):
        self.wait("document.getElementById('said').textContent", said)

    def test_help(self):
        self.opened("?")
        self.assertTrue(self.button("help").get_attribute("open"))
        self.assertIn("ids=intro: by a part of an attribute", self.button("help").text)
        self.press("?")
        self.assertFalse(self.button("help").get_attribute("open"))

    def test_hiding_messages(self):
        self.opened("2")
        self.assertEqual(self.said(), "1 WARNING: hidden")
        self.assertEqual([type for _, type, _ in self.notes()], ["ERROR"])

    def test_with_other_keys_they_are_the_browser_s(self):
        self.open(SAMPLE)
        for other in Keys.CONTROL, Keys.ALT:
            ActionChains(self.driver).key_down(other).send_keys("c").key_up(other).perform()
        self.assertEqual(self.said(), "")


class Filter(Keyed):
    KEYS = {"1": "INFO", "2": "WARNING", "3": "ERROR", "4": "SEVERE"}
    LINES = {"INFO": 1, "WARNING": 3, "ERROR": 5, "SEVERE": 8}

    def shown(self):
        """The messages beside lines; those that the keys lead to, and those that aren't dimmed in the tree, are the same."""
        beside = [type for _, type, _ in self.notes()]
        self.press("n")
        total = int(self.said().rpartition(" of ")[2].rstrip(")")) if beside else 0
        passed = []
        for _ in range(total):
            passed.append(self.said().partition(",")[0])
            self.press("n")
        in_tree = self.js("""
            document.getElementById("open").click();
            return [...document.querySelectorAll("#tree .said:not(.quiet) .level")].map(e => e.textContent)""")
        self.assertEqual((sorted(passed), sorted(in_tree)), (sorted(beside), sorted(beside)))
        return beside

    def test_each_level(self):
        self.open(OF_EACH_LEVEL, "--report=info")
        self.assertEqual(self.notes(), [[line, type, text] for (type, line), (_, _, text) in zip(self.LINES.items(), self.notes())])
        for key, type in self.KEYS.items():
            button = self.button(type)
            self.assertEqual((button.text, button.get_attribute("aria-pressed")), (f"1 {type}", "true"))
            self.press(key)
            self.assertEqual(button.get_attribute("aria-pressed"), "false")
            self.assertEqual(self.shown(), [other for other in self.LINES if other != type])
            self.press(key)
            self.assertEqual((self.said(), self.shown()), (f"1 {type}: shown", list(self.LINES)))
            button.click()
            self.assertEqual(self.shown(), [other for other in self.LINES if other != type])
            button.click()
        self.press(*self.KEYS)
        self.assertEqual((self.shown(), self.said()), ([], "1 SEVERE: hidden"))
        self.assertFalse(self.button("following").is_enabled() or self.button("previous").is_enabled())

    def test_a_level_without_messages(self):
        self.open(SAMPLE)
        self.press("1", "4")
        self.assertEqual((self.said(), self.js("return hidden.size")), ("", 0))
        self.assertFalse(self.button("INFO").is_displayed() or self.button("none").is_displayed())
        self.open("fine\n")
        self.assertTrue(self.button("none").is_displayed())

    def test_rows_keep_their_places(self):
        self.open("\n\n".join(f"An *error {n}" for n in range(300)))
        self.js("goToLine(401, true)")
        spot = "source.spot()"
        before = self.js(f"return {spot}")
        self.press("2")
        self.assertEqual(self.js(f"return {spot}"), before)
        self.assertEqual(self.js("return Math.round(source.height / source.unit)"), 599)

    def test_a_level_stays_hidden_when_the_file_changes(self):
        path = self.write(SAMPLE)
        self.driver.get(self.watched(path))
        self.press("2")
        self.write(SAMPLE + "\nAnother *one\n")
        self.wait("document.getElementById('WARNING').textContent", "2 WARNING")
        self.assertEqual([type for _, type, _ in self.notes()], ["ERROR"])


class Search(Keyed):
    def found(self, wanted, *keys):
        """Looks for something: the row that is active then, and what is said."""
        self.press("/")
        self.js("document.activeElement.value = arguments[0]", wanted)  # the list of names isn't opened by this
        self.press(*(keys or [Keys.ENTER]))
        row = self.driver.find_element(By.CSS_SELECTOR, "#tree [aria-selected=true]").get_attribute("aria-label")
        return row, self.said()

    def test_texts(self):
        self.open(FOUND)
        for wanted, row, said in [
            ("weight", "emphasis, great\nweight", "emphasis: somewhere in lines 1 to 3 (1 of 1)"),
            ("WORDS  of great", "paragraph, lines 1 to 3", "paragraph: lines 1 to 3 (1 of 1)"),
            ("(all of", "paragraph, lines 1 to 3", "paragraph: lines 1 to 3 (1 of 1)"),
            ("title", 'title, Title, lines 15 to 16', "title: lines 15 to 16 (1 of 1)"),
            ('"x=1"', "paragraph, x=1 and <b>, line 13", "paragraph: line 13 (1 of 1)"),
            ("x=1 and", "paragraph, x=1 and <b>, line 13", "paragraph: line 13 (1 of 1)"),
            ("X=1", "paragraph, x=1 and <b>, line 13", "paragraph: line 13 (1 of 1)"),  # no element has this attribute
            ("<b>", "paragraph, x=1 and <b>, line 13", "paragraph: line 13 (1 of 1)"),
            ("heavy", "line, heavy line, line 18", "line: line 18 (1 of 1)"),
        ]:
            with self.subTest(wanted):
                self.assertEqual(self.found(wanted), (row, said))
                self.assertEqual(self.focused()[0], "wanted")
        self.found("weight* (")
        self.assertEqual((self.said(), self.js("return source.active + 1")), ("line 3 (1 of 1)", 3))
        self.found("words")
        self.assertEqual(self.js("return source.active + 1"), 2)  # the line of the element that has it
        self.assertEqual(self.found("no such text")[1], "There is nothing like no such text.")

    def test_tags(self):
        self.open(FOUND)
        self.assertEqual(self.found("<image")[0], 'image, alt="The plan" ids="big-plan" names="big\\ plan" uri="plan.png", lines 5 to 7')
        self.assertEqual(self.found("<image>")[1], "image: lines 9 to 11 (2 of 2)")
        self.assertEqual(self.found("<Para")[1], "paragraph: line 13 (2 of 2)")
        self.assertEqual(self.found("<para>")[1], "There is nothing like <para>.")
        self.assertEqual(self.found("<line")[1], "line: line 18 (1 of 1)")  # no line_block, since there is a line
        self.assertEqual(self.found("<table")[1], "There is nothing like <table.")

    def test_attributes(self):
        self.open(FOUND)
        for wanted, line in [
            ("alt=MAP", "lines 9 to 11 (1 of 1)"),
            ('alt="The plan"', "lines 5 to 7 (1 of 1)"),
            ("classes=tal", "lines 9 to 11 (1 of 1)"),
            ('classes="tall"', "lines 9 to 11 (1 of 1)"),
            ('classes="wide tall"', "lines 9 to 11 (1 of 1)"),
            ('names="big\\ plan"', "lines 5 to 7 (1 of 1)"),
            ("alt=the uri=map", "lines 9 to 11 (1 of 1)"),
            ("<image alt=map>", "lines 9 to 11 (1 of 1)"),
            ('<image alt="The plan" uri=plan', "lines 5 to 7 (1 of 1)"),
        ]:
            with self.subTest(wanted):
                self.assertEqual(self.found(wanted)[1], f"image: {line}")
        self.assertEqual(self.found("names=")[1], "section: lines 15 to 18 (2 of 2)")
        for wanted in 'alt="plan"', "<paragraph alt=plan", "width=3":
            self.assertEqual(self.found(wanted)[1], f"There is nothing like {wanted}.")

    def test_one_after_the_other(self):
        self.open(FOUND)
        self.assertEqual(self.found("alt=", Keys.ENTER, Keys.ENTER)[1], "image: lines 9 to 11 (2 of 2)")
        self.press(Keys.ENTER)
        self.assertEqual(self.said(), "image: lines 5 to 7 (1 of 2)")
        ActionChains(self.driver).key_down(Keys.SHIFT).send_keys(Keys.ENTER).key_up(Keys.SHIFT).perform()
        self.assertEqual(self.said(), "image: lines 9 to 11 (2 of 2)")
        self.press(Keys.ESCAPE)
        self.assertEqual((self.selected(), self.focused()[0]), ("image", "tree"))


class Paths(Keyed):
    def test_each_path_leads_to_its_element(self):
        def element(node):
            made = ElementTree.Element(node.tag)
            made.extend(element(child) for child in node.children if isinstance(child, rst2pseudoxml.Node))
            return made

        self.open(SAMPLE + FOUND)
        root = element(rst2pseudoxml.tree(SAMPLE + FOUND, halt="none"))
        paths = self.js("return doc.raw.map((node, i) => pathOf(i))")
        found = [root.find(path.partition("/")[2] or ".") for path in paths if "text()" not in path]
        self.assertEqual(found, list(root.iter()))
        for path in "document/bullet_list[1]/list_item[2]/paragraph[2]", "document/paragraph[1]/text()[2]":
            self.assertIn(path, paths)

    def test_the_key_and_the_button(self):
        self.open(SAMPLE)
        self.item("paragraph", "more").click()
        self.press("c")
        self.wait("document.getElementById('where').textContent", "copied: document/bullet_list[1]/list_item[2]/paragraph[2]")
        self.assertEqual(self.pasted(), "document/bullet_list[1]/list_item[2]/paragraph[2]")
        self.line(17).click()
        self.button("copy").click()
        self.wait("document.getElementById('said').textContent", "copied: document/section[1]/image[1]")
        self.assertEqual(self.pasted(), "document/section[1]/image[1]")

    def test_a_browser_that_copies_nothing(self):
        self.open(SAMPLE)
        self.js("navigator.clipboard.writeText = () => Promise.reject()")
        self.press("c")
        self.wait("document.getElementById('said').textContent", "not copied, since the browser refused it: document")


class Known(Keyed):
    TEXT = ".. seealso:: An *error\n\nAn *error.\n\n.. other::\n\nA :doc:`page`.\n"
    LEFT = [[1, "WARNING"], [3, "WARNING"], [5, "ERROR"]]

    def test_names(self):
        self.open(self.TEXT)
        self.assertEqual([note[:2] for note in self.notes()], [[1, "ERROR"], *self.LEFT[1:], [7, "ERROR"]])
        self.open(self.TEXT, "--known", "@sphinx-names.txt")
        self.assertEqual([note[:2] for note in self.notes()], self.LEFT)
        self.button("open").click()
        quiet = self.js("return [...document.querySelectorAll('#tree .said.quiet')].map(row => row.querySelector('.number').textContent)")
        self.assertEqual(quiet, ["1", "7"])
        self.assertEqual((self.button("ERROR").text, self.button("WARNING").text), ("1 ERROR", "2 WARNING"))
        lines = []
        for _ in range(4):
            self.press("n")
            lines.append(self.js("return source.active + 1"))
        self.assertEqual(lines, [1, 3, 5, 1])

    def test_a_file_that_is_watched(self):
        self.addCleanup(os.chdir, os.getcwd())
        os.chdir(self.folder)
        self.write("@sphinx-names.txt\n", ".rst-known")
        self.driver.get(self.watched(self.write(self.TEXT), "--known=other"))
        self.assertEqual([note[:2] for note in self.notes()], self.LEFT[:2])


if __name__ == "__main__":
    unittest.main()
