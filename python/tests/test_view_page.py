"""Tests of the page of rst-view in Chromium. What it shows is compared with the worked rows."""

import base64
import re
import subprocess
import sys
import unittest
from pathlib import Path

from browser import SAMPLE, Browser, printed

TOP = Path(__file__).resolve().parents[2]
sys.path[:0] = [str(TOP / "scripts"), str(TOP / "bench")]
import rows  # noqa: E402

try:
    from selenium.webdriver.common.action_chains import ActionChains
    from selenium.webdriver.common.by import By
    from selenium.webdriver.common.keys import Keys
except ImportError:
    pass  # then the tests are skipped


class Pages(Browser):
    def test_worked_rows(self):
        count = 0
        for table in rows.TABLES:
            for name, arguments, given, (out, err, status) in rows.Source(table).rows():
                if arguments or status:
                    continue
                with self.subTest(name):
                    self.open(given)
                    self.assertEqual(self.pseudoxml(), printed(out))
                    said = re.findall(r"^<stdin>:(\d+): \((\w+)/\d\) (.*)$", err, re.MULTILINE)
                    got = [[line, type, text.split("\n")[0]] for line, type, text in self.notes()]
                    self.assertEqual(sorted(got), sorted([int(line), type, text] for line, type, text in said))
                    self.assertEqual(self.js("return doc.messages.filter(m => m.node < 0)"), [])
                    count += 1
        self.assertGreater(count, 50)

    def test_lines_of_elements(self):
        self.open(SAMPLE)
        wanted = {  # by name and text: surely, perhaps, what is said
            ("paragraph", ""): ([4, 5], [], "paragraph: lines 4 to 5"),
            ("emphasis", ""): ([], [4, 5], "emphasis: somewhere in lines 4 to 5"),
            ("bullet_list", ""): ([7, 8, 9, 10], [], "bullet_list: lines 7 to 10"),
            ("list_item", ""): ([7], [], "list_item: line 7"),
            ("paragraph", "more"): ([10], [], "paragraph: line 10"),
            ("problematic", ""): ([15], [], "problematic: line 15"),
            ("image", ""): ([17, 18], [], "image: lines 17 to 18"),
            ("document", ""): ([], [], "document: lines 1 to 20"),
        }
        for (name, text), (sure, maybe, said) in wanted.items():
            ActionChains(self.driver).move_to_element(self.item(name, text)).perform()
            self.assertEqual((self.marked("sure"), self.marked("maybe")), (sure, maybe), name)
            self.item(name, text).click()
            self.assertEqual((self.marked("sure"), self.marked("maybe")), (sure, maybe), name)
            self.assertEqual(self.js("return document.getElementById('where').textContent"), said)
        self.open("a\\\nb\n\n.. role:: x\n\n::\n\n  c\n\n  d\n\n.. role:: y\n")
        for name, sure, maybe, said in [
            ("paragraph", [1], [2], "paragraph: from line 1; its end isn't known, at most line 2"),
            ("literal_block", [8, 9, 10], [11, 12], "literal_block: from line 8; its end isn't known, at most line 12"),
        ]:
            self.item(name).click()
            self.assertEqual((self.marked("sure"), self.marked("maybe")), (sure, maybe), name)
            self.assertEqual(self.js("return document.getElementById('where').textContent"), said)

    def test_lines_to_elements_and_back(self):
        self.open(SAMPLE)
        for line, name in {1: "title", 5: "paragraph", 7: "paragraph", 9: "paragraph", 12: "title", 18: "image"}.items():
            self.line(line).click()
            self.assertEqual((self.selected(), self.focused()[0]), (name, "source"), line)
        self.press(Keys.ENTER)
        self.assertEqual(self.focused(), ["tree", 'image, alt="pict" uri="a.png", lines 17 to 18'])
        self.press(Keys.ARROW_UP, Keys.ENTER)
        self.assertEqual(self.focused()[0], "source")
        ActionChains(self.driver).move_to_element(self.line(18)).perform()
        self.assertEqual(self.js("return document.querySelector('.near .tag').textContent"), "image")

    def test_keys_of_the_tree(self):
        self.open(SAMPLE)
        self.item("bullet_list").click()
        shown = len(self.driver.find_elements(By.CSS_SELECTOR, "#tree .row"))
        self.press(Keys.ARROW_LEFT)
        self.assertEqual(self.item("bullet_list").get_attribute("aria-expanded"), "false")
        self.assertEqual(len(self.driver.find_elements(By.CSS_SELECTOR, "#tree .row")), shown - 5)
        self.line(8).click()
        self.assertEqual((self.selected(), self.item("bullet_list").get_attribute("aria-expanded")), ("paragraph", "true"))
        self.press(Keys.ENTER, Keys.ARROW_LEFT)
        self.assertEqual(self.selected(), "list_item")
        self.press(*[Keys.ARROW_LEFT] * 4)
        self.assertEqual(self.selected(), "document")
        self.press(Keys.ARROW_RIGHT, Keys.ARROW_DOWN)
        self.assertEqual(self.selected(), "paragraph")
        self.press(Keys.END)
        self.assertEqual(self.selected(), "system_message")
        self.press(Keys.HOME)
        self.assertEqual((self.selected(), self.focused()[0]), ("document", "tree"))

    def test_messages_one_after_the_other(self):
        self.open(SAMPLE)
        self.item("document").click()
        seen = []
        for key in "nnnp":
            self.press(key)
            seen.append(self.js("return document.getElementById('said').textContent"))
            self.assertEqual((self.selected(), self.focused()[0]), ("system_message", "tree"))
        first = "WARNING, line 15: Inline emphasis start-string without end-string. (1 of 2)"
        second = 'ERROR, line 20: Unknown target name: "end". (2 of 2)'
        self.assertEqual(seen, [first, second, first, second])
        self.assertEqual(self.js("return document.querySelector('.current').textContent"), 'ERROR Unknown target name: "end".')
        self.driver.find_element(By.ID, "previous").click()
        self.assertEqual(self.js("return document.getElementById('said').textContent"), first)

    def test_settings(self):
        self.open("One\n===\n\nc. a\n\n\tb\n", "--no-doc-title", "--report=info", "--tab-width=3")
        self.assertEqual(self.notes(), [[4, "INFO", 'Enumerated list start value not ordinal-1: "c" (ordinal 3)']])
        self.assertEqual(self.pseudoxml()[:2], ["<document>", '    <section ids="one" names="one">'])
        self.assertEqual(self.js("return [...document.querySelectorAll('#tree .row')].filter(r => r.ariaLevel == 5).length"), 2)

    def test_long_texts(self):
        self.open("word " * 300 + "end\n\n- a\n\n" + "x" * 5000 + "\n")
        self.item("paragraph", "word").click()
        row = self.item("paragraph", "word")
        self.assertLess(len(row.text), 400)
        low = row.size["height"]
        self.press(" ")
        row = self.item("paragraph", "word")
        self.assertIn("word end", row.text)
        self.assertGreater(row.size["height"], 3 * low)
        row.find_element(By.CLASS_NAME, "more").click()
        self.assertEqual(self.item("paragraph", "word").size["height"], low)
        self.assertIn("3,000 more characters", self.line(5).text)
        self.line(5).find_element(By.CLASS_NAME, "more").click()
        self.assertIn("x" * 5000, self.line(5).text)


def contrast(one, other):
    """The contrast of two colours, by the rule of WCAG 2."""

    def light(colour):
        digits = colour[1:] if len(colour) == 7 else "".join(2 * digit for digit in colour[1:])
        parts = [int(digits[at : at + 2], 16) / 255 for at in (0, 2, 4)]
        return sum(part * (v / 12.92 if v <= 0.04045 else ((v + 0.055) / 1.055) ** 2.4) for part, v in zip((0.2126, 0.7152, 0.0722), parts))

    low, high = sorted([light(one), light(other)])
    return (high + 0.05) / (low + 0.05)


class Reading(Browser):
    """Who reads with the keyboard, with a screen reader, enlarged, in the dark, or on paper."""

    def test_roles(self):
        self.open(SAMPLE)
        nodes = self.driver.execute_cdp_cmd("Accessibility.getFullAXTree", {})["nodes"]
        found = {}
        for node in nodes:
            if not node["ignored"]:
                properties = {p["name"]: p["value"].get("value") for p in node.get("properties", [])}
                found.setdefault(node["role"]["value"], []).append((node.get("name", {}).get("value"), properties))
        self.assertEqual([name for name, _ in found["tree"] + found["listbox"]], ["Document tree", "Source"])
        items = dict(found["treeitem"])
        bullets = items['bullet_list, bullet="-", lines 7 to 10']
        self.assertEqual((bullets["expanded"], bullets["level"]), (True, 2))
        self.assertNotIn("expanded", items["paragraph, one, line 7"])
        self.assertEqual(items["paragraph, one, line 7"]["level"], 4)
        self.assertIn("line 15: An *error. WARNING: Inline emphasis start-string without end-string.", dict(found["option"]))
        self.assertIn("line 3: empty", dict(found["option"]))
        self.assertIn("Previous message", dict(found["button"]))
        item = self.item("list_item")
        self.assertEqual([item.get_attribute(f"aria-{name}") for name in ("level", "posinset", "setsize")], ["3", "1", "2"])
        self.assertEqual(item.find_element(By.XPATH, "..").get_attribute("role"), "group")

    def test_one_stop_for_the_tabulator_in_each_pane(self):
        self.open(SAMPLE)
        for pane in "source", "tree":
            self.assertEqual(len(self.driver.find_elements(By.CSS_SELECTOR, f"#{pane}[tabindex='0'], #{pane} [tabindex='0']")), 1)
        stops = []
        self.js("document.activeElement.blur()")
        for _ in range(10):
            self.press(Keys.TAB)
            stops.append(self.focused()[0])
        self.assertEqual(stops, ["ERROR", "WARNING", "previous", "following", "wanted", "shut", "open", "copy", "source", "tree"])

    def test_the_focus_stays_where_rows_are_made_anew(self):
        self.open("\n\n".join(f"paragraph {n}" for n in range(2000)))
        self.js("tree.focus()")
        self.press(Keys.ARROW_DOWN, Keys.ARROW_DOWN)
        before = self.focused()
        self.js("document.getElementById('tree').scrollTop = 20000")
        self.wait("document.activeElement.id", "tree")  # the row isn't there
        self.press(Keys.ARROW_DOWN)
        self.assertEqual((before, self.focused()), (["tree", "paragraph, paragraph 1, line 3"], ["tree", "paragraph, paragraph 2, line 5"]))
        self.press(*[Keys.PAGE_DOWN] * 5)
        self.assertIn("paragraph", self.focused()[1])

    def test_enlarged(self):
        self.driver.execute_cdp_cmd("Emulation.setDeviceMetricsOverride", {"width": 320, "height": 256, "deviceScaleFactor": 4, "mobile": False})
        self.open(SAMPLE + "\nA long line " + "with words " * 30)
        self.js("document.getElementById('open').click()")
        wide = "[document.documentElement, ...document.querySelectorAll('.pane')].filter(e => e.scrollWidth > e.clientWidth).map(e => e.id)"
        self.assertEqual(self.js(f"return {wide}"), [])
        self.line(7).click()
        self.press(Keys.ENTER)
        place = self.js("const r = document.activeElement.getBoundingClientRect(); return [r.top >= 0, r.bottom <= innerHeight + 1]")
        self.assertEqual((self.focused()[0], place), ("tree", [True, True]))

    def test_colours(self):
        self.open(SAMPLE)
        ink = {}
        for scheme in "light", "dark":
            self.driver.execute_cdp_cmd("Emulation.setEmulatedMedia", {"features": [{"name": "prefers-color-scheme", "value": scheme}]})
            colours = self.js("""
                const style = getComputedStyle(document.documentElement);
                return Object.fromEntries("paper ink dim band sure maybe tag info warning error severe bar".split(" ")
                  .map(name => [name, style.getPropertyValue("--" + name).trim()]));""")
            for front in "ink", "dim", "tag", "info", "warning", "error", "severe", "bar":
                for back in "paper", "band", "sure", "maybe":
                    if (front, back) != ("bar", "sure"):
                        self.assertGreaterEqual(contrast(colours[front], colours[back]), 4.5, (scheme, front, back))
            ink[scheme] = self.js("return getComputedStyle(document.documentElement).color")
        self.assertNotEqual(ink["light"], ink["dark"])

    def test_printed(self):
        self.open("\n\n".join(f"paragraph {n}" for n in range(500)))
        made = self.driver.execute_cdp_cmd("Page.printToPDF", {})
        self.assertLess(len(self.driver.find_elements(By.CLASS_NAME, "row")), 400)  # what was made for the printer is gone
        pdf = self.write(base64.b64decode(made["data"]), "page.pdf")
        try:
            text = subprocess.run(["pdftotext", "-layout", pdf, "-"], stdout=subprocess.PIPE, text=True, check=True).stdout
        except FileNotFoundError:
            self.skipTest("there is no pdftotext")
        self.assertEqual([n for n in range(500) if len(re.findall(rf"\bparagraph {n}\b", text)) != 2], [])


if __name__ == "__main__":
    unittest.main()
