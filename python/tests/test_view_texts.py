"""Tests of the page of rst-view in Chromium: large and hostile texts, and files that change."""

import os
import sys
import unittest
from pathlib import Path

import rst2pseudoxml
from browser import TOO_DEEP, Browser, printed
from rst2pseudoxml import view

TOP = Path(__file__).resolve().parents[2]
sys.path[:0] = [str(TOP / "scripts"), str(TOP / "bench")]
import prose  # noqa: E402

try:
    from selenium.webdriver.common.by import By
    from selenium.webdriver.common.keys import Keys
except ImportError:
    pass  # then the tests are skipped


class Large(Browser):
    """Time is that of the page's main thread on a processor, so that other programs don't count."""

    def opened(self, text):
        """The seconds that a page takes to open, which are printed."""
        self.driver.execute_cdp_cmd("Performance.enable", {"timeDomain": "threadTicks"})
        self.open(text)
        metrics = self.driver.execute_cdp_cmd("Performance.getMetrics", {})["metrics"]
        self.driver.execute_cdp_cmd("Performance.disable", {})
        (taken,) = [metric["value"] for metric in metrics if metric["name"] == "ThreadTime"]
        print(f"{len(text)} characters: opened in {taken:.2f} seconds", file=sys.stderr)
        return taken

    def test_ten_megabytes(self):
        self.assertLess(self.opened(prose.prose(1_000_000) * 10), 10)
        self.js("source.focus()")
        self.press(Keys.END, Keys.ENTER)
        self.assertEqual(self.focused()[0], "tree")

    def test_a_megabyte(self):
        text = prose.prose(1_000_000)
        self.assertLess(self.opened(text), 1)
        self.assertLess(len(self.driver.find_elements(By.CLASS_NAME, "row")), 400)
        lines = text.count("\n")
        self.js("source.focus()")
        self.press(Keys.END)
        self.assertEqual(self.focused()[0], "source")
        self.assertIn(f"line {lines}: ", self.focused()[1])
        self.press(Keys.ENTER)
        self.assertEqual(self.focused()[0], "tree")
        for pane, first in ("tree", "aria-level"), ("source", "aria-posinset"):
            self.js(f"document.getElementById('{pane}').scrollTop = 0")
            self.wait(f"document.querySelector('#{pane} .row').getAttribute('{first}')", "1")
        covered = self.driver.execute_async_script("""
            const done = arguments[0], pane = document.getElementById("source"), bad = [];
            let left = 30;
            const step = () => {
              const box = pane.getBoundingClientRect(), rows = [...pane.querySelectorAll(".row")].map(row => row.getBoundingClientRect());
              if (rows[0].top > box.top + 1 || rows.at(-1).bottom < box.bottom - 1) bad.push([left, pane.scrollTop]);
              pane.scrollTop += 977;
              if (left--) requestAnimationFrame(() => setTimeout(step)); else done(bad);
            };
            step();""")
        self.assertEqual(covered, [])

    def test_rows_stay_where_those_above_them_turn_out_higher(self):
        self.open("\n\n".join("words " * (1 + n % 90) for n in range(3000)))
        moved = self.driver.execute_async_script("""
            const done = arguments[0], pane = document.getElementById("source"), moved = [];
            const next = act => requestAnimationFrame(() => setTimeout(act));
            const top = line => pane.querySelector(`.row[aria-posinset='${line}']`).getBoundingClientRect().top;
            let left = 25;
            const step = () => {
              const line = [...pane.querySelectorAll(".row")].find(row => row.getBoundingClientRect().top > 100).ariaPosInSet, was = top(line);
              pane.scrollTop -= 300;
              next(() => { moved.push(Math.round(top(line) - was)); if (left--) step(); else done(moved); });
            };
            pane.scrollTop = 60000;
            next(step);""")
        self.assertEqual([by for by in moved if abs(by - 300) > 1], [])

    def test_more_rows_than_a_page_can_be_high(self):
        self.open("\n" * 2_000_000 + "end\n")
        self.js("source.focus()")
        self.press(Keys.END)
        self.assertEqual(self.focused(), ["source", "line 2000001: end"])
        self.press(Keys.ARROW_UP)
        self.assertEqual(self.focused(), ["source", "line 2000000: empty"])
        self.press(Keys.HOME)
        self.assertEqual(self.focused(), ["source", "line 1: empty"])


class Hostile(Browser):
    ATTACKS = [
        "<script>window.hacked = 1</script>",
        "</script><script>window.hacked = 1</script>",
        "<!--<script>",
        "<img src=x onerror=window.hacked=1>",
        "</style></title></textarea><svg onload=window.hacked=1>",
        "%DATA% %TITLE% %POLICY% \\u003c/script> {{1}} ${1}",
        "&lt;b&gt; &amp; &#60;",
    ]

    def test_texts_are_no_markup(self):
        for attack in self.ATTACKS:
            with self.subTest(attack):
                text = f"{attack}\n{'=' * 80}\n\n.. image:: {attack.replace(' ', '_')}\n   :alt: {attack}\n\n{attack}\n\n.. {attack}::\n"
                self.open(text, name=attack.replace("/", "_"))
                self.assertEqual(self.pseudoxml(), printed(rst2pseudoxml.pseudoxml(text)))
                self.assertIsNone(self.js("return window.hacked ?? null"))
                self.assertEqual(self.js("return document.getElementById('name').textContent"), str(self.folder / attack.replace("/", "_")))
                self.assertIn(attack.replace("/", "_"), self.driver.title)
                kinds = self.js("return [...new Set([...document.querySelectorAll('body *')].map(e => e.localName))].sort()")
                self.assertEqual(set(kinds) & {"img", "svg", "iframe", "style", "a", "textarea"}, set())
                self.assertEqual(self.js("return document.scripts.length"), 1)

    def test_the_policy_is_kept(self):
        self.open("text")
        self.js("""
            const script = document.createElement("script");
            try { script.textContent = "window.hacked = 1"; } catch { window.refused = 1; }
            document.body.append(script);""")
        self.assertEqual(self.js("return [window.hacked ?? 0, window.refused ?? 0]"), [0, 1])
        self.js("const s = document.createElement('style'); s.textContent = 'body { display: none !important }'; document.body.append(s);")
        self.assertNotEqual(self.js("return getComputedStyle(document.body).display"), "none")
        self.assertTrue(self.js("try { document.body.innerHTML = '<p>'; return false; } catch { return true; }"))
        self.driver.get_log("browser")  # what was refused is told there

    def test_characters_that_hide(self):
        self.open("left \u202e right\n\nbell \x07, nul \0, del \x7f, isolate \u2066\n")
        self.assertIn("left ⟨U+202E⟩ right", self.line(1).text)
        self.assertIn("bell ␇, nul ␀, del ␡, isolate ⟨U+2066⟩", self.line(3).text)

    def test_deep(self):
        self.open("- " * 250 + "a\n")
        self.press(Keys.END)
        self.line(1).click()
        self.assertEqual(self.js("return document.querySelector('#tree [aria-selected=true]').ariaLevel"), "502")


class Watching(Browser):
    def changed(self, text):
        """Saves the file as editors do, and waits until the page shows it."""
        version = self.js("return doc.data.version")
        other = self.write(text, "other")
        os.replace(other, self.path)
        self.wait(f"doc.data.version > {version}")

    def watch(self, text, **how):
        self.path = self.write(text)
        self.driver.get(self.watched(self.path, **how))

    def test_with_watchdog(self):
        if view.Observer is None:
            self.skipTest("there is no module watchdog")
        self.story()

    def test_without_watchdog(self):
        self.story(without_watchdog=True)

    def story(self, **how):
        body = "".join(f"Section {n}\n----------\n\n- item {n}\n- other\n\nText of {n}.\n\n" for n in range(200))
        self.watch(body, **how)
        self.js("goToLine(100 * 8 + 4, false, true)")
        self.item("section", 'ids="section-100"').click()
        self.press(Keys.ARROW_LEFT)
        place = "[document.querySelector('#tree [aria-selected=true]').getBoundingClientRect().top, source.y - source.top[source.active]]"
        before = self.js(f"return {place}")
        state = "[document.querySelector('#tree [aria-selected=true] .attributes').textContent, " + \
            "document.querySelector('#tree [aria-selected=true]').ariaExpanded, document.activeElement.ariaLabel.slice(0, 7)]"
        kept = ['ids="section-100" names="section\\ 100"', "false", "section"]
        self.assertEqual(self.js(f"return {state}"), kept)

        self.changed("New\n---\n\nA new paragraph.\n\n" + body.replace("Text of 3.", "Text of *three*."))
        self.assertEqual(self.js(f"return {state}"), kept)
        self.assertEqual(self.js(f"return {place}"), before)
        self.assertEqual(self.js("return doc.lines[0]"), "New")

        self.changed(TOO_DEEP)
        self.assertEqual(self.driver.find_element(By.ID, "refused").text, "rst2pseudoxml: line 3: nesting too deep")
        self.assertEqual(self.notes(), [[3, "REFUSED", "rst2pseudoxml: line 3: nesting too deep"]])
        self.assertIn("There is no tree", self.driver.find_element(By.ID, "tree").text)

        self.changed(body)
        self.assertFalse(self.driver.find_element(By.ID, "refused").is_displayed())
        self.assertEqual(self.js(f"return {state}")[:2], kept[:2])
        self.assertEqual(self.js(f"return {place}")[0], before[0])

    def test_a_file_that_goes_and_comes(self):
        self.watch("one\n")
        os.remove(self.path)
        self.wait("document.getElementById('refused').textContent", f"rst-view: cannot open {self.path}: No such file or directory")
        self.write(b"two\n\xff\n")
        self.wait("document.getElementById('refused').textContent", "rst2pseudoxml: not UTF-8 at byte 4")
        self.assertEqual(self.notes()[0][0], 2)
        self.write("three\n")
        self.wait("document.querySelector('#tree').textContent.includes('three')")

    def test_a_file_that_is_refused_at_first(self):
        self.watch(TOO_DEEP)
        self.assertEqual(self.driver.find_element(By.ID, "refused").text, "rst2pseudoxml: line 3: nesting too deep")
        self.changed("fine\n")
        self.assertEqual(self.item("paragraph").text.split()[-1], "fine")


if __name__ == "__main__":
    unittest.main()
