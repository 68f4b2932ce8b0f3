"""What the tests of rst-view have in common: texts, runs in this process, and Chromium."""

import contextlib
import io
import os
import shutil
import subprocess
import sys
import tempfile
import time
import unittest
from pathlib import Path

from rst2pseudoxml import view

try:
    from selenium import webdriver
    from selenium.common.exceptions import WebDriverException
    from selenium.webdriver.chrome.service import Service
    from selenium.webdriver.common.action_chains import ActionChains
    from selenium.webdriver.common.by import By
    from selenium.webdriver.remote.remote_connection import RemoteConnection
except ImportError:
    webdriver = None

TOO_DEEP = "text\n\n" + "- " * 251 + "a\n"
SAMPLE = """\
Title
=====

A *word* in a paragraph
of two lines.

- one
- two

  more

Section
-------

An *error

.. image:: a.png
   :alt: pict

End_.
"""


def run(*arguments, given=b""):
    """The status and both outputs of a run in this process."""
    out, err = io.TextIOWrapper(io.BytesIO(), "utf-8"), io.StringIO()
    stdin = io.TextIOWrapper(io.BytesIO(given))
    with contextlib.redirect_stdout(out), contextlib.redirect_stderr(err):
        old, sys.stdin = sys.stdin, stdin
        try:
            status = view.main([*map(str, arguments)])
        except SystemExit as exit:
            status = exit.code
        finally:
            sys.stdin = old
    out.flush()
    return status, out.buffer.getvalue().decode(), err.getvalue()


class Folder(unittest.TestCase):
    """Each test has a folder of its own."""

    def setUp(self):
        folder = tempfile.TemporaryDirectory()
        self.addCleanup(folder.cleanup)
        self.folder = Path(folder.name)

    def write(self, text, name="page.rst"):
        path = self.folder / name
        path.write_bytes(text.encode() if isinstance(text, str) else text)
        return path

    def watched(self, path, *arguments, without_watchdog=False):
        """The address at which a process serves a file; the process ends with the test."""
        missing = "sys.modules['watchdog.events'] = sys.modules['watchdog.observers'] = None; " if without_watchdog else ""
        code = f"import sys; {missing}from rst2pseudoxml.view import main; sys.exit(main())"
        environment = {**os.environ, "BROWSER": "true", "PYTHONPATH": os.pathsep.join(sys.path)}
        process = subprocess.Popen([sys.executable, "-c", code, "--watch", *arguments, path], stdout=subprocess.PIPE, text=True, env=environment)
        self.addCleanup(process.stdout.close)
        self.addCleanup(process.wait)
        self.addCleanup(process.terminate)
        return process.stdout.readline().strip()


def find_browser():
    """A Chromium that runs, or why there is none."""
    if webdriver is None:
        return None, "there is no module selenium"
    options = webdriver.ChromeOptions()
    for argument in "--headless=new", "--no-sandbox", "--disable-gpu", "--window-size=1280,900":
        options.add_argument(argument)
    options.set_capability("goog:loggingPrefs", {"browser": "ALL"})
    RemoteConnection.set_timeout(120)  # a browser that hangs is a test that fails
    try:
        return webdriver.Chrome(service=Service(shutil.which("chromedriver") or "chromedriver"), options=options), None
    except (WebDriverException, OSError) as error:
        return None, f"no Chromium runs here: {str(error).splitlines()[0]}"


class Browser(Folder):
    """Tests of the page. Each begins in a window of the same size, in light colours."""

    @classmethod
    def setUpClass(cls):
        cls.driver, why = find_browser()
        if why:
            print(f"skipped: {cls.__name__} of rst-view, as {why}", file=sys.stderr)
            raise unittest.SkipTest(why)
        cls.addClassCleanup(cls.driver.quit)
        cls.driver.set_script_timeout(120)

    def setUp(self):
        super().setUp()
        self.driver.execute_cdp_cmd("Emulation.clearDeviceMetricsOverride", {})
        self.driver.execute_cdp_cmd("Emulation.setEmulatedMedia", {"media": "", "features": []})

    def tearDown(self):
        errors = [entry["message"] for entry in self.driver.get_log("browser") if entry["level"] == "SEVERE" and "favicon" not in entry["message"]]
        self.driver.get("about:blank")
        self.assertEqual(errors, [])

    def open(self, text, *arguments, name="page.rst"):
        out = self.folder / "out.html"
        self.assertEqual(run(self.write(text, name), *arguments, "-o", out), (0, "", ""))
        self.driver.get(out.as_uri())

    def js(self, code, *arguments):
        return self.driver.execute_script(code, *arguments)

    def wait(self, code, wanted=True, seconds=30):
        """Waits until an expression of the page has a value."""
        end = time.monotonic() + seconds
        while (got := self.js(f"return {code}")) != wanted:
            if time.monotonic() > end:
                self.fail(f"{code} is {got!r}, not {wanted!r}")
            time.sleep(0.05)

    def press(self, *keys):
        ActionChains(self.driver).send_keys(*keys).perform()

    def item(self, name, text=""):
        """The first element of the page's tree with this name and text."""
        for row in self.driver.find_elements(By.CSS_SELECTOR, "#tree .row"):
            if row.text.replace("\n", " ").lstrip("0123456789–▾▸ ").startswith(name) and text in row.text:
                return row
        return self.fail(f"there is no {name} {text}")

    def line(self, number):
        return self.driver.find_element(By.CSS_SELECTOR, f"#source .row[aria-posinset='{number}']")

    def selected(self):
        """The name of the active element."""
        return self.js("return document.querySelector('#tree [aria-selected=true] :is(.tag, .text)')?.textContent")

    def marked(self, kind):
        """The numbers of the lines that are marked."""
        return self.js(f"return [...document.querySelectorAll('#source .{kind} > .number')].map(e => Number(e.textContent))")

    def focused(self):
        return self.js("return [document.activeElement.closest('.pane')?.id ?? document.activeElement.id, document.activeElement.ariaLabel]")

    def pseudoxml(self):
        """The tree as the page shows it when all is expanded and no text is shortened, written as the program prints trees."""
        found = self.js("""
            doc.whole.fill(1);
            document.getElementById("open").click();
            dispatchEvent(new Event("beforeprint"));
            const part = (row, name) => row.querySelector(name)?.textContent ?? null;
            const all = [...document.querySelectorAll("#tree .row")].map(row =>
              [Number(row.ariaLevel), part(row, ".tag"), part(row, ".attributes"), part(row, ".text")]);
            dispatchEvent(new Event("afterprint"));
            return all;""")
        lines = []
        for level, tag, attributes, text in found:
            if tag:
                lines.append("    " * (level - 1) + f"<{tag}{' ' + attributes if attributes else ''}>")
            if text:
                lines += ["    " * (level - (tag is None)) + line for line in text.removesuffix("\n").split("\n")]
        return lines

    def notes(self):
        """The lines of the page that messages are beside, with these."""
        return self.js("""
            dispatchEvent(new Event("beforeprint"));
            const all = [...document.querySelectorAll("#source .note")].map(note =>
              [Number(note.parentNode.ariaPosInSet), note.firstChild.textContent, note.lastChild.textContent.trim()]);
            dispatchEvent(new Event("afterprint"));
            return all;""")


def printed(tree):
    """The lines of a tree as the page has them: without the source, and with control characters that can be seen."""
    seen = {number: 0x2400 + number for number in range(32) if number not in (9, 10)}
    return tree.replace(' source="<stdin>"', "").translate(seen).removesuffix("\n").split("\n")
