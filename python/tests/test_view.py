"""Tests of rst-view: the command and the server."""

import base64
import hashlib
import http.client
import io
import json
import os
import re
import subprocess
import sys
import unittest
import urllib.parse
from pathlib import Path
from unittest import mock

from browser import SAMPLE, TOO_DEEP, Folder, run
from rst2pseudoxml import check, view


class Command(Folder):
    def test_a_file(self):
        out = self.folder / "out.html"
        self.assertEqual(run(self.write(SAMPLE), "-o", out), (0, "", ""))
        self.assertTrue(out.read_text().startswith("<!DOCTYPE html>"))

    def test_a_filter(self):
        status, out, err = run("-", given=SAMPLE.encode())
        self.assertEqual((status, err), (0, ""))
        self.assertEqual(out, run(self.write(SAMPLE, "x"), "-o", "-")[1].replace(str(self.folder / "x"), "-"))

    def test_a_browser_is_opened(self):
        seen = self.folder / "seen"
        browser = self.write(f'#!/bin/sh\necho "$1" >{seen}\n', "browser")
        browser.chmod(0o755)
        code = "import sys; from rst2pseudoxml.view import main; sys.exit(main())"
        environment = {**os.environ, "BROWSER": f"{browser} %s", "TMPDIR": str(self.folder), "PYTHONPATH": os.pathsep.join(sys.path)}
        made = subprocess.run([sys.executable, "-c", code, self.write(SAMPLE)], stdout=subprocess.PIPE, text=True, env=environment, check=True)
        page = Path(made.stdout.strip())
        self.assertEqual(seen.read_text().strip(), page.as_uri())
        self.assertIn("</html>", page.read_text())

    def test_refused(self):
        self.assertEqual(run(self.write(TOO_DEEP), "-o", "-"), (1, "", "rst2pseudoxml: line 3: nesting too deep\n"))
        self.assertEqual(run(self.write(b"a\xff"), "-o", "-"), (1, "", "rst2pseudoxml: not UTF-8 at byte 1\n"))

    def test_files_that_fail(self):
        missing = self.folder / "none"
        self.assertEqual(run(missing), (1, "", f"rst-view: cannot open {missing}: No such file or directory\n"))
        self.assertEqual(run("--watch", missing), (1, "", f"rst-view: cannot open {missing}: No such file or directory\n"))
        out = self.folder / "none" / "out"
        self.assertEqual(run(self.write(SAMPLE), "-o", out), (1, "", f"rst-view: cannot write {out}: No such file or directory\n"))

    def test_bad_arguments_are_one_line(self):
        more = "--known=@none a", "--known=a,@none a", "a --known"
        for bad in *more, "", "a b", "--nope a", "-r loud a", "--profile=wide a", "--tab-width=0 a", "--tab-width=x a", "--watch -", "--watch a -o b", "--wat a":
            status, out, err = run(*bad.split())
            self.assertEqual((status, out, err[:10], err.count("\n")), (2, "", "rst-view: ", 1), bad)

    def test_profiles(self):
        for arguments, tag, count in ([], "paragraph", 1), (["--profile=docutils"], "paragraph", 1), (["--profile", "base"], "docinfo", 0):
            page = run("-", *arguments, given=b":mod:`email`: mail\n")[1]
            data = json.loads(re.findall('id="data">(.*?)</script>', page, re.DOTALL)[0])
            self.assertEqual((data["tree"][3][0], len(data["messages"])), (tag, count), arguments)

    def test_nothing_comes_from_elsewhere(self):
        self.assertEqual(re.findall(r"\bsrc=|\bhref=|@import|url\(|https?:|<link|\.innerHTML|\beval\b|style=", view.TEMPLATE), [])

    def test_the_policy_has_the_digests(self):
        page = run("-", given=b"text")[1]
        (policy,) = re.findall('<meta http-equiv="Content-Security-Policy" content="(.*?)">', page)
        for tag in "script", "style":
            (text,) = re.findall(f"<{tag}>(.*?)</{tag}>", page, re.DOTALL)
            digest = base64.b64encode(hashlib.sha256(text.encode()).digest()).decode()
            self.assertIn(f"{tag}-src &#x27;sha256-{digest}&#x27;;", policy)
        self.assertIn("default-src &#x27;none&#x27;;", policy)
        self.assertNotIn("connect-src", policy)


class Known(Folder):
    """With known names the messages are those that rst-check prints."""

    PAGE = """\
.. ours:: An *error

.. seealso::

   Another *one.
   More
\twords.

.. other::

A :doc:`page`, a :term:`word`, a :their:`role`.

- .. |x| ours:: a

  |x| and |y|
"""

    def setUp(self):
        super().setUp()
        self.addCleanup(os.chdir, os.getcwd())
        os.chdir(self.folder)
        self.write(self.PAGE)

    def shown(self, *arguments):
        """What the page holds."""
        status, out, err = run("page.rst", "-o", "-", *arguments)
        self.assertEqual((status, err), (0, ""))
        return json.loads(re.findall('id="data">(.*?)</script>', out, re.DOTALL)[0])

    def messages(self, *arguments):
        return [(message["line"], message["level"], message["type"], message["text"]) for message in self.shown(*arguments)["messages"]]

    def checked(self, *arguments):
        """The messages that rst-check prints."""
        out = io.TextIOWrapper(io.BytesIO(), "utf-8")
        with mock.patch.multiple(sys, argv=["rst-check", "--format=json", *arguments, "page.rst"], stdout=out, stderr=io.StringIO()):
            check.main()
        out.flush()
        found = map(json.loads, out.buffer.getvalue().decode().splitlines())
        return [(message["line"], message["level"], message["type"], message["text"]) for message in found]

    def test_as_rst_check(self):
        counts = set()
        for names in (), ("--known=ours",), ("--known", "@sphinx-names.txt"), ("--known=ours,role:their", "--known=@sphinx-names.txt"):
            for level in "info", "warning", "error", "none":
                wanted = self.checked(f"--level={level}", *names)
                self.assertEqual(self.messages(f"--report={level}", *names), wanted, (names, level))
                counts.add(len(wanted))
        self.assertGreater(len(counts), 5)

    def test_the_file_in_the_current_folder(self):
        before = self.messages()
        self.write("directive:ours text\nrole:their\n@sphinx-names.txt\n", ".rst-known")
        self.assertEqual(self.messages("--known=other"), self.checked("--known=other"))
        wanted = [(1, 2, "WARNING"), (5, 2, "WARNING"), (7, 3, "ERROR"), (15, 3, "ERROR")]
        self.assertEqual([message[:3] for message in self.messages("--known=other")], wanted)
        self.assertNotEqual(before, self.messages())
        self.write("directive:ours nonsense\n", ".rst-known")
        self.assertEqual(run("page.rst", "-o", "-"), (2, "", "rst-view: no such mark of a name: nonsense\n"))

    def test_the_tree_stays(self):
        self.assertEqual(self.shown("--known=@sphinx-names.txt")["tree"], self.shown()["tree"])

    def test_text_is_read_as_the_settings_say(self):
        self.write("directive:ours text\n@sphinx-names.txt\n", ".rst-known")
        errors = [(7, "ERROR", "Unexpected indentation.")]
        for width, wanted in ("8", errors), ("3", []):
            found = [(line, type, text) for line, _, type, text in self.messages(f"--tab-width={width}") if line == 7]
            self.assertEqual(found, wanted)
        self.assertEqual([text for *_, text in self.messages("--line-length-limit=20")], ["Line 11 exceeds the line-length-limit."])


class Served(Folder):
    def setUp(self):
        super().setUp()
        self.path = self.write(SAMPLE)
        self.url = urllib.parse.urlsplit(self.watched(self.path))

    def ask(self, path, host=None, method="GET"):
        connection = http.client.HTTPConnection(self.url.hostname, self.url.port, timeout=60)
        self.addCleanup(connection.close)
        connection.putrequest(method, path, skip_host=True)
        for value in [self.url.netloc] if host is None else host:
            connection.putheader("Host", value)
        connection.endheaders()
        answer = connection.getresponse()
        return answer.status, answer.read().decode(), answer.headers

    def test_only_on_the_loopback_address(self):
        self.assertEqual(self.url.hostname, "127.0.0.1")
        listening = Path("/proc/net/tcp").read_text() + Path("/proc/net/tcp6").read_text()
        found = re.findall(rf": ([0-9A-F]+):{self.url.port:04X} [0-9A-F:]+ 0A ", listening)
        self.assertEqual(found, ["0100007F"])

    def test_who_is_answered(self):
        token = self.url.path
        self.assertGreaterEqual(len(token), 32)
        self.assertEqual(self.ask(token)[0], 200)
        self.assertEqual(self.ask(token + "data?have=0")[0], 200)
        self.assertEqual(self.ask(token + "other")[0], 404)
        for path in "/", "/data", "/favicon.ico", token[:-1], token[:-2] + "/", "/x" + token, token.upper(), "/%2e" + token:
            self.assertEqual(self.ask(path)[:2], (403, "refused\n"), path)
        port = self.url.port
        for host in [], [f"localhost:{port}"], ["127.0.0.1"], [f"example.org:{port}"], [f"127.0.0.1:{port}", "example.org"]:
            self.assertEqual(self.ask(token, host)[:2], (403, "refused\n"), host)
        self.assertNotEqual(self.ask(token, method="POST")[0], 200)

    def test_headers(self):
        for path in self.url.path, self.url.path + "data", "/":
            headers = self.ask(path)[2]
            self.assertIn("default-src 'none'; script-src 'sha256-", headers["Content-Security-Policy"])
            self.assertEqual((headers["X-Content-Type-Options"], headers["Referrer-Policy"]), ("nosniff", "no-referrer"))
            self.assertIsNone(headers["Access-Control-Allow-Origin"])


if __name__ == "__main__":
    unittest.main()
