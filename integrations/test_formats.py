#!/usr/bin/env python3
"""Tests the formats of check-pages.sh, and the problem matchers for VS Code on the first of them; pytest runs it as well."""

import json
import pathlib
import re
import subprocess
import tempfile
import unittest

HERE = pathlib.Path(__file__).resolve().parent
PAGES = {
    "a page.rst": "c. one\n\nA *word\n\n.. nope::\n\n- One\n  ===\n",
    "a:b,%.rst": 'figure_\n\n.. image::\n\n|a\\\\ "100%"|\n',  # a message with a second line, source text, and characters with a meaning
    "deep.rst": "text\n\n" + "- " * 251 + "a\n",
    "good.rst": "fine\n",
}
# File, line, level, type and text of each message; of a refused page the level is None.
WANTED = [
    ("a page.rst", 1, 1, "INFO", 'Enumerated list start value not ordinal-1: "c" (ordinal 3)'),
    ("a page.rst", 3, 2, "WARNING", "Inline emphasis start-string without end-string."),
    ("a page.rst", 5, 3, "ERROR", 'Unknown directive type "nope".'),
    ("a page.rst", 8, 4, "SEVERE", "Unexpected section title."),
    ("a:b,%.rst", 3, 3, "ERROR", 'Error in "image" directive:\n1 argument(s) required, 0 supplied.'),
    ("a:b,%.rst", 5, 3, "ERROR", 'Undefined substitution referenced: "a\\ "100%"".'),
    ("a:b,%.rst", 1, 3, "ERROR", 'Unknown target name: "figure".'),
    ("deep.rst", 3, None, "REFUSED", "nesting too deep"),
    ("missing.rst", None, None, "REFUSED", "cannot open missing.rst"),
]
SEVERITIES = {1: "info", 2: "warning"}


def matchers():
    """The (severity, pattern) pairs of the tasks for VS Code."""
    (task,) = json.loads((HERE / "vscode-tasks.json").read_text())["tasks"]
    for matcher in task["problemMatcher"]:
        pattern = matcher["pattern"]
        # VS Code needs a line, unless the pattern says that it has none.
        assert "line" in pattern or pattern["kind"] == "file", pattern
        yield matcher["severity"], pattern


def problem(text, severity, pattern):
    """What a matcher finds in a line of output: (file, line, severity, message), or None."""
    match = re.search(pattern["regexp"], text, re.ASCII)
    if match is None:
        return None
    part = {key: match[group] for key, group in pattern.items() if isinstance(group, int)}
    # If VS Code doesn't know a severity, it takes the matcher's.
    said = part.get("severity", "").lower()
    known = said if said in ("error", "warning", "info") else severity
    return part["file"], int(part["line"]) if "line" in part else None, known, part["message"]


def problems(output):
    """What the matchers find in the lines of output. No two of them may find one line."""
    found = []
    for text in output.split("\n"):
        here = [problem(text, *matcher) for matcher in matchers()]
        here = [one for one in here if one is not None]
        assert len(here) <= 1, (text, here)
        found += here
    return found


def unescaped(text):
    for character in ":,\r\n%":
        text = text.replace("%%%02X" % ord(character), character)
    return text


def annotation(text):
    """File, line, kind and message of a workflow command of GitHub."""
    kind, file, line, message = re.fullmatch(r"::(notice|warning|error) file=([^,:]*)(?:,line=([0-9]+))?::(.*)", text).groups()
    return unescaped(file), line and int(line), kind.replace("notice", "info"), unescaped(message)


def run(folder, *command):
    done = subprocess.run(command, cwd=folder, stdin=subprocess.DEVNULL, stdout=subprocess.PIPE, stderr=subprocess.STDOUT)
    return done.stdout.decode("utf-8")


class Formats(unittest.TestCase):
    @classmethod
    def setUpClass(cls):
        kept = tempfile.TemporaryDirectory()
        cls.addClassCleanup(kept.cleanup)
        cls.folder = pathlib.Path(kept.name)
        for name, text in PAGES.items():
            (cls.folder / name).write_text(text)

    def output(self, form):
        return run(self.folder, str(HERE / "check-pages.sh"), "--level=info", f"--format={form}", *PAGES, "missing.rst")

    def severe(self, lines_of_message):
        """The wanted messages, with a severity in place of level and type, and this many lines of each text."""
        return [
            (file, line, SEVERITIES.get(level, "error"), "\n".join(text.split("\n")[:lines_of_message]))
            for file, line, level, _, text in WANTED
        ]

    def test_json(self):
        objects = [json.loads(line) for line in self.output("json").splitlines()]
        self.assertEqual(objects, [dict(zip(("file", "line", "level", "type", "text"), one)) for one in WANTED])

    def test_github(self):
        self.assertEqual([annotation(line) for line in self.output("github").splitlines()], self.severe(None))

    def test_vscode(self):
        self.assertEqual(problems(self.output("gcc")), self.severe(1))

    def test_a_refusal_of_the_program_itself(self):
        # It names no file, which VS Code can't show.
        self.assertEqual(problems(run(self.folder, str(HERE.parent / "rst2pseudoxml"), ".")), [])


if __name__ == "__main__":
    unittest.main()
