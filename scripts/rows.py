#!/usr/bin/env python3
"""Runs the worked rows of crates/rst2pseudoxml/src/rows_*.rt against the program itself, over real streams.

    scripts/rows.py [PROGRAM]

A row has arguments, an input, and what standard output, standard error and the exit status are for it. The crate's own tests run the
same rows in memory. No row is left out unseen: text of these files that isn't read here ends the script. PROGRAM is by default
the one that scripts/program.sh finds.
"""

import re
import subprocess
import sys

from program import TOP, program

TABLES = sorted((TOP / "crates/rst2pseudoxml/src").glob("rows_*.rt"))
BEGIN = r"(?:(?://|use )[^\n]*\n|\s)*pub\(super\) const ROWS: &\[Row\] = &\["
TEXT = r'(?:"((?:[^"\\]|\\.)*)"|r(#*)"(.*?)"\2)'
ESCAPE = r"\\(?:u\{([0-9A-Fa-f]+)\}|(.))"
ESCAPES = {"n": "\n", "r": "\r", "t": "\t", "0": "\0", '"': '"', "\\": "\\"}


class Source:
    """A file of source code that is read from its beginning to its end."""

    def __init__(self, path):
        self.name = path.relative_to(TOP)
        self.code = path.read_text(encoding="utf-8")
        self.at = 0

    def fail(self, what):
        sys.exit(f"rows.py: {self.name}:{self.code.count(chr(10), 0, self.at) + 1}: {what}")

    def find(self, pattern):
        """The match of a pattern that comes next, if it does."""
        found = re.compile(r"\s*" + pattern, re.DOTALL).match(self.code, self.at)
        if found:
            self.at = found.end()
        return found

    def take(self, pattern):
        """The match of a pattern that has to come next."""
        return self.find(pattern) or self.fail(f"this script reads only {pattern} here")

    def text(self, field):
        """The text that a field has."""
        return self.literal(self.take(f"{field}: {TEXT},"))

    def constant(self, name):
        """The text of a file that defines nothing but this constant."""
        text = self.literal(self.take(rf"(?://[^\n]*\n|\s)*pub\(super\) const {name}: &str = {TEXT};"))
        self.take(r"\Z")
        return text

    def literal(self, match):
        """The text that a literal with escapes, or a raw one, means."""
        plain, _, raw = match.groups()
        return raw if plain is None else re.sub(ESCAPE, self.escaped, plain, flags=re.DOTALL)

    def escaped(self, match):
        number, letter = match.groups()
        if number:
            return chr(int(number, 16))
        return ESCAPES[letter] if letter in ESCAPES else self.fail(f"this script doesn't read the escape {match[0]!r}")

    def rows(self):
        """Each row: its name, its arguments, its input, and the standard output, standard error and status of it."""
        self.take(BEGIN)
        while self.find(r"Row \{"):
            name, arguments, given, out, err = map(self.text, ("name", "words", "input", "out", "err"))
            yield name, arguments.split(), given, (out, err, int(self.take("status: ([0-9]+),")[1]))
            self.take("},")
        self.take(r"\];\s*\Z")


def outcome(path, arguments, given):
    """Standard output, standard error and the status of a run."""
    run = subprocess.run([path, *arguments], input=given.encode(), stdout=subprocess.PIPE, stderr=subprocess.PIPE, check=False)
    return run.stdout.decode("utf-8", "replace"), run.stderr.decode("utf-8", "replace"), run.returncode


def main():
    path = program(sys.argv[1:])
    passed = failed = 0
    for table in TABLES:
        for name, arguments, given, wanted in Source(table).rows():
            got = outcome(path, arguments, given)
            if got == wanted:
                passed += 1
                continue
            failed += 1
            print(f"{table.relative_to(TOP)}: {name}: wanted\n%s%sstatus %d\ngot\n%s%sstatus %d" % (*wanted, *got))
    print(f"worked rows: {passed} passed, {failed} failed")
    return failed > 0 or passed == 0


if __name__ == "__main__":
    sys.exit(main())
