#!/usr/bin/env python3
"""Tests the types of the package with mypy, if it is there; pytest runs them, and so does python3 by itself."""

import os
import pathlib
import re
import subprocess
import tempfile
import unittest

import rst2pseudoxml

HERE = pathlib.Path(__file__).resolve().parent


def refused(*arguments):
    """The lines that mypy refuses, as file:line, and what it says."""
    with tempfile.TemporaryDirectory() as cache:
        command = ["mypy", "--strict", "--enable-incomplete-feature=Unpack", f"--cache-dir={cache}", "--no-error-summary", *arguments]
        variables = {**os.environ, "MYPYPATH": str(pathlib.Path(rst2pseudoxml.__file__).parents[1])}
        run = subprocess.run(command, cwd=HERE, env=variables, stdout=subprocess.PIPE, stderr=subprocess.STDOUT, text=True)
    return sorted(set(re.findall(r"^(.*:\d+): error:", run.stdout, re.MULTILINE))), run.stdout


class Types(unittest.TestCase):
    @classmethod
    def setUpClass(cls):
        try:
            subprocess.run(["mypy", "--version"], stdout=subprocess.DEVNULL, check=True)
        except (OSError, subprocess.CalledProcessError):
            raise unittest.SkipTest("there is no mypy") from None

    def test_package(self):
        lines, said = refused("--package=rst2pseudoxml")
        if "stubs not installed" in said:
            self.skipTest("there are no types of Docutils")
        self.assertEqual(lines, [], said)

    def test_wrong_settings(self):
        name = "wrong_settings.py"
        marked = [number for number, line in enumerate((HERE / name).read_text().splitlines(), 1) if "  # " in line]
        self.assertGreater(len(marked), 10)
        lines, said = refused(name)
        self.assertEqual([line for line in lines if line.startswith(name)], sorted(f"{name}:{number}" for number in marked), said)


if __name__ == "__main__":
    unittest.main()
