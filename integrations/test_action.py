#!/usr/bin/env python3
"""Runs the step of the action as GitHub does: its text by bash, in the workspace, with the variables that GitHub sets.

It needs the module yaml. pytest runs it as well. The file of the hook for pre-commit is only read here; the hook itself is run
by scripts/check_integrations.sh.
"""

import os
import pathlib
import subprocess
import tempfile
import unittest

import yaml

TOP = pathlib.Path(__file__).resolve().parent.parent
ACTION = yaml.safe_load((TOP / "action.yml").read_text())
WARNING = "::warning file=%s,line=1::Inline emphasis start-string without end-string."
PAGES = {"good.rst": "fine\n", "in a folder/deeper/b c.rst": "A *word\n", "-x.rst": "A *word\n", ".hidden/d.rst": "A *word\n"}


def run_step(workspace, **given):
    """The status of the step, and the lines that it prints."""
    (step,) = ACTION["runs"]["steps"]
    inputs = {name: given.pop(name, about["default"]) for name, about in ACTION["inputs"].items()}
    assert not given, given
    variables = {"GITHUB_ACTION_PATH": str(TOP), "GITHUB_WORKSPACE": str(workspace)}
    for name, value in step["env"].items():
        (variables[name],) = [text for key, text in inputs.items() if value == "${{ inputs.%s }}" % key]
    script = workspace / "step.sh"
    script.write_text(step["run"])
    done = subprocess.run(
        ["bash", "--noprofile", "--norc", "-eo", "pipefail", script],  # GitHub's `shell: bash`
        cwd=workspace,
        env={**os.environ, **variables},
        stdin=subprocess.DEVNULL,
        stdout=subprocess.PIPE,
        stderr=subprocess.STDOUT,
    )
    return done.returncode, done.stdout.decode("utf-8").splitlines()


class Action(unittest.TestCase):
    def setUp(self):
        kept = tempfile.TemporaryDirectory()
        self.addCleanup(kept.cleanup)
        self.workspace = pathlib.Path(kept.name)
        for name, text in PAGES.items():
            page = self.workspace / name
            page.parent.mkdir(parents=True, exist_ok=True)
            page.write_text(text)

    def same(self, status, lines, **given):
        self.assertEqual(run_step(self.workspace, **given), (status, lines))

    def test_all_pages(self):
        self.same(1, [WARNING % "-x.rst", WARNING % "in a folder/deeper/b c.rst"])

    def test_names_and_patterns(self):
        self.same(0, [], files="good.rst")
        self.same(1, [WARNING % "in a folder/deeper/b c.rst"], files="good.rst\nin a folder/*/*.rst\n")

    def test_level(self):
        self.same(0, [], level="error")
        self.same(2, ["rst-check: no such level: loud"], level="loud")

    def test_nothing_matches(self):
        self.same(1, ["::error file=docs/*.rst::cannot open docs/*.rst"], files="docs/*.rst\ngood.rst")
        status, (line,) = run_step(self.workspace, files="")
        self.assertEqual((status, line.partition(" (")[0]), (2, "rst-check: no file was named"))

    def test_known_names(self):
        (self.workspace / "sphinx.rst").write_text(":ref:`a` :ours:`b`\n")
        unknown = '::error file=sphinx.rst,line=1::Unknown interpreted text role "%s".'
        given = {"files": "sphinx.rst", "level": "error"}
        hint = "sphinx.rst: passes with --known="
        self.same(1, [unknown % "ref", unknown % "ours", hint + "role:ref,role:ours"], **given)
        self.same(1, [unknown % "ours", hint + "role:ours"], known="@sphinx-names.txt", **given)
        self.same(0, [], known="@sphinx-names.txt\nrole:ours,other\n", **given)
        (self.workspace / ".rst-known").write_text("@sphinx-names.txt\nours\n")
        self.same(0, [], **given)

    def test_inputs_are_no_commands(self):
        self.same(1, ["::error file=$(echo good.rst)::cannot open $(echo good.rst)"], files="$(echo good.rst)")
        self.same(2, ["rst-check: cannot read $(echo good.rst)"], known="@$(echo good.rst)", files="good.rst")


class Hook(unittest.TestCase):
    def test_entry(self):
        (hook,) = yaml.safe_load((TOP / ".pre-commit-hooks.yaml").read_text())
        self.assertTrue(os.access(TOP / hook["entry"], os.X_OK))
        self.assertEqual((hook["language"], hook["types"]), ("script", ["rst"]))


if __name__ == "__main__":
    unittest.main()
