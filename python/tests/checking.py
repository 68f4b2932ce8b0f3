"""What the tests of rst-check share."""

import io
import os
import pathlib
import sys
import tempfile
import unittest
from unittest import mock

from rst2pseudoxml import check

EMPHASIS = "{}:{}: (WARNING/2) Inline emphasis start-string without end-string."


class Checking(unittest.TestCase):
    pages = {}  # what the files of a folder hold, by name

    @classmethod
    def setUpClass(cls):
        kept = tempfile.TemporaryDirectory()
        cls.addClassCleanup(kept.cleanup)
        cls.folder = pathlib.Path(kept.name)
        for name, data in cls.pages.items():
            cls.write(name, data)
        cls.addClassCleanup(os.chdir, os.getcwd())

    @classmethod
    def write(cls, name, data):
        path = cls.folder / name
        path.parent.mkdir(parents=True, exist_ok=True)
        path.write_bytes(data.encode() if isinstance(data, str) else data)

    def said(self, *arguments, folder=""):
        """The status of a call, and the lines that it prints on both streams."""
        os.chdir(self.folder / folder)
        stream = io.TextIOWrapper(io.BytesIO(), "utf-8")
        with mock.patch.multiple(sys, argv=["rst-check", *arguments], stdout=stream, stderr=stream):
            try:
                got = check.main()
            except SystemExit as refused:
                got = refused.code
        stream.flush()
        return got, stream.buffer.getvalue().decode().splitlines()

    def same(self, status, lines, *arguments, folder=""):
        self.assertEqual(self.said(*arguments, folder=folder), (status, lines))
