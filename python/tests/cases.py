"""The documents of the tests, with what the program prints for them: worked rows, mutated documents, and pages of this machine."""

import gzip
import os
import pathlib
import subprocess
import sys

TOP = pathlib.Path(__file__).resolve().parent.parent.parent
sys.path[:0] = [str(TOP / "scripts"), str(TOP / "bench")]

import fuzz  # noqa: E402
from rows import TABLES, Source  # noqa: E402
from wider import SAME, WIDER  # noqa: E402, F401

FLAGS = {
    "--verbose": ("report", "info"),
    "-v": ("report", "info"),
    "--quiet": ("report", "none"),
    "-q": ("report", "none"),
    "--strict": ("halt", "info"),
    "--no-doc-title": ("no_doc_title", True),
    "--no-doc-info": ("no_doc_info", True),
}
PROGRAM = TOP / "dist/rst2pseudoxml"
sys.setrecursionlimit(5000)  # for the tests with deep trees
SHOWN = (0, 11, 12, 13, 14)  # the exit statuses with which a tree is shown


def settings_of(arguments):
    """The settings that options of the program are here; None for a SOURCE, and for options that the program refuses together."""
    settings = {}
    for argument in arguments:
        option, equals, value = argument.partition("=")
        name, value = FLAGS.get(argument, (option[2:].replace("-", "_") if equals else None, value))
        if name is None or name in settings:
            return None
        settings[name] = int(value) if name in ("tab_width", "line_length_limit") and value.isdecimal() else value
    return settings


def printed(arguments, data):
    """Standard output, standard error and the status of the program."""
    run = subprocess.run([PROGRAM, *arguments], input=data, stdout=subprocess.PIPE, stderr=subprocess.PIPE, check=False)
    return run.stdout.decode(), run.stderr.decode(), run.returncode


def cases(documents):
    """A name, settings, the bytes of a text, and what the program prints, of the documents whose options are settings here."""
    for name, arguments, data in documents:
        settings = settings_of(arguments)
        if settings is not None:
            yield name, settings, data, printed(arguments, data)


def rows():
    for table in TABLES:
        for name, arguments, given, _ in Source(table).rows():
            yield name, arguments, given.encode()


def mutated(count):
    mutations = fuzz.Mutations("python", fuzz.corpus())
    for number in range(count):
        yield (f"mutated document {number}", *mutations.of(number))


def pages(count):
    """So many documents from the folder in RST_PAGES, or of the packages of this machine, without those that Docutils takes long for."""
    folder = pathlib.Path(os.environ.get("RST_PAGES", "/usr/share"))
    found = sorted(path for end in ("*.rst", "*.rst.gz", "*.rst.txt") for path in folder.rglob(end) if path.is_file())
    step = max(1, len(found) // count)
    for path in found[::step][:count]:
        data = path.read_bytes()
        yield str(path), ["--halt=none"], gzip.decompress(data) if path.suffix == ".gz" else data

