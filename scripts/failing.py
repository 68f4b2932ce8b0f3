#!/usr/bin/env python3
"""Lets each allocation, each read and each write of runs over one document fail in turn, and reads and writes move few bytes.

    scripts/failing.py [PROGRAM]

The document is that of crates/rst2pseudoxml/src/whole_document.rt. If an allocation fails, the program has to print the one line that memory
ran out, and nothing on standard output. If a read or a write fails, or a write takes no byte, it has to print the line for that, and nothing
more on standard output, so what was written is a prefix of the whole. Short reads and writes must change nothing: with one byte a call, a call
fails after each byte. Allocations fail also in a run with all options that go together, over a file. PROGRAM is by default the one that
scripts/program.sh finds. Without a C compiler, `cc` or the kit's, or if the program has the C library inside, nothing is tried, and the exit
status is 77.
"""

import concurrent.futures
import os
import pathlib
import shutil
import subprocess
import sys
import tempfile

from program import TOP, program
from rows import Source

HERE = pathlib.Path(__file__).resolve().parent
SKIPPED = 77
NAME = b"rst2pseudoxml: "
# The most bytes that a read or a write moves; 0 for as many as there are.
STEPS = [1, 7, 97, 0]
OPTIONS = "-r info --halt=5 --exit-status=error --no-doc-title --no-doc-info --tab-width=4 --line-length-limit=500".split()


def compiler():
    """A command that compiles C to a library, if there is a compiler."""
    if shutil.which("cc"):
        return ["cc", "-shared", "-fPIC"]
    if shutil.which("rt"):
        page = subprocess.run(["rt", "doc"], stdout=subprocess.PIPE, text=True, check=False).stdout.removesuffix("\n")
        clang = pathlib.Path(page).parent / "toolchain/bin/clang"
        if clang.is_file():
            return [str(clang), "-shared", "-fPIC", "-nostdlib", "-fuse-ld=lld"]
    return None


def skip(why):
    print(f"skipped: {why}")
    sys.exit(SKIPPED)


def preloaded(folder):
    """failing.c as a library in a folder."""
    words = compiler()
    if not words:
        skip("there is no C compiler, neither cc nor the kit's")
    library = os.path.join(folder, "failing.so")
    if subprocess.run([*words, "-o", library, str(HERE / "failing.c")], check=False).returncode:
        sys.exit(f"{os.path.basename(sys.argv[0])}: {words[0]} doesn't compile failing.c")
    return library


def document():
    """The text of whole_document.rt."""
    source = Source(TOP / "crates/rst2pseudoxml/src/whole_document.rt")
    return source.constant("DOCUMENT").encode()


class Trial:
    """A command over an input, with calls of the C library that fail."""

    def __init__(self, command, text, library, status=0):
        self.command = command
        self.text = text
        self.library = library
        self.whole = self.run()
        if self.whole[0] != status or not self.whole[1] or not self.whole[2]:
            sys.exit("failing.py: the program doesn't show the document and its messages")

    def run(self, **failing):
        """The exit status, standard output and standard error of a run."""
        variables = {name: str(value) for name, value in failing.items() if value}
        env = {"PATH": os.environ.get("PATH", ""), "LD_PRELOAD": self.library, **variables}
        done = subprocess.run(self.command, input=self.text, stdout=subprocess.PIPE, stderr=subprocess.PIPE, env=env, check=False)
        return done.returncode, done.stdout, done.stderr

    def calls(self, **variables):
        """How many allocations, reads and writes a run makes that ends as if none failed, and how many of its children ended wrongly."""
        with tempfile.NamedTemporaryFile() as file:
            if self.run(COUNTS=file.name, **variables) != self.whole:
                sys.exit(f"failing.py: {variables} changes what a run shows")
            counts = file.read()
        if not counts:
            skip("the program doesn't call the C library that failing.c replaces")
        return [int(count) for count in counts.split()]

    def of_allocation(self, outcome):
        """Whether an allocation failed: in the program, where it reads its arguments (status 2), or in the C library, which does without."""
        return outcome in [self.whole, *((status, b"", NAME + b"out of memory\n") for status in (1, 2))]

    def of_allocation_at_open(self, outcome):
        """The same of a run over a file, which can't be opened either if there is no memory for its name."""
        cannot_open = (1, b"", NAME + b"cannot open " + os.fsencode(self.command[-1]) + b"\n")
        return self.of_allocation(outcome) or outcome == cannot_open

    def allocations(self, fits, **variables):
        """How many allocations a run makes, and with how many of them, if they fail, the outcome doesn't fit."""
        count, *_ = self.calls()
        failing = ({**variables, "FAIL_ALLOCATION": at} for at in range(1, count + 1))
        return count, sum(not fits(self.run(**one)) for one in failing)


def main():
    path = program(sys.argv[1:])
    text = document()
    with tempfile.TemporaryDirectory() as folder:
        library = preloaded(folder)
        usual = Trial([path], text, library)
        usual.calls()
        file = os.path.join(folder, "a document.rst")
        pathlib.Path(file).write_bytes(text)
        full = Trial([path, *OPTIONS, file], b"", library, status=13)
        with concurrent.futures.ThreadPoolExecutor(os.cpu_count()) as pool:
            moved = [pool.submit(usual.calls, FAIL_EACH=1, SHORT=step) for step in STEPS]
            grown = [
                pool.submit(usual.allocations, usual.of_allocation),
                pool.submit(usual.allocations, usual.of_allocation, FAIL_ON=1),
                pool.submit(full.allocations, full.of_allocation_at_open),
            ]
            counts = [one.result() for one in [*grown, *moved]]
    wrong = sum(count[-1] for count in counts)
    allocations = sum(count[0] for count in counts[: len(grown)])
    calls = sum(count[1] + count[2] for count in counts[len(grown) :])
    print(f"{allocations} allocations and {calls} reads and writes made to fail in turn; {wrong} outcomes were wrong")
    return 1 if wrong else 0


if __name__ == "__main__":
    sys.exit(main())
