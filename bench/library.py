#!/usr/bin/env python3
"""Measures the calls of the Python package, beside the program and Docutils: microseconds of CPU time for pages of four sizes.

    bench/library.py [ROUNDS]

The pages are prose (bench/prose.py). All calls take turns, in ROUNDS rounds (10 if not given); the least time of each is printed, in a table in
Markdown. A start of the program is counted with the time of its process. What earlier calls have left is collected before a measurement, so
the time that Python takes to free documents shows in part: rows "60 in a row" are the means of 60 calls in a row, and in rows "nothing
collected" the collector is off. Where the package's module in C is there, `docutils.doctree` is measured without it too. Fails if a
document of Docutils differs from the program's tree.
"""

import gc
import resource
import subprocess
import sys
import time
from pathlib import Path

TOP = Path(__file__).resolve().parent.parent
sys.path.insert(0, str(TOP / "python/src"))

import docutils.core
import docutils.frontend
import docutils.parsers.rst
import docutils.utils
from prose import prose

import rst2pseudoxml
import rst2pseudoxml.docutils
from rst2pseudoxml import _nodes

PROGRAM = TOP / "dist/rst2pseudoxml"
SIZES = (100, 1_400, 10_000, 100_000)
OVERRIDES = {"_disable_config": True, "syntax_highlight": "none"}
DOCUMENT, PUBLISHED = "`docutils.doctree`", "Docutils' `publish_doctree`"
MODULE = _nodes._records
OFF, ROW = ", nothing collected", ", 60 in a row"
LEAST = 0.02  # seconds that a measurement takes


def page(size):
    """Prose of about this size, which ends with a line."""
    return prose(size)[:size].rpartition("\n")[0] + "\n"


def without_module(text):
    _nodes._records = None
    document = rst2pseudoxml.docutils.doctree(text)
    _nodes._records = MODULE
    return document


def calls(text):
    settings = docutils.frontend.get_default_settings(docutils.parsers.rst.Parser)
    settings.syntax_highlight = "none"
    parser = docutils.parsers.rst.Parser()
    return {
        "`pseudoxml`": lambda: rst2pseudoxml.pseudoxml(text),
        "`json`": lambda: rst2pseudoxml.json(text),
        "`tree`": lambda: rst2pseudoxml.tree(text),
        DOCUMENT: lambda: rst2pseudoxml.docutils.doctree(text),
        **({f"{DOCUMENT} without the module in C": lambda: without_module(text)} if MODULE else {}),
        "the program, started": lambda: subprocess.run([PROGRAM], input=text.encode(), stdout=subprocess.PIPE, stderr=subprocess.DEVNULL),
        "Docutils' parser alone": lambda: parser.parse(text, docutils.utils.new_document("<stdin>", settings.copy())),
        PUBLISHED: lambda: docutils.core.publish_doctree(text, settings_overrides=OVERRIDES),
    }


def spent():
    """The CPU seconds of this process and its children so far."""
    children = resource.getrusage(resource.RUSAGE_CHILDREN)
    return time.process_time() + children.ru_utime + children.ru_stime


def microseconds(call):
    """The CPU time of a call: the mean of as many as take some time. What earlier calls have left is collected before."""
    gc.collect()
    count, began = 0, spent()
    while count == 0 or spent() - began < LEAST:
        call()
        count += 1
    return 1e6 * (spent() - began) / count


def nothing_collected(call):
    """The CPU time of a call while the collector is off."""
    gc.disable()
    try:
        return microseconds(call)
    finally:
        gc.enable()


def in_a_row(call):
    """The CPU time of a call among 60, which also free what those before have left."""
    gc.collect()
    began = spent()
    for _ in range(60):
        call()
    return 1e6 * (spent() - began) / 60


def main():
    rounds = int(sys.argv[1]) if sys.argv[1:] else 10
    least = {}
    for size in SIZES:
        text = page(size)
        if rst2pseudoxml.docutils.doctree(text).pformat() != rst2pseudoxml.pseudoxml(text):
            sys.exit(f"the document of {size} bytes differs")
        for _ in range(rounds):
            made = calls(text)
            times = {name: microseconds(call) for name, call in made.items()}
            times.update({name + OFF: nothing_collected(made[name]) for name in (DOCUMENT, PUBLISHED)})
            for name, spent_now in times.items():
                least.setdefault(name, {})[size] = min(spent_now, least.get(name, {}).get(size, float("inf")))
        for name in DOCUMENT, PUBLISHED:
            least.setdefault(name + ROW, {})[size] = in_a_row(calls(text)[name])
    print("| microseconds a call |", " | ".join(f"{size / 1000:g} KB" for size in SIZES), "|")
    print("|---" * (1 + len(SIZES)) + "|")
    for name, times in least.items():
        print(f"| {name} |", " | ".join(f"{times[size]:,.0f}" for size in SIZES), "|")
    for how in "", OFF, ROW:
        ratios = (least[PUBLISHED + how][size] / least[DOCUMENT + how][size] for size in SIZES)
        print(f"| {PUBLISHED}, times {DOCUMENT}{how} |", " | ".join(f"{ratio:.1f}" for ratio in ratios), "|")


if __name__ == "__main__":
    main()
