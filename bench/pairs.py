#!/usr/bin/env python3
"""Looks for pairs of constructs that cost more than their size: one inside the other, beside it and after it, each n times.

    bench/pairs.py [--bytes N] [--only WORD] [--limit SECONDS] [PROGRAM]

For each pair it makes documents for n and 2n, where n is chosen so that the first has about N bytes, and takes the CPU time (user and system,
without what an empty document costs) for each byte of input and output, messages on standard error included. It prints the median, the ten
pairs that cost most for each byte at 2n, and those whose cost for each byte grows by more than half from n to 2n; each of these is measured five
more times, and the least counts. A run past the limit of CPU seconds is stopped and shown. All pairs take some fifteen minutes of CPU time.
PROGRAM is by default dist/rst2pseudoxml. It doesn't know epigraphs: dist/rst-tree does.
"""

import argparse
import os
import resource
import statistics
import subprocess
import sys
import tempfile

from run import PROGRAMS, WORDS

DEPTH = 60
# What a construct holds is put in the place of `{}`, with the indentation of that place; `{k}` is a number of its own.
BLOCKS = {
    "paragraph": "some words {k}\nin two lines",
    "bullet item": "- {}",
    "enumerated item": "#. {}",
    "numbered item": "{k}. {}",
    "definition": "term {k}\n  {}",
    "field": ":name {k}: {}",
    "option item": "-a  {}",
    "line block": "| {}",
    "nested line block": "| a\n|   {}",
    "quote": "  {}",
    "attribution": "  {}\n\n  -- by {k}",
    "literal block": "a::\n\n  {}",
    "quoted literal block": "a::\n\n> {}",
    "doctest": ">>> {}",
    "simple table": "=====  =====\ncell   {}\n=====  =====",
    "grid table": "{}",
    "footnote": ".. [#] {}",
    "symbol footnote": ".. [*] {}",
    "citation": ".. [a{k}] {}",
    "target": ".. _a{k}: {}",
    "target without a URI": ".. _b{k}:\n\n{}",
    "duplicate target": ".. _a: {}",
    "anonymous target": "__ {}",
    "substitution definition": ".. |a{k}| replace:: {}",
    "duplicate definition": ".. |a| replace:: {}",
    "comment": "..\n   {}",
    "note": ".. note::\n\n   {}",
    "admonition": ".. admonition:: T {k}\n\n   {}",
    "topic": ".. topic:: T {k}\n\n   {}",
    "image": ".. image:: i{k}\n   :alt: {}",
    "figure": ".. figure:: i{k}\n\n   {}",
    "legend": ".. figure:: i{k}\n\n   c\n\n   {}",
    "code": ".. code::\n\n   {}",
    "unknown directive": ".. unknown::\n\n   {}",
    "epigraph": ".. epigraph::\n\n   {}",
    "section": "Title {k}\n==========\n\n{}",
    "section of one title": "Title\n-----\n\n{}",
    "title": "{}\n" + "~" * 40,
    "overlined title": "=" * 40 + "\n{}\n" + "=" * 40,
    "transition": "a\n\n----\n\nb",
    "blank lines": "\n\n\n\n",
    "long line": "word " * 40,
    "tabs": "\ta\tb\t{}",
}
TEXTS = {
    "emphasis": "*{}*",
    "strong": "**{}**",
    "literal": "``{}``",
    "role": ":emphasis:`{}`",
    "unknown role": ":unknown:`{}`",
    "reference": "a{k}_",
    "reference to one name": "a_",
    "phrase": "`{}`_",
    "anonymous phrase": "`{}`__",
    "embedded URI": "`{} <u{k}>`_",
    "embedded alias": "`{} <a{k}_>`_",
    "footnote reference": "[#]_",
    "symbol footnote reference": "[*]_",
    "citation reference": "[a{k}]_",
    "substitution": "|a{k}|",
    "substitution of one name": "|a|",
    "substitution that is a reference": "|a{k}|_",
    "inline target": "_`{} {k}`",
    "URI": "http://a/{k}",
    "address": "a@b.c",
    "unclosed emphasis": "*a",
    "unclosed strong": "**a",
    "unclosed literal": "``a",
    "unclosed phrase": "`a",
    "unclosed inline target": "_`a",
    "unclosed substitution": "|a",
    "unclosed role": ":a:`b",
    "unclosed URI": "`a <b",
    "backslash": "\\a\\ ",
    "non-ASCII text": "größe 漢字 e\u0301",
}
ALL = {**BLOCKS, **TEXTS}


def put(outer, inner, k):
    """A construct around a text, with the indentation that the text needs there."""
    if outer == "grid table":
        width = max(map(len, inner.split("\n"))) + 1
        rule = "+" + "-" * width + "+"
        return "\n".join([rule, *(f"|{line:<{width}}|" for line in inner.split("\n")), rule])
    text = ALL[outer].replace("{k}", str(k))
    column = len(text.partition("{}")[0].rpartition("\n")[2])
    return text.replace("{}", inner.replace("\n", "\n" + " " * column))


def many(name, n, inner="x"):
    """Copies of a construct around a text."""
    copies = [put(name, inner, k) for k in range(n)]
    if name in BLOCKS:
        return "\n\n".join(copies)
    return "\n".join(" ".join(copies[k : k + 16]) for k in range(0, n, 16))


def deep(name, inner):
    """A construct in itself, `DEPTH` times, around a text."""
    for k in range(DEPTH):
        inner = put(name, inner, k)
    return inner


def in_turns(one, other, n, between):
    return between.join(put(name, "x", k) for k in range(n) for name in (one, other))


def documents(one, other):
    """How a pair is put together: (words for it, the document for n)."""
    space = "\n\n" if one in BLOCKS or other in BLOCKS else " "
    yield f"n of {one}, then n of {other}", lambda n: many(one, n) + "\n\n" + many(other, n)
    if one < other:
        yield f"{one} and {other} in turns", lambda n: in_turns(one, other, n, space)
        yield f"{one} and {other} in turns, in lines", lambda n: in_turns(one, other, n, "\n")
    if "{}" in ALL[one] and (one in BLOCKS or other in TEXTS):
        yield f"n of {one}, {other} in each", lambda n: "\n\n".join(put(one, put(other, "x", k), k) for k in range(n))
        yield f"{one} with n of {other} in it", lambda n: put(one, many(other, n), 0)
        yield f"{one} {DEPTH} deep with n of {other} in it", lambda n: deep(one, many(other, n))


class Program:
    """A program, with what it costs for an empty document."""

    def __init__(self, words, limit):
        self.words, self.limit, self.start = words, limit, 0.0
        self.start = min(self.cost("")[0] for _ in range(9))

    def cost(self, text):
        """The CPU seconds for a document, the bytes of input and output, and the most memory in MB."""
        with tempfile.TemporaryFile() as given, tempfile.TemporaryFile() as out:
            given.write(text.encode())
            given.seek(0)
            process = subprocess.Popen(
                self.words,
                stdin=given,
                stdout=out,
                stderr=out,
                preexec_fn=lambda: resource.setrlimit(resource.RLIMIT_CPU, (self.limit, self.limit + 5)),
            )
            _, status, usage = os.wait4(process.pid, 0)
            process.returncode = os.waitstatus_to_exitcode(status)
            size = given.seek(0, 2) + out.seek(0, 2)
        seconds = max(usage.ru_utime + usage.ru_stime - self.start, 0.0)
        return seconds, size, usage.ru_maxrss / 1024, process.returncode

    def each_byte(self, made, n, runs):
        """Nanoseconds for each byte at n, the bytes, the memory and the status: the least of some runs."""
        seconds, size, memory, status = min(self.cost(made(n) + "\n") for _ in range(runs))
        return 1e9 * seconds / size, size, memory, status

    def grown(self, made, size, runs):
        """The same for two documents, the first of which has about `size` bytes, and the other twice as many copies."""
        few, many = len(made(10).encode()), len(made(20).encode())
        n = max(10, 10 * (size - 2 * few + many) // (many - few))
        return [self.each_byte(made, count, runs) for count in (n, 2 * n)]


def show(title, first, last):
    status = f"  status {last[3]}" if last[3] else ""
    print(f"  {title:<76}{first[0]:9.0f} ns{last[0]:9.0f} ns{last[1]:11} bytes{last[2]:8.1f} MB{status}", flush=True)


def main():
    parser = argparse.ArgumentParser(description="Looks for pairs of constructs that cost more than their size.")
    parser.add_argument("program", nargs="?", default=str(PROGRAMS[-1]), help="the program; by default the one in dist/")
    parser.add_argument("--bytes", type=int, default=25000, help="the size of the first document; the second has twice as many copies")
    parser.add_argument("--only", default="", help="the pairs whose names hold this word")
    parser.add_argument("--limit", type=int, default=20, help="the most CPU seconds of a run")
    given = parser.parse_args()
    program = Program([os.path.abspath(given.program), *WORDS], given.limit)
    pairs = {title: made for one in ALL for other in ALL for title, made in documents(one, other) if given.only in title}
    found = {title: program.grown(made, given.bytes, 1) for title, made in pairs.items()}
    median = statistics.median(last[0] for _, last in found.values())
    print(f"{len(pairs)} pairs, {median:.0f} ns for each byte of input and output in the median")
    slow = sorted(pairs, key=lambda title: -found[title][1][0])[:50]
    grown = [title for title in pairs if found[title][1][0] > 1.5 * found[title][0][0] and found[title][1][0] > median]
    again = {title: program.grown(pairs[title], given.bytes, 5) for title in dict.fromkeys(slow + grown)}
    print("the slowest for each byte:")
    for title in sorted(slow, key=lambda title: -again[title][1][0])[:10]:
        show(title, *again[title])
    print("growing for each byte:")
    for title in grown:
        if again[title][1][0] > 1.5 * again[title][0][0]:
            show(title, *again[title])
    return 0


if __name__ == "__main__":
    sys.exit(main())
