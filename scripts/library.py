#!/usr/bin/env python3
"""Compares what the library for C makes with what the program prints: scripts/library.py LIBRARY..

Each LIBRARY is library.c, compiled with the library (scripts/check_library.sh does that); it runs with a stack of 2 MiB. The texts are the
inputs of the worked rows, with their options, pages of docs/, mutated in the way of bench/fuzz.py, and tables inside one another. For each
text it checks that `print` gives the program's output, its messages and its status, or an end where the program refuses the text; that
`json` is JSON that shows the same tree, that the records show it too (library.c prints the tree from them), and that `messages` is JSON that
shows the same messages. The program is the one that scripts/program.sh finds.

The parsed documents of some texts, with names that are handed back, are compared with what docs/LIBRARY.md says of them.

Under the wider profile, which the program hasn't, the calls are compared with the trees and messages of scripts/wider.py; and with the program
on texts that both profiles read alike, which are the worked rows and those named there. That a profile of 2 or 255 is refused is tested too.
"""

import concurrent.futures
import json
import os
import pathlib
import random
import re
import subprocess
import sys
import threading

from program import TOP, program
from rows import TABLES, Source
from wider import SAME, WIDER

LEVELS = {"info": 1, "warning": 2, "error": 3, "severe": 4, "none": 5}
ENDS = (
    (rb"input too long\n", lambda at: (103, 3, 0)),
    (rb"not UTF-8 at byte (\d+)\n", lambda at: (104, 4, at)),
    (rb"line (\d+): nesting too deep\n", lambda at: (105, 5, at)),
)
MUTATIONS = [b"\n", b"*", b"`", b"|", b"_ ", b":", b"  ", b"\t", b"\\", b'"', b"\x01", "\u00e9".encode(), b"\xff"]
OPTIONS = [[], ["-v"], ["--halt=warning"], ["--exit-status=info", "--no-doc-info"], ["--no-doc-title", "--tab-width=3", "--strict"]]
PLACES = ("report", "halt", "exit-status", "tab-width", "line-length-limit", "no-doc-title", "no-doc-info", "profile")
WIDER_PROFILE = "--profile=1"
CALLS = ("print", "json", "records", "messages", "parse", "parse_records")
WORDS = {"-v": "--report=info", "--verbose": "--report=info", "-q": "--report=none", "--quiet": "--report=none", "--strict": "--halt=info"}


# Trees have up to 1,550 levels.
sys.setrecursionlimit(20_000)
threading.stack_size(1 << 26)
SMALL_STACK = ["sh", "-c", 'ulimit -s 2048 && exec "$@"', "sh"]


def options(words):
    """The options that arguments of the program give, as library.c takes them; --profile=N is that of the library."""
    chosen = dict(zip(PLACES, ["2", "4", "5", "8", "10000", "0", "0", "0"]))
    words = iter(words)
    for word in words:
        word = WORDS.get(word, word)
        name, equals, value = word.removeprefix("--").partition("=")
        if name.startswith("no-doc-"):
            value = "1"
        elif not equals:
            name, value = name.replace("-r", "report"), next(words)
        chosen[name] = str(LEVELS.get(value, value))
    return list(chosen.values())


def escaped(text):
    return re.sub(r"([\\ ])", r"\\\1", text)


def printed(node, source, level=0):
    """The lines of the tree that the JSON of a node means."""
    indent = "    " * level
    if isinstance(node, str):
        return [indent + line for line in (node.split("\n")[:-1] if node.endswith("\n") else node.split("\n"))]
    tag, line, attributes, *nodes = node
    if tag == "system_message" and attributes["line"] != line:
        raise ValueError("a message has two lines")
    if tag in ("document", "system_message"):
        attributes = dict(sorted({**attributes, "source": source}.items()))
    values = ((name, " ".join(map(escaped, value)) if isinstance(value, list) else value) for name, value in attributes.items())
    start = "".join(f' {name}="{value}"' for name, value in values)
    return [f"{indent}<{tag}{start}>", *(line for one in nodes for line in printed(one, source, level + 1))]


def messages(notes, source):
    """What the program writes to standard error for the JSON of messages."""
    lines = []
    for note in notes:
        block = f"\n{note['block']}\n" if "block" in note else ""
        lines.append(f"{source}:{note['line']}: ({note['type']}/{note['level']}) {note['text']}\n{block}")
    return "".join(lines)


def wanted_end(err):
    """The status, the end and its place of a call on a text that the program refuses."""
    for pattern, end in ENDS:
        match = re.fullmatch(b"rst2pseudoxml: " + pattern, err)
        if match:
            return end(int(match[1]) if match.groups() else 0)
    return None


class Comparison:
    """A program and a library."""

    def __init__(self, path, library):
        self.path = path
        self.library = library

    def call(self, name, words, text):
        done = subprocess.run([*SMALL_STACK, self.library, name, *options(words), "<stdin>"], input=text, capture_output=True, check=False)
        return done.stdout, done.stderr, done.returncode

    def fault(self, words, text, wanted=None):
        """The first call that isn't as it is wanted, if one is: by default as the program, which has no profile."""
        if wanted is None:
            given = [word for word in words if not word.startswith("--profile=")]
            done = subprocess.run([self.path, *given], input=text, stdout=subprocess.PIPE, stderr=subprocess.PIPE, check=False)
            wanted = done.stdout, done.stderr, done.returncode
        end = wanted_end(wanted[1])
        return self.refusal(words, text, end) if end else self.difference(words, text, *wanted)

    def parse_fault(self, names, profile, text, wanted):
        """What is wrong with the parsed document of a text, in which names are handed back."""
        words = [*options([f"--profile={profile}"]), names]
        calls = ([*SMALL_STACK, self.library, name, *words] for name in ("parse", "parse_records"))
        parsed, records = (subprocess.run(call, input=text.encode(), capture_output=True, check=False) for call in calls)
        if (parsed.returncode, parsed.stderr, json.loads(parsed.stdout) if parsed.returncode == 0 else None) != wanted:
            return "parse"
        tree = [] if wanted[2] is None else printed(wanted[2], names)
        if (records.returncode, records.stderr, records.stdout) != (*wanted[:2], "".join(f"{line}\n" for line in tree).encode()):
            return "parse_records"
        return None

    def refusal(self, words, text, end):
        """The first call that doesn't end with this status, end and place, if one doesn't."""
        refused = (b"", b"end %d at %d\n" % end[1:], end[0])
        return next((name for name in CALLS if self.call(name, words, text) != refused), None)

    def difference(self, words, text, wanted_out, wanted_err, wanted_status):
        """The first call that differs from what is printed, if one does."""
        if self.call("print", words, text) != (wanted_out, wanted_err, wanted_status):
            return "print"
        out, err, status = self.call("json", words, text)
        halted = wanted_status == 1
        tree = "".join(f"{line}\n" for line in printed(json.loads(out), "<stdin>")).encode()
        if err or status != wanted_status or not halted and tree != wanted_out:
            return "json"
        if self.call("records", words, text) != (tree, b"", wanted_status):
            return "records"
        out, err, status = self.call("messages", words, text)
        shown = messages(json.loads(out), "<stdin>")
        rest = wanted_err.decode().removeprefix(shown)
        if err or status != wanted_status or shown + rest != wanted_err.decode():
            return "messages"
        if bool(rest) != halted or rest and not rest.startswith("Exiting due to"):
            return "messages"
        return None

    def profile_fault(self, text, tree, err):
        """What is wrong with a text whose tree and messages under the wider profile are these; under the other one they differ."""
        if self.call("print", [], text)[:2] == (tree, err):
            return "print without a profile"
        return self.fault([], text) or self.fault([WIDER_PROFILE], text, (tree, err, 0))


def handed(line, kind, name, source):
    """What stands for a directive or a role that is handed back."""
    return ["handed", line, {"kind": kind, "name": name, "xml:space": "preserve"}, source]


# Names, a profile, a text, and how the call on it ends: by docs/LIBRARY.md.
PARSED = (
    ("toctree\n:ref", 0, "See :ref:`there`.\n\n.. toctree::\n   a\n",
     ["document", 0, {}, ["paragraph", 1, {}, "See ", handed(1, "role", "ref", ":ref:`there`"), "."],
      handed(3, "directive", "toctree", ".. toctree::\n   a")]),
    ("", 0, ".. _a: b_\n\n`a`_ *c\n",
     ["document", 0, {}, ["target", 1, {"own_name": "a", "refname": "b"}],
      ["paragraph", 3, {"text_messages": 1}, ["reference", 3, {"name": "a", "rawsource": "`a`_", "refname": "a"}, "a"], " ",
       ["problematic", 3, {"message": 0}, "*"], "c"],
      ["system_message", 3, {"level": 2, "line": 3, "message": 0, "type": "WARNING"},
       ["paragraph", 3, {}, "Inline emphasis start-string without end-string."]]]),
    ("Note\n:", 1, "- .. note:: `x`\n- `x` a@b.org\n",
     ["document", 0, {}, ["bullet_list", 1, {"bullet": "-"}, ["list_item", 1, {}, handed(1, "directive", "note", ".. note:: `x`")],
      ["list_item", 2, {}, ["paragraph", 2, {}, handed(2, "role", "", "`x`"), " ",
       ["reference", 2, {"rawsource": "a@b.org", "refuri": "mailto:a@b.org"}, "a@b.org"]]]]]),
    ("py:function", 0, ".. |a| py:function:: b\n",
     ["document", 0, {}, ["substitution_definition", 1, {"own_name": "a"}, handed(1, "directive", "py:function", ".. |a| py:function:: b")]]),
)


def tables(count):
    """Tables of one cell, this many inside one another."""
    borders = ["|" * level + "+" + "-" * (1 + 2 * (count - level)) + "+" + "|" * level for level in range(count)]
    return "\n".join([*borders, "|" * count + "abc" + "|" * count, *reversed(borders)]).encode()


def trials():
    """Each name, arguments and text."""
    for table in TABLES:
        for name, words, given, (_, err, status) in Source(table).rows():
            if status != 2 and not err.startswith("rst2pseudoxml: cannot open"):
                yield name, words, given.encode()
                yield f"{name}, under the wider profile", [*words, WIDER_PROFILE], given.encode()
    yield from ((f"{name}, {words}", words, text.encode()) for name, text in SAME for words in ([], [WIDER_PROFILE]))
    yield from ((f"{count} tables", [], tables(count)) for count in (250, 251))
    choose = random.Random(1)
    for page in sorted((TOP / "docs").rglob("*.md")):
        for times in range(4):
            text = bytearray(page.read_bytes())
            for _ in range(5 * times):
                at = choose.randrange(len(text))
                text[at : at + 1] = choose.choice(MUTATIONS)
            yield f"{page.relative_to(TOP)}, {times}", choose.choice(OPTIONS), bytes(text)


def main():
    if len(sys.argv) == 1 or "--help" in sys.argv:
        print(__doc__)
        return 2
    path = program([])
    wrong = count = 0
    for library in sys.argv[1:]:
        comparison = Comparison(path, str(pathlib.Path(library).resolve()))
        with concurrent.futures.ThreadPoolExecutor(os.cpu_count()) as pool:
            started = [(name, pool.submit(comparison.fault, words, text)) for name, words, text in trials()]
            started += [(name, pool.submit(comparison.profile_fault, *(part.encode() for part in row))) for name, *row in WIDER]
            wrong_profile = (101, 1, 0)
            started += [(f"profile {n}", pool.submit(comparison.refusal, [f"--profile={n}"], b"a\xff", wrong_profile)) for n in (2, 255)]
            for row in PARSED:
                started.append((f"parse {row[:2]}", pool.submit(comparison.parse_fault, *row[:3], (0, b"", row[3]))))
            started.append(("wrong names", pool.submit(comparison.parse_fault, b"a\xff", 0, "a", (101, b"end 1 at 0\n", None))))
            for name, one in started:
                count += 1
                fault = one.result()
                if fault:
                    wrong += 1
                    print(f"{os.path.basename(library)}: {name}: {fault} differs")
    print(f"the library: {count} texts compared, {wrong} differ")
    return wrong > 0 or count == 0


if __name__ == "__main__":
    sys.exit(main())
