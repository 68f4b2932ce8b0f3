#!/usr/bin/env python3
"""Runs the program over mutated documents, for some seconds.

    bench/fuzz.py [--seconds N] [--seed N] [--only NUMBER] [--jobs N] [--save FOLDER] [PROGRAM]

The documents that are mutated are the inputs of the worked rows (crates/rst2pseudoxml/src/rows_*.rt), those of the examples in docs/, and the
document with every construct. A mutation changes some bytes, characters or lines, or joins parts of two documents; some documents are then
written many times over. The arguments, too, are chosen at random. The same seed and number always make the same document. For each
document it checks that

- the status is 0, 1, 2, or 11 to 14;
- standard output and standard error are UTF-8;
- the messages on standard error are those of the tree, if no message halts the run;
- a second run, with memory of 16 MB and 40 bytes for each byte of its input and output, prints the same;
- neither run takes more than a second of CPU time;
- the reference program, if one is beside the checkout (../shared/oracle, or the folder in RST_REFERENCE), prints the same.

A document that fails is written to FOLDER as NUMBER.rst, its arguments as NUMBER.args; without FOLDER only its number is printed, and `--only`
with the same seed repeats it. PROGRAM is by default the one that scripts/program.sh finds. The status is 1 if a document failed.
"""

import argparse
import codecs
import collections
import concurrent.futures
import json
import os
import pathlib
import random
import re
import resource
import subprocess
import sys
import tempfile
import time

TOP = pathlib.Path(__file__).resolve().parent.parent
sys.path.insert(0, str(TOP / "scripts"))
from failing import document
from program import program
from rows import TABLES, Source

STATUSES = {0, 1, 2, 11, 12, 13, 14}
SECONDS = 1
BASE = 16_000_000
BYTES_FOR_A_BYTE = 40
# No run may take all of the machine's memory.
MOST = 2_000_000_000
# A document that is written many times over has about this many bytes.
REPEATED = 60_000
# The reference program gets this many documents at once, each of them no larger than this.
BATCH = 200
LARGEST_COMPARED = 4_000

LEVELS = ("info", "warning", "error", "severe", "none")
OPTIONS = (
    *(f"--{option}={level}" for option in ("report", "halt", "exit-status") for level in LEVELS),
    *("--verbose", "--no-doc-title", "--no-doc-info", "--tab-width=1", "--tab-width=99", "--line-length-limit=60"),
)
CHARACTERS = " \t\n\r\f\\*`|_:.-=+#[]()<>\"'/~\u00a0\u0301\u2028\u200d\u3000\u4e00\ufeff\U0001f469"
LINES = (
    *("", "..", "::", "====", "----", "   ", "- a", "1. b", ":c: d", "| e", "__ f", "+--+--+", "== =="),
    *(".. [#g] h", ".. |i| replace:: j", ".. _k:", ".. note::", "   :class: l"),
)


def inputs_of_page(text):
    """The documents of the examples on a page: those after `<<'END'`, and the texts that `printf` prints."""
    for shown in re.findall(r"^\$ .*<<'END'.*\n((?:>.*\n)*?)> END$", text, re.MULTILINE):
        yield re.sub(r"^> ?", "", shown, flags=re.MULTILINE).encode()
    for shown in re.findall(r"^\$ printf (?:-- )?'([^']*)' \|", text, re.MULTILINE):
        yield codecs.escape_decode(shown.encode())[0]


def corpus():
    """The documents that are mutated."""
    rows = [given.encode() for table in TABLES for _, _, given, _ in Source(table).rows()]
    pages = [given for page in sorted(TOP.glob("docs/**/*.md")) for given in inputs_of_page(page.read_text(encoding="utf-8"))]
    return [*rows, *pages, document()]


class Mutations:
    """Documents that are made of others, by number."""

    def __init__(self, seed, documents):
        self.seed = seed
        self.documents = documents

    def of(self, number):
        """The arguments and the input of a number."""
        chance = random.Random(f"{self.seed}/{number}")
        data = chance.choice(self.documents)
        for _ in range(chance.choice((1, 1, 2, 3, 5, 8))):
            data = chance.choice((self.change_bytes, self.change_characters, self.change_lines, self.change_lines, self.join))(chance, data)
        if chance.random() < 0.02:
            data *= REPEATED // (len(data) + 1)
        return chance.sample(OPTIONS, chance.choice((0, 1, 1, 2, 4))), data

    @staticmethod
    def place(chance, parts):
        """Two places in a list or a text, near each other."""
        begin = chance.randint(0, len(parts))
        return begin, min(len(parts), begin + chance.choice((0, 0, 1, 1, 2, 5, 20)))

    def change_bytes(self, chance, data):
        begin, end = self.place(chance, data)
        made = bytes(chance.randrange(256) for _ in range(chance.choice((0, 0, 1, 1, 3))))
        return data[:begin] + made + data[end:]

    def change_characters(self, chance, data):
        text = data.decode("utf-8", "replace")
        begin, end = self.place(chance, text)
        made = text[begin:end] * 2 if chance.random() < 0.3 else "".join(chance.choices(CHARACTERS, k=chance.choice((0, 1, 1, 2, 4))))
        return (text[:begin] + made + text[end:]).encode()

    def change_lines(self, chance, data):
        lines = data.split(b"\n")
        begin, end = self.place(chance, lines)
        part = lines[begin:end]
        made = chance.choice(
            (
                [],
                part * 2,
                part[::-1],
                [b" " * chance.choice((1, 2, 3, 4, 8)) + line for line in part],
                [line.lstrip() for line in part],
                [*part, chance.choice(LINES).encode()],
                [chance.choice(LINES).encode() + b" " + line for line in part],
            )
        )
        return b"\n".join([*lines[:begin], *made, *lines[end:]])

    def join(self, chance, data):
        """The first lines of a document, and the last of another, indented or not."""
        lines = data.split(b"\n")
        others = chance.choice(self.documents).split(b"\n")
        indent = b" " * chance.choice((0, 0, 2, 3, 4))
        return b"\n".join([*lines[: chance.randint(0, len(lines))], *(indent + line for line in others[chance.randint(0, len(others)) :])])


def run(path, arguments, data, memory):
    """The status, standard output and standard error of a run with limits."""

    def limit():
        resource.setrlimit(resource.RLIMIT_CPU, (SECONDS, SECONDS + 1))
        resource.setrlimit(resource.RLIMIT_AS, (memory, memory))
        resource.setrlimit(resource.RLIMIT_CORE, (0, 0))

    words = [path, *arguments]
    done = subprocess.run(words, input=data, stdout=subprocess.PIPE, stderr=subprocess.PIPE, preexec_fn=limit, check=False)
    return done.returncode, done.stdout, done.stderr


MESSAGE = re.compile(r'^( *)<system_message [^\n]*level="(\d)" line="(\d+)" source="<stdin>" type="([A-Z]+)">\n', re.MULTILINE)


def dedented(tree, at, indent):
    """The lines of a tree, from a place on, that have this indentation, without it; and the place after them."""
    lines = []
    while tree.startswith(indent, at):
        end = tree.index("\n", at) + 1
        lines.append(tree[at + len(indent) : end])
        at = end
    return "".join(lines), at


def messages_of(tree):
    """The messages of a tree, in the form of standard error."""
    for found in MESSAGE.finditer(tree):
        indent, level, line, kind = found.groups()
        child = indent + "    "
        text, at = dedented(tree, found.end() + len(child) + len("<paragraph>\n"), child + "    ")
        block = f'{child}<literal_block xml:space="preserve">\n'
        if tree.startswith(block, at):
            text += "\n" + dedented(tree, at + len(block), child + "    ")[0]
        yield f"<stdin>:{line}: ({kind}/{level}) {text}"


def is_made_of(messages, text):
    """Whether a text is made of these messages, in any order."""
    left = collections.Counter(messages)
    while text:
        first = max((message for message in left if text.startswith(message)), key=len, default=None)
        if first is None:
            return False
        # The tree doesn't show whether a line end ends the source that a message holds.
        text = text[len(first) :].removeprefix("\n")
        left[first] -= 1
        if not left[first]:
            del left[first]
    return not left


def fault(path, arguments, data):
    """What is wrong with a run, if something is."""
    status, out, err = first = run(path, arguments, data, MOST)
    if status == -24:
        return "takes more than a second of CPU time"
    if status not in STATUSES:
        return f"ends with {status}"
    try:
        tree, shown = out.decode(), err.decode()
    except UnicodeDecodeError:
        return "writes what isn't UTF-8"
    if status not in (1, 2) and not is_made_of(messages_of(tree), shown):
        return "has other messages on standard error than in its tree"
    memory = BASE + BYTES_FOR_A_BYTE * (len(data) + len(out) + len(err))
    second = run(path, arguments, data, memory)
    if second != first:
        return f"needs more than {memory} bytes of memory" if b"out of memory" in second[2] else "ends otherwise at a second run"
    return None


def is_shown_alike(path, reference, folder):
    """Whether the reference program prints the same for each input in a folder."""
    words = [sys.executable, str(reference / "compare.py"), "--jobs", "1", "--folder", folder, "--", path]
    done = subprocess.run(words, cwd=folder, stdout=subprocess.PIPE, text=True, check=False, env={**os.environ, "PYTHONDONTWRITEBYTECODE": "1"})
    if done.returncode:
        print(done.stdout, end="", flush=True)
    return done.returncode == 0


def write(folder, number, arguments, data):
    """Keeps a document and its arguments in a folder."""
    pathlib.Path(folder, f"{number}.rst").write_bytes(data)
    pathlib.Path(folder, f"{number}.args").write_text(json.dumps(arguments), encoding="utf-8")


class Campaign:
    """Runs over mutated documents, until a time."""

    def __init__(self, path, mutations, reference, save, ends):
        self.path, self.mutations, self.reference, self.save, self.ends = path, mutations, reference, save, ends

    def failing(self, numbers):
        """How many documents of these numbers were tried, and how many failed."""
        count = failed = 0
        with tempfile.TemporaryDirectory() as folder:
            for number in numbers:
                if count and time.monotonic() > self.ends:
                    break
                arguments, data = self.mutations.of(number)
                count += 1
                wrong = fault(self.path, arguments, data)
                if wrong:
                    failed += 1
                    print(f"document {number} of seed {self.mutations.seed}: {wrong}", flush=True)
                    if self.save:
                        write(self.save, number, arguments, data)
                elif len(data) <= LARGEST_COMPARED:
                    write(folder, number, arguments, data)
            if self.reference and os.listdir(folder):
                failed += not is_shown_alike(self.path, self.reference, folder)
        return count, failed

    def part(self, first, step):
        """The same of every `step`th number from the first on, until the time has come."""
        count = failed = 0
        while not count or time.monotonic() < self.ends:
            more, wrong = self.failing(range(first, first + step * BATCH, step))
            count, failed, first = count + more, failed + wrong, first + step * BATCH
        return count, failed


def reference_program():
    """The folder of the reference program, if there is one."""
    folder = pathlib.Path(os.environ.get("RST_REFERENCE") or TOP / "../shared/oracle").resolve()
    return folder if (folder / "compare.py").is_file() else None


def main():
    parser = argparse.ArgumentParser(description=__doc__, formatter_class=argparse.RawDescriptionHelpFormatter)
    parser.add_argument("--seconds", type=float, default=60)
    parser.add_argument("--seed", default="1")
    parser.add_argument("--only", type=int)
    parser.add_argument("--jobs", type=int, default=os.cpu_count())
    parser.add_argument("--save")
    parser.add_argument("program", nargs="?")
    given = parser.parse_args()
    path = program([given.program] if given.program else [])
    if given.save:
        os.makedirs(given.save, exist_ok=True)
    mutations = Mutations(given.seed, corpus())
    campaign = Campaign(path, mutations, reference_program(), given.save, time.monotonic() + given.seconds)
    if given.only is not None:
        count, failed = campaign.failing([given.only])
    else:
        with concurrent.futures.ProcessPoolExecutor(given.jobs) as pool:
            parts = list(pool.map(campaign.part, range(given.jobs), [given.jobs] * given.jobs))
        count, failed = (sum(part[k] for part in parts) for k in (0, 1))
    compared = "compared with the reference program" if campaign.reference else "not compared with a reference program"
    print(f"mutated documents of seed {given.seed}: {count} tried, {compared}, {failed} failed")
    return int(failed > 0)


if __name__ == "__main__":
    sys.exit(main())
