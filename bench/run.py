#!/usr/bin/env python3
"""Measures the program, and Docutils and pandoc where they are installed, in one run.

    bench/run.py [--n N] [--only WORD] [--limit SECONDS] [--rounds R] [--no-others] [PROGRAM]
    bench/run.py --counts [--n N] [--only WORD] [PROGRAM]
    bench/run.py --plot FOLDER ..

It makes its inputs: documents of ordinary prose (1 MB and 10 MB), and families of documents at n, 2n and 4n. For each input and
each program it prints CPU seconds (user and system, the least of three runs for PROGRAM, one run for the others), megabytes a
second, and peak memory; for a family also the exponent of its growth from n to 4n, without what an empty document costs: 1
is linear, 2 quadratic. A run past the limit of CPU seconds is stopped, and larger members of its family aren't tried. On a
machine whose speed varies from minute to minute more rounds help: each measures everything once more, and what it prints is
the least of all rounds so far. Beside the documents cmark and md4c read the same text as Markdown, three times, if their libraries are
installed (Debian's libcmark-dev, libmd4c-html0-dev).
PROGRAM is by default the one that was built here, or else the one in dist/.

With --counts it counts instructions under valgrind's callgrind, which is the same in each run on any machine: for each document, and for each
family at n, those for each byte of the input, and for each byte of the input and the output. What an empty document costs is left out.

With --plot it also writes pictures into a folder: speed.svg (megabytes a second for each document) and families.svg (CPU seconds over size), or
counts.svg with --counts.
"""

import argparse
import math
import os
import pathlib
import platform
import re
import resource
import shutil
import subprocess
import sys
import tempfile
import time

import plot
from families import FAMILIES, mixed
from prose import CHINESE, FRENCH, RUSSIAN, plain, prose, references

TOP = pathlib.Path(__file__).resolve().parent.parent
PROGRAMS = [TOP / "crates/rst2pseudoxml/out/rst2pseudoxml", TOP / "dist/rst2pseudoxml"]
# The documents, each as a function from a size in bytes to a text of about that size.
DOCUMENTS = {
    "prose": prose,
    "plain paragraphs": plain,
    "mixed": mixed,
    "Russian prose": lambda size: prose(size // 2, RUSSIAN),
    "plain Russian": lambda size: plain(size // 2, RUSSIAN),
    "French prose": lambda size: prose(size, FRENCH),
    "Chinese prose": lambda size: prose(size // 3, CHINESE),
    "phrase references": references,
}
# Nothing halts a run, and lines may be as long as inputs.
WORDS = ["--halt=5", "--line-length-limit=16777216"]


class Run:
    """What a run over an input cost: CPU seconds, the most memory in MB, and the exit status (below 0 where it was killed)."""

    def __init__(self, seconds, memory, status):
        self.seconds, self.memory, self.status = seconds, memory, status

    def failed(self):
        return self.status not in (0, *range(10, 15))


def peak(pid):
    """The most memory in MB that a process has had so far, or 0 where it has ended."""
    try:
        with open(f"/proc/{pid}/status", encoding="ascii") as file:
            return max((int(line.split()[1]) / 1024 for line in file if line.startswith("VmHWM")), default=0.0)
    except OSError:
        return 0.0


def run(words, path, limit):
    """A run over a file with a limit of CPU seconds."""
    with open(path, "rb") as given, open(os.devnull, "wb") as nothing:
        process = subprocess.Popen(
            words,
            stdin=given,
            stdout=nothing,
            stderr=nothing,
            preexec_fn=lambda: resource.setrlimit(resource.RLIMIT_CPU, (limit, limit + 5)),
        )
    began, memory, ended = time.monotonic(), 0.0, 0
    # What the system reports of a process that has ended counts the memory of this one, so it is sampled while it runs.
    while not ended:
        memory = max(memory, peak(process.pid))
        time.sleep(min(0.01, (time.monotonic() - began) / 50))
        ended, status, usage = os.wait4(process.pid, os.WNOHANG)
    process.returncode = os.waitstatus_to_exitcode(status)
    return Run(usage.ru_utime + usage.ru_stime, memory, process.returncode)


def best(words, path, limit, runs):
    """The least CPU seconds of some runs, with the most memory."""
    done = [run(words, path, limit)]
    while len(done) < runs and not done[-1].failed() and done[-1].seconds < 10:
        done.append(run(words, path, limit))
    return Run(min(one.seconds for one in done), max(one.memory for one in done), done[-1].status)


def version(words):
    """The first line that a program prints."""
    try:
        return subprocess.run(words, stdout=subprocess.PIPE, stderr=subprocess.DEVNULL).stdout.decode().split("\n")[0]
    except OSError:
        return ""


def others():
    """Other programs that read reStructuredText, by name and version."""
    found = {}
    for python in (sys.executable, "/usr/bin/python3"):
        number = version([python, "-c", "import docutils, sys; print(docutils.__version__, 'on Python', sys.version.split()[0])"])
        if number:
            call = "import docutils.core as c; c.publish_cmdline(writer_name='pseudoxml')"
            found[f"Docutils {number}"] = [python, "-c", call, *WORDS]
            break
    if shutil.which("pandoc"):
        found[version(["pandoc", "--version"])] = ["pandoc", "-f", "rst", "-t", "native"]
    return found


def markdown(folder):
    """Readers of Markdown, for documents alone, each built from bench/peers/ where its library is installed."""
    found = {}
    for name, words in (("cmark", ["-DCMARK", "-lcmark"]), ("md4c", ["-lmd4c-html", "-lmd4c"])):
        built = os.path.join(folder, name)
        source = str(TOP / "bench/peers/markdown.c")
        compiled = shutil.which("cc") and subprocess.run(["cc", "-O2", source, "-o", built, *words], stderr=subprocess.DEVNULL)
        if compiled and compiled.returncode == 0:
            found[name] = [built]
    return found


def processor():
    try:
        with open("/proc/cpuinfo", encoding="utf-8") as file:
            return next((line.split(":")[1].strip() for line in file if line.startswith("model name")), platform.machine())
    except OSError:
        return platform.machine()


class Bench:
    """The programs, and what each costs for an empty document."""

    def __init__(self, folder, programs, markdown, limit):
        self.path, self.programs, self.limit = os.path.join(folder, "input.rst"), {**programs, **markdown}, limit
        self.markdown = markdown
        self.least = {}
        self.sizes = {}
        self.write("")
        self.start = {name: self.measured("", name).seconds for name in programs}

    def write(self, text):
        with open(self.path, "w", encoding="utf-8") as file:
            file.write(text)
        return os.path.getsize(self.path)

    def measured(self, title, name):
        """What a program needs for the input that was written last, with this title: the least of all rounds so far."""
        self.sizes[title] = os.path.getsize(self.path)
        quick = name == "rst2pseudoxml" or name in self.markdown
        done = best(self.programs[name], self.path, self.limit, 3 if quick else 1)
        least = self.least.setdefault((title, name), done)
        if not done.failed():
            done = Run(min(done.seconds, least.seconds), max(done.memory, least.memory), done.status)
            self.least[title, name] = done
        return done

    def exponent(self, name, runs):
        """The exponent of the growth from the first to the last of runs that each have twice the input of the one before."""
        least = 0.001
        first, last = (max(one.seconds - self.start[name], least) for one in (runs[0], runs[-1]))
        return math.log2(last / first) / (len(runs) - 1)

    def document(self, title, text):
        """Shows what the programs need for one document."""
        size = self.write(text)
        print(title)
        for name in self.programs:
            show(name, size, self.measured(title, name))

    def family(self, title, made, n):
        """Shows what the programs need for the members of a family."""
        print(title)
        runs = {name: [] for name in self.programs if name not in self.markdown}
        for count in (n, 2 * n, 4 * n):
            size = self.write(made(count))
            for name, done in runs.items():
                if done and done[-1].failed():
                    continue
                done.append(self.measured(f"{title}, {count}", name))
                whole = [one for one in done if not one.failed()]
                grown = f"  exponent {self.exponent(name, whole):.2f}" if count == 4 * n and len(whole) == 3 else ""
                show(f"{name}, {count}", size, done[-1], grown)

    def all(self, word, n):
        """Shows what the programs need for each input whose title holds a word."""
        if word in "Hello, world":
            self.document("Hello, world", "Hello, world\n")
        for title, made in DOCUMENTS.items():
            for megabytes in (1, 10) if title == "prose" else (1,):
                if word in f"{title}, {megabytes} MB":
                    self.document(f"{title}, {megabytes} MB", made(megabytes * 1_000_000))
        for title, made in FAMILIES.items():
            if word in title:
                self.family(title, made, n)


def written(folder, name, picture):
    """Writes a picture into a folder."""
    pathlib.Path(folder).mkdir(parents=True, exist_ok=True)
    (pathlib.Path(folder) / name).write_text(picture, encoding="utf-8")


def pictures(bench, folder):
    """Writes the pictures of what was measured: of the documents the speed, of the families the time over the size."""
    speeds, growth = {}, {}
    for (title, name), done in bench.least.items():
        size, (family, _, count) = bench.sizes[title], title.rpartition(", ")
        if done.failed() or done.seconds <= 0 or not title:
            continue
        if not count.isdigit():
            speeds.setdefault(title, {})[name] = size / 1e6 / done.seconds
        elif name == "rst2pseudoxml":
            growth.setdefault(family, []).append((size, done.seconds))
    if speeds:
        written(folder, "speed.svg", plot.bars("Megabytes a second", [*speeds.items()]))
    if growth:
        written(folder, "families.svg", plot.lines("CPU seconds of each family over the size of the input", "bytes", "CPU seconds", growth))


def counted(program, text):
    """The instructions that a program takes for a text, and the bytes that it prints."""
    words = ["valgrind", "--tool=callgrind", "--callgrind-out-file=/dev/null", program, *WORDS]
    with tempfile.TemporaryFile() as printed, tempfile.TemporaryFile() as given:
        given.write(text.encode())
        given.seek(0)
        done = subprocess.run(words, stdin=given, stdout=printed, stderr=subprocess.PIPE)
        count = re.search(rb"Collected : (\d+)", done.stderr)
        if not count:
            sys.exit(f"no count: {done.stderr[-300:].decode(errors='replace')}")
        return int(count[1]), printed.tell()


def counts(program, word, n, folder):
    """Prints the instructions for each byte of each input whose title holds a word, and writes their picture into a folder, if one is given."""
    empty, _ = counted(program, "")
    print(f"{'':<52}{'MB':>8}{'millions':>10}{'a byte':>9}{'with output':>13}")
    inputs = {title: made(1_000_000) for title, made in DOCUMENTS.items() if word in title}
    inputs.update({title: made(n) for title, made in FAMILIES.items() if word in title})
    groups = []
    for title, text in inputs.items():
        size = len(text.encode())
        taken, printed = counted(program, text)
        each = taken - empty
        print(f"{title:<52}{size / 1e6:8.3f}{taken / 1e6:10.1f}{each / size:9.1f}{each / (size + printed):13.1f}", flush=True)
        groups.append((title, {"of the input": each / size, "of the input and the output": each / (size + printed)}))
    if folder:
        written(folder, "counts.svg", plot.bars("Instructions for each byte", groups))


def show(name, size, measured, note=""):
    rate = size / 1e6 / measured.seconds if measured.seconds > 0 else math.inf
    failed = f"  status {measured.status}" if measured.failed() else ""
    memory = f"{measured.memory:8.1f}" if measured.memory else "       -"
    print(
        f"  {name:<44}{size / 1e6:8.3f} MB{measured.seconds:9.3f} s{rate:9.2f} MB/s{memory} MB peak{note}{failed}",
        flush=True,
    )


def main():
    parser = argparse.ArgumentParser(description="Measures the program, and others where they are installed.")
    parser.add_argument("program", nargs="?", help="the program; by default the one that was built here, or else that in dist/")
    parser.add_argument("--n", type=int, default=20000, help="the least size of a family")
    parser.add_argument("--only", default="", help="the inputs whose names hold this word")
    parser.add_argument("--limit", type=int, default=60, help="the most CPU seconds of a run")
    parser.add_argument("--rounds", type=int, default=1, help="how often everything is measured; the least counts")
    parser.add_argument("--counts", action="store_true", help="count instructions instead")
    parser.add_argument("--no-others", action="store_true", help="no other programs")
    parser.add_argument("--plot", metavar="FOLDER", help="write pictures into a folder")
    given = parser.parse_args()
    program = given.program or str(next((path for path in PROGRAMS if path.exists()), PROGRAMS[-1]))
    if given.counts:
        return counts(os.path.abspath(program), given.only, given.n, given.plot)
    programs = {"rst2pseudoxml": [os.path.abspath(program), *WORDS], **({} if given.no_others else others())}
    print(f"{time.strftime('%Y-%m-%d')}, {processor()}, {os.cpu_count()} processors, {platform.system()} {platform.release()}")
    print(f"{program}; beside it: {', '.join(list(programs)[1:]) or 'none'}")
    with tempfile.TemporaryDirectory() as folder:
        bench = Bench(folder, programs, {} if given.no_others else markdown(folder), given.limit)
        for number in range(1, given.rounds + 1):
            if given.rounds > 1:
                print(f"round {number} of {given.rounds}")
            bench.all(given.only, given.n)
        if given.plot:
            pictures(bench, given.plot)
    return 0


if __name__ == "__main__":
    resource.setrlimit(resource.RLIMIT_CORE, (0, 0))
    sys.exit(main())
