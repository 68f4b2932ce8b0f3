#!/usr/bin/env python3
"""Compares the program's trees of real documents with those of Docutils, and what both cost.

    bench/real.py [--jobs N] [--only PACKAGE]... [--list KIND] [--program PROGRAM] [--wider COMMAND] [FOLDER]

The documents are those that some packages of Debian ship (`bench/documents.py`). Each package is fetched by `apt-get download` and
unpacked into FOLDER, unless it is there already; nothing is installed. Without FOLDER that is a temporary one. Any other folder in
FOLDER is compared as well, as if it were a package. Your own documents can be tried this way, with `--only`.

Docutils is the one of the Python that runs this. It reads all documents in one process, this program has a process for each. Both read
the same file, with the same path, and nothing halts. Docutils runs three times:

  default   as its own program does
  plain     with --syntax-highlight=none
  reduced   like that, and without what the profile leaves out: directives, roles, e-mail addresses, RCS keywords; the documents
            whose trees are the same in `plain` aren't read again

The trees of `plain` are also compared with those of the wider profile (docs/profile/wider.md), which COMMAND prints:

  wider     with --syntax-highlight=none, and the wider profile here

It prints tables in Markdown: how many trees are the same, byte for byte; the kinds of the first difference of the others; how often
directives and roles are used that the profile, and the wider one, leave out; CPU seconds. `--list KIND` names the documents whose first difference is of a
kind. A document's directives read no other files here, and nothing from the network. All packages take some 10 CPU minutes, and 700 MB.
"""

import argparse
import collections
import multiprocessing
import os
import pathlib
import platform
import resource
import shlex
import subprocess
import sys
import tempfile
import time
from dataclasses import dataclass, field

from differences import Difference, unknown
from documents import PACKAGES, Document, fetch, laid_out, version

TOP = pathlib.Path(__file__).resolve().parent.parent
VARIANTS = ("default", "plain", "reduced", "wider")
WIDER = f"{shlex.quote(str(TOP / 'dist/rst-tree'))} --profile=docutils"
DIRECTIVES = (
    "attention caution danger error hint important note tip warning admonition topic image figure replace code code-block sourcecode"
).split()
ROLES = "emphasis strong literal subscript superscript title-reference".split()


@dataclass
class Outcome:
    """What came of a document: the kind of the first difference (none where the trees are the same), CPU seconds, left-out names."""

    document: Document
    kind: str
    ours: float
    theirs: float
    left_out: collections.Counter = field(default_factory=collections.Counter)


class Docutils:
    """Docutils in this process, in one of the variants."""

    def __init__(self, variant: str):
        import docutils.core
        import docutils.io
        from docutils.parsers.rst import roles
        from docutils.parsers.rst.languages import en

        self.core, self.io, self.roles = docutils.core, docutils.io, roles
        self.known = {("directive", name) for name in en.directives} | {("role", name) for name in en.roles}
        if variant == "reduced":
            self.known = set()
            cut_down()
        self.settings = {
            "_disable_config": True,
            "halt_level": 5,
            "file_insertion_enabled": False,
            "warning_stream": False,
            "output_encoding": "unicode",
            "syntax_highlight": "long" if variant == "default" else "none",
        }

    def tree(self, path: str) -> str:
        """The tree of a file, or a line on what was raised."""
        # Roles that a document defines last as long as the process.
        self.roles._roles.clear()
        try:
            return self.core.publish_programmatically(
                self.io.FileInput, None, path, self.io.StringOutput, None, None, None, "standalone", None, "restructuredtext",
                None, "pseudoxml", None, None, self.settings, None, False,
            )[0]  # fmt: skip
        except Exception as fault:  # whatever a document makes it raise
            return f"raised {type(fault).__name__}"


def cut_down() -> None:
    """Takes out of Docutils what the profile leaves out."""
    from docutils.parsers.rst import directives, roles, states
    from docutils.transforms import frontmatter

    for registry, names in ((directives._directive_registry, DIRECTIVES), (roles._role_registry, ROLES)):
        for name in set(registry) - set(names):
            del registry[name]
    states.Inliner.email_pattern = "(?!)"  # matches nothing
    frontmatter.DocInfo.rcs_keyword_substitutions = []


def children() -> float:
    """The CPU seconds of the processes that this one has run."""
    usage = resource.getrusage(resource.RUSAGE_CHILDREN)
    return usage.ru_utime + usage.ru_stime


def run(command: list[str], path: str) -> tuple[str, float]:
    """The tree that a command prints of a file, or its line on the refusal; its CPU seconds."""
    began = children()
    done = subprocess.run([*command, "--halt=none", path], stdout=subprocess.PIPE, stderr=subprocess.PIPE)
    seconds = children() - began
    if done.returncode != 0:
        return done.stderr.decode("utf-8", "replace").strip().split("\n")[-1], seconds
    return done.stdout.decode("utf-8"), seconds


def kind_of(ours: str, theirs: str, known: set[tuple[str, str]]) -> str:
    if ours == theirs:
        return ""
    if ours.startswith(("rst2pseudoxml: ", "rst-tree: ")):
        return "refused here"
    return f"Docutils {theirs}" if theirs.startswith("raised ") else Difference(ours, theirs, known).kind()


def compared(variant: str, commands: list[list[str]], work: str, documents: list[Document]) -> list[list[Outcome]]:
    """All documents in one variant of Docutils, beside each of some commands."""
    os.chdir(work)
    docutils = Docutils(variant)
    pathlib.Path(f"warm-{variant}.rst").write_text("Title\n=====\n\n- *a*\n\n.. note:: b_\n", encoding="utf-8")
    docutils.tree(f"warm-{variant}.rst")
    found: list[list[Outcome]] = [[] for _ in commands]
    for document in documents:
        began = time.process_time()
        theirs = docutils.tree(document.path)
        spent = time.process_time() - began
        for command, outcomes in zip(commands, found):
            ours, seconds = run(command, document.path)
            names = [name for name in map(unknown, ours.split("\n")) if name in docutils.known]
            kind = kind_of(ours, theirs, docutils.known)
            outcomes.append(Outcome(document, kind, seconds, spent, collections.Counter(names)))
    return found


def all_compared(program: list[str], wider: list[str], work: str, documents: list[Document], jobs: int) -> dict[str, list[Outcome]]:
    """All documents in all variants, those of Docutils in a process each, as one of them changes Docutils for good."""
    with multiprocessing.Pool(jobs, maxtasksperchild=1) as pool:
        first = pool.apply_async(compared, ("default", [program], work, documents))
        second = pool.apply_async(compared, ("plain", [program, wider], work, documents))
        (default,), (plain, more) = first.get(), second.get()
        differing = [one.document for one in plain if one.kind]
        (reduced,) = pool.apply(compared, ("reduced", [program], work, differing))
    return {"default": default, "plain": plain, "reduced": [one for one in plain if not one.kind] + reduced, "wider": more}


def row(*cells: object) -> None:
    print("|", " | ".join(str(cell) for cell in cells), "|")


def table(title: str, *heads: str) -> None:
    print(f"\n{title}\n")
    row(*heads)
    row(*["---"] * len(heads))


def show_sames(found: dict[str, list[Outcome]], folder: pathlib.Path) -> None:
    """How many trees are the same, by package."""
    table("Trees that are the same, byte for byte", "package", "version", "documents", "MB", *VARIANTS)
    outcomes = found[VARIANTS[0]]
    for package in [*dict.fromkeys(one.document.package for one in outcomes), ""]:
        documents = [one.document for one in outcomes if package in ("", one.document.package)]
        sames = [
            sum(one.kind == "" and package in ("", one.document.package) for one in found[variant]) for variant in VARIANTS
        ]
        size = sum(document.size for document in documents) / 1e6
        row(package or "all", version(package, folder) if package else "", len(documents), f"{size:.2f}", *sames)


def show_kinds(found: dict[str, list[Outcome]]) -> None:
    """The kinds of first differences."""
    table("The first difference of the others: documents", "kind", *VARIANTS)
    counts = {variant: collections.Counter(one.kind for one in found[variant] if one.kind) for variant in VARIANTS}
    order = ("plain", "wider", "default", "reduced")
    kinds = sorted(set().union(*counts.values()), key=lambda kind: [-counts[variant][kind] for variant in order])
    for kind in kinds:
        row(kind, *(counts[variant][kind] for variant in VARIANTS))


def show_left_out(found: dict[str, list[Outcome]]) -> None:
    """What Docutils knows and a profile leaves out, by how many documents have it."""
    for variant, profile in (("plain", "the profile"), ("wider", "the wider profile")):
        table(f"Directives and roles that {profile} leaves out", "name", "documents", "times")
        documents = collections.Counter(name for one in found[variant] for name in one.left_out)
        times = sum((one.left_out for one in found[variant]), collections.Counter())
        for (kind, name), count in documents.most_common():
            row(f"{kind} `{name}`", count, times[kind, name])


def show_costs(found: dict[str, list[Outcome]], program: list[str], work: str) -> None:
    """CPU seconds over all documents."""
    table("CPU seconds, user and system", "", "seconds")
    pathlib.Path(work, "empty.rst").write_bytes(b"")
    start = sum(run(program, f"{work}/empty.rst")[1] for _ in range(200)) / 200
    costs = {
        "rst2pseudoxml, a process for each document": sum(one.ours for one in found["plain"]),
        "rst2pseudoxml, as many empty documents": start * len(found["plain"]),
        "the wider profile, a process for each document": sum(one.ours for one in found["wider"]),
        "Docutils, one process": sum(one.theirs for one in found["default"]),
        "Docutils, one process, `--syntax-highlight=none`": sum(one.theirs for one in found["plain"]),
    }
    for name, cost in costs.items():
        row(name, f"{cost:.1f}")


def chosen(only: list[str] | None, folder: pathlib.Path) -> list[str]:
    """The packages to compare, fetched where the folder lacks them, and other folders in it."""
    packages = [package for package in only or PACKAGES if (folder / package).is_dir() or fetch(package, folder)]
    others = [path.name for path in sorted(folder.iterdir()) if path.is_dir() and path.name not in packages]
    return packages if only else packages + others


def everything(given: argparse.Namespace, folder: pathlib.Path, work: pathlib.Path) -> int:
    """Compares, and prints the tables."""
    documents = [document for package in chosen(given.only, folder) for document in laid_out(package, folder, work)]
    if not documents:
        print("there are no documents", file=sys.stderr)
        return 1
    program, wider = [given.program], shlex.split(given.wider)
    found = all_compared(program, wider, str(work), documents, given.jobs)
    show_sames(found, folder)
    show_kinds(found)
    show_left_out(found)
    show_costs(found, program, str(work))
    for variant in VARIANTS if given.list else ():
        for one in found[variant]:
            if one.kind == given.list:
                print(f"{variant}: {one.document.path}")
    return 0


def versions() -> str:
    """What is compared with; an ImportError where there is no Docutils."""
    import docutils

    try:
        import pygments

        tokens = f"Pygments {pygments.__version__}"
    except ImportError:
        tokens = "no Pygments"
    return f"Docutils {docutils.__version__}, {tokens}, Python {platform.python_version()}"


def main() -> int:
    parser = argparse.ArgumentParser(description="Compares trees of real documents with those of Docutils.")
    parser.add_argument("folder", nargs="?", help="where the packages are, or are unpacked; by default a temporary folder")
    parser.add_argument("--only", action="append", metavar="PACKAGE", help="this package alone, or these if given more than once")
    parser.add_argument("--jobs", type=int, choices=(1, 2, 3), default=1, help="how many of the three variants of Docutils are read side by side")
    parser.add_argument("--list", metavar="KIND", help="names the documents whose first difference is of this kind")
    parser.add_argument("--program", default=str(TOP / "dist/rst2pseudoxml"), help="the program; by default the one in dist/")
    parser.add_argument("--wider", metavar="COMMAND", default=WIDER, help="prints trees of the wider profile; by default rst-tree in dist/")
    given = parser.parse_args()
    given.program = os.path.abspath(given.program)
    for program in given.program, shlex.split(given.wider)[0]:
        if not os.access(program, os.X_OK):
            print(f"{program}: there is no such program", file=sys.stderr)
            return 1
    try:
        print(f"{time.strftime('%Y-%m-%d')}, {versions()}")
    except ImportError:
        print("this Python has no Docutils", file=sys.stderr)
        return 1
    with tempfile.TemporaryDirectory() as made:
        folder, work = pathlib.Path(given.folder or f"{made}/packages"), pathlib.Path(made, "documents")
        folder.mkdir(parents=True, exist_ok=True)
        work.mkdir()
        return everything(given, folder.resolve(), work)


if __name__ == "__main__":
    sys.exit(main())
