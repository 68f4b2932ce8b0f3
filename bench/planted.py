#!/usr/bin/env python3
"""Plants faults in the text of directives of Sphinx, and counts those that check-pages.sh reports at their lines.

    bench/planted.py [--count N] [--list] [FOLDER]

FOLDER has packages as bench/real.py keeps them. Of each package N faults are planted, each in a copy of a page: a paragraph in the content
of a directive, which may be in another. A directive is a line that looks like one of those named below, and isn't in a literal block or in
another directive. --list shows the faults that aren't reported.
"""

import argparse
import json
import pathlib
import random
import re
import subprocess
import sys
import tempfile

from documents import laid_out

CHECK = pathlib.Path(__file__).resolve().parent.parent / "integrations/check-pages.sh"
PROJECTS = {  # directives of their own that hold text
    "cmake-doc": ["command content", "variable content", "genex content", "prop_tgt content", "signature content"],
    "python-sqlalchemy-doc": ["change text", "changelog text", "deepalchemy text"],
    "python-celery-doc": ["setting content", "signal content"],
    "sphinx-doc": ["event sections"],
    "python3.11-doc": ["impl-detail text", "deprecated-removed title", "2to3fixer content", "opcode content", "pdbcommand content"],
}
NAMES = (
    "attribute class classmethod cmdoption compound container data deprecated describe envvar epigraph exception function ifconfig "
    "list-table member method module only option seealso sidebar staticmethod todo type versionadded versionchanged c:function c:macro "
    "c:member c:type py:attribute py:class py:function py:method rst:directive rst:role"
).split()
DIRECTIVE = re.compile(rf"( *)\.\. ({'|'.join(NAMES)})::(?: |$)")
NATIVE = "attention caution danger error hint important note tip warning admonition".split()
OWN = [name.split()[0] for names in PROJECTS.values() for name in names]
OUTER = re.compile(rf" *\.\. ({'|'.join([*NAMES, *NATIVE, *OWN])})::(?: |$)")
FAULTS = {  # a paragraph, the line in it that is reported, and the message
    "An *emphasis that doesn't end.": (0, "Inline emphasis start-string without end-string."),
    "A ``literal that doesn't end.": (0, "Inline literal start-string without end-string."),
    "A reference to planted_.": (0, 'Unknown target name: "planted".'),
    "A |planted| substitution.": (0, 'Undefined substitution referenced: "planted".'),
    "A :planted:`role`.": (0, 'Unknown interpreted text role "planted".'),
    "- An item.\nA text.": (1, "Bullet list ends without a blank line; unexpected unindent."),
    "A text\nof two lines.\n  A third.": (2, "Unexpected indentation."),
}


def indentation(line: str) -> int:
    return len(line) - len(line.lstrip(" "))


def is_read(lines: list[str], at: int) -> bool:
    """Whether a line is text, as far as the less indented lines before it show."""
    here = indentation(lines[at])
    for up in range(at - 1, -1, -1):
        line = lines[up]
        if line.strip() and indentation(line) < here:
            here = indentation(line)
            if line.rstrip().endswith("::") and not DIRECTIVE.match(line) or line.lstrip().startswith("..") and not OUTER.match(line):
                return False
    return True


def places(lines: list[str]) -> list[int]:
    """Before which lines a paragraph would be one more in the content of a directive."""
    found = []
    for at, line in enumerate(lines):
        head = DIRECTIVE.match(line)
        if not head or lines[at - 1 : at] not in ([], [""]) or not is_read(lines, at):
            continue
        blank = next((down for down in range(at + 1, len(lines)) if not lines[down].strip()), len(lines))
        first = next((down for down in range(blank, len(lines)) if lines[down].strip()), None)
        if first and indentation(lines[first]) > len(head[1]):
            found.append(first)
    return found


def planted(pages: list[pathlib.Path], count: int, folder: pathlib.Path, chance: random.Random) -> dict[str, tuple[int, str]]:
    """Writes pages with a fault each; the line and the text of the message that each has to have."""
    wanted: dict[str, tuple[int, str]] = {}
    choices = [(page, place) for page in pages for place in places(page.read_text("utf-8", "replace").expandtabs().split("\n"))]
    for number, (page, place) in enumerate(chance.sample(choices, min(count, len(choices)))):
        lines = page.read_text("utf-8", "replace").expandtabs().split("\n")
        fault = list(FAULTS)[number % len(FAULTS)]
        line, text = FAULTS[fault]
        margin = " " * indentation(lines[place])
        lines[place:place] = [*(margin + part for part in fault.split("\n")), ""]
        (folder / f"{number}.rst").write_text("\n".join(lines), encoding="utf-8")
        wanted[f"./{number}.rst"] = place + line + 1, text
    return wanted


def missed(package: str, wanted: dict[str, tuple[int, str]], folder: pathlib.Path) -> list[str]:
    """The pages whose fault isn't reported at its line."""
    known = ["--known=@sphinx-names.txt", *(f"--known=directive:{name}" for name in PROJECTS.get(package, []))]
    done = subprocess.run([CHECK, "--format=json", *known, "."], cwd=folder, stdout=subprocess.PIPE, stderr=subprocess.DEVNULL, check=False)
    found = [json.loads(line) for line in done.stdout.decode("utf-8", "replace").splitlines()]
    said = {(one["file"], one["line"], one["text"]) for one in found}
    return [page for page, fault in wanted.items() if (page, *fault) not in said]


def main() -> int:
    parser = argparse.ArgumentParser(description="counts planted faults that are reported")
    parser.add_argument("--count", type=int, default=60)
    parser.add_argument("--list", action="store_true")
    parser.add_argument("folder", type=pathlib.Path)
    given = parser.parse_args()
    print("| package | directives with text | faults | reported at their lines |\n|---|---|---|---|")
    for package in sorted(path.name for path in given.folder.iterdir() if path.is_dir()):
        with tempfile.TemporaryDirectory() as made:
            work, copies = pathlib.Path(made, "documents"), pathlib.Path(made, "copies")
            copies.mkdir()
            pages = [work / document.path for document in laid_out(package, given.folder, work)]
            count = sum(len(places(page.read_text("utf-8", "replace").expandtabs().split("\n"))) for page in pages)
            wanted = planted(pages, given.count, copies, random.Random(package))
            unseen = missed(package, wanted, copies)
            print(f"| {package} | {count} | {len(wanted)} | {len(wanted) - len(unseen)} |", flush=True)
            for page in unseen if given.list else ():
                print(f"{page}: {wanted[page]}", file=sys.stderr)
    return 0


if __name__ == "__main__":
    sys.exit(main())
