#!/usr/bin/env python3
"""Tries edits, many at once: the prover must refuse each.

    scripts/edits.py [--most N] [--jobs N] [--anew] [--wrong-bodies] CRATE..

It takes the edits of these crates in must-fail/, wrong-bodies/ and more-edits/, or with --wrong-bodies only those there; with no crate it takes
all crates. It makes as many as N (25 if not given) in a copy of the crate, no two in functions of one name, and checks the functions that they are
in and those that these call. That takes some ten seconds an edit. It needs the libraries that `rt ci` built in this checkout
(crates/*/out/rlib). With --jobs it tries those of N crates side by side. An edit that was refused stays so as long as the crate, the libraries
below it and the kit are the same: that is kept below ~/.cache, and with --anew it is tried again.

A function counts as refused if something of its own isn't proved; that a function it calls isn't proved doesn't count. An edit outside of a
function, one of several functions, one that can't be made beside the others, and one that isn't refused beside them are tried alone, and if
the functions, the laws and the worked examples are proved then, with the whole crate. The first two count as refused if any function is, or a
lemma.

The exit status is 0 if all were refused, 1 if one wasn't or doesn't compile, 2 if the arguments are wrong, 77 if the kit or a library is missing.
"""

import argparse
import concurrent.futures
import hashlib
import os
import pathlib
import re
import shutil
import subprocess
import sys
import tempfile

from edits_apply import KINDS, pairs

TOP = pathlib.Path(__file__).resolve().parent.parent
KIT = pathlib.Path(shutil.which("rattle") or "/").resolve().parent.parent
REFUSALS = pathlib.Path(os.environ.get("XDG_CACHE_HOME") or pathlib.Path.home() / ".cache") / "rst2pseudoxml/edits"
FUNCTION = re.compile(r'\s*(?:pub(?:\(\w+\))? )?(?:const )?(?:unsafe )?(?:extern "C" )?fn (\w+)')
IMPLEMENTATION = re.compile(r"impl\b(?:<.*?>)? (?:(\w+)(?:<.*>)? for )?(\w+)")
VERDICT = re.compile(r"^fn \w+::(\S+): (.*)$", re.MULTILINE)
REFUSED = re.compile(r"^not proved|did not prove|expected answers")


def libraries():
    """Of each crate, by crates.txt: the words before the colon but its name, and its libraries."""
    lines = (line.split("#")[0].partition(":") for line in (TOP / "crates.txt").read_text(encoding="utf-8").splitlines())
    return {head.split()[0]: (head.split()[1:], below.split()) for head, colon, below in lines if colon}


def rlib(crates, name):
    """The built library of a crate of this repository, or of the kit."""
    return TOP / f"crates/{name}/out/rlib/{name}.rlib" if name in crates else KIT / f"rlibs/{name}.rlib"


def command(crates, crate, kept):
    """How a copy of the crate is checked; what was proved is kept in a folder."""
    main = "main" if (TOP / f"crates/{crate}/src/main.rt").exists() else "lib"
    kinds, below = crates[crate]
    words = ["rattle", "check", "--crate-name", crate, f"src/{main}.rt", *(word for kind in kinds for word in ("--crate-type", kind))]
    for name in ["std", *below]:
        words += ["--extern", f"{name}={rlib(crates, name)}"]
    for folder in [KIT / "rlibs", *(TOP / f"crates/{name}/out/rlib" for name in crates)]:
        words += ["-L", f"dependency={folder}"]
    logic = ["--antt-project", str(KIT / "rattle/logic/antt-project.json"), "--logic-built", str(KIT / "logic_built")]
    return [*words, *logic, "--links", f"{crate}=", "--jobs", "1", "--incremental", str(kept)]


def stamp(crates, crate):
    """A sum of all that a refusal of an edit of the crate depends on but the edit: its files, the libraries below it and the kit."""
    folder = TOP / "crates" / crate
    files = [file for part in ("src", "specs", "proofs") for file in sorted((folder / part).rglob("*")) if file.is_file()]
    files += [KIT / "KIT-ID", *(rlib(crates, name) / "format" for name in ["std", *crates[crate][1]])]
    summed = hashlib.sha256()
    for file in files:
        name = file.relative_to(folder) if folder in file.parents else file.parent.name
        summed.update(repr((str(name), file.read_bytes())).encode())
    return summed.digest()


def function_at(path, text, place):
    """The function that a place of a file is in, by its path below the crate, if it is in one."""
    module = [part for part in path.with_suffix("").parts[1:] if part not in ("lib", "main", "mod")]
    name, owner, begin = None, [], 0
    for line in text.splitlines(keepends=True):
        implementation = IMPLEMENTATION.match(line)
        if implementation:
            owner = [implementation[2] + (implementation[1] or "")]
        elif line.startswith("}"):
            owner = []
        found = FUNCTION.match(line)
        if found:
            name = "::".join([*module, *owner, found[1]])
        begin += len(line)
        if place < begin:
            return name
        if line.startswith("}"):
            name = None
    return None


class Edit:
    """An edit: its changes, the functions that they are in, and the name of the function if it is one; none for an edit that is tried alone."""

    def __init__(self, path, crate, stamp):
        self.name = path.stem
        self.kept = REFUSALS / hashlib.sha256(stamp + path.read_bytes()).hexdigest()
        self.changes = [(file.relative_to(crate), old, new) for file, old, new in pairs(path)]
        places = self.places(crate)
        self.paths = sorted(places - {None})
        self.function = self.paths[0].split("::")[-1] if len(places) == 1 and self.paths else None

    def places(self, crate):
        """The functions that the changes are in, each made in what those before it left, by their paths; None for no function."""
        texts, found = {}, set()
        for file, old, new in self.changes:
            text = texts.get(file) or (crate / file).read_text(encoding="utf-8")
            found.add(function_at(file, text, text.find(old)) if file.suffix == ".rt" else None)
            texts[file] = text.replace(old, new)
        return found

    def make(self, folder):
        """Makes the edit in a copy, if each of its texts is there once."""
        texts = {}
        for file, old, new in self.changes:
            text = texts.get(file) or (folder / file).read_text(encoding="utf-8")
            if text.count(old) != 1:
                return False
            texts[file] = text.replace(old, new)
        for file, text in texts.items():
            (folder / file).write_text(text, encoding="utf-8")
        return True


def rounds(edits, most):
    """The edits in groups: no two of a group are in functions of one name, and what is in no function, or in several, is alone."""
    groups = []
    for edit in edits:
        open_groups = (group for group in groups if len(group) < most and None not in group and edit.function not in group)
        group = next(open_groups, None) if edit.function else None
        if group is None:
            group = {}
            groups.append(group)
        group[edit.function] = edit
    return [list(group.values()) for group in groups]


class Trial:
    """The edits of a crate, as they are tried."""

    def __init__(self, crates, crate, folder):
        self.crate = TOP / "crates" / crate
        self.copy = folder / crate
        self.words = command(crates, crate, folder / "kept")
        self.clauses = [name for name in ("laws", "rows") if list(self.crate.glob(f"src/{name}*"))]
        self.wrong = 0

    def only(self, group):
        """What of the crate is checked where these edits are made; nothing stands for all of it."""
        paths = [path for edit in group for path in edit.paths]
        alone = self.clauses if any(edit.function is None for edit in group) else []
        return [word for path in paths + alone for word in ("--only", path)]

    def check(self, group, only):
        """Makes edits in a copy and checks it: which were made, and the functions that the prover refuses, if the copy compiles."""
        shutil.rmtree(self.copy, ignore_errors=True)
        shutil.copytree(self.crate, self.copy, ignore=shutil.ignore_patterns("out"))
        made = [edit for edit in group if edit.make(self.copy)]
        run = subprocess.run([*self.words, *only], cwd=self.copy, stdout=subprocess.PIPE, stderr=subprocess.STDOUT, text=True, check=False)
        verdicts = VERDICT.findall(run.stdout)
        if run.returncode != 0 and not verdicts:
            return self.check(group, []) if only else (made, None)
        refused = {path.split("::")[-1] for path, text in verdicts if REFUSED.search(text)}
        if not refused and "\nlogic=not-proved" in run.stdout:
            refused.add(None)  # a lemma, which is in no function
        return made, refused

    def report(self, edit, verdict):
        self.wrong += verdict != "refused"
        if verdict == "refused":
            REFUSALS.mkdir(parents=True, exist_ok=True)
            edit.kept.touch()
        print(f"{self.crate.name}/{edit.name}: {verdict}", flush=True)

    def run(self, group, whole=False):
        """Tries some edits together; where they don't compile together, in halves, and one that isn't refused over the whole crate."""
        only = [] if whole else self.only(group)
        made, refused = self.check(group, only)
        if refused is None and len(group) > 1:
            self.run(group[: len(group) // 2])
            self.run(group[len(group) // 2 :])
            return
        for edit in made:
            if refused is None:
                self.report(edit, "NOT COMPILED")
            elif edit.function in refused or (edit.function is None and refused):
                self.report(edit, "refused")
            elif len(group) > 1 or only:
                self.run([edit], len(group) == 1)  # perhaps its function wasn't looked at, since it calls another edited one
            else:
                self.report(edit, "NOT REFUSED")
        for edit in group:
            if edit not in made:
                self.run([edit]) if len(group) > 1 else self.report(edit, "CAN'T BE MADE")


def tried(crates, crate, kinds, words):
    """How many edits a crate has, how many of them were refused earlier, and how many weren't refused now."""
    folder, sum_of_all = TOP / "crates" / crate, stamp(crates, crate)
    edits = [Edit(path, folder, sum_of_all) for kind in kinds for path in sorted(folder.glob(f"{kind}/*.edit"))]
    left = [edit for edit in edits if words.anew or not edit.kept.exists()]
    with tempfile.TemporaryDirectory() as copy:
        trial = Trial(crates, crate, pathlib.Path(copy))
        for group in rounds(left, words.most):
            trial.run(group)
    return len(edits), len(edits) - len(left), trial.wrong


def at_least_one(word):
    if not word.isdigit() or int(word) == 0:
        raise argparse.ArgumentTypeError(f"'{word}' is no number from 1 on")
    return int(word)


def arguments(crates):
    parser = argparse.ArgumentParser(description=__doc__, formatter_class=argparse.RawDescriptionHelpFormatter)
    parser.add_argument("--most", type=at_least_one, default=25, help=argparse.SUPPRESS)
    parser.add_argument("--jobs", type=at_least_one, default=1, help=argparse.SUPPRESS)
    parser.add_argument("--anew", action="store_true", help=argparse.SUPPRESS)
    parser.add_argument("--wrong-bodies", action="store_true", help=argparse.SUPPRESS)
    parser.add_argument("crate", nargs="*", help=argparse.SUPPRESS)
    words = parser.parse_args()
    unknown = [name for name in words.crate if name not in crates]
    if unknown:
        parser.error(f"'{unknown[0]}' is no crate of crates.txt")
    return words


def main():
    crates = libraries()
    words = arguments(crates)
    kinds = ["wrong-bodies"] if words.wrong_bodies else KINDS
    chosen = [crate for crate in words.crate or crates if any((TOP / "crates" / crate / kind).exists() for kind in kinds)]
    if shutil.which("rattle") is None:
        print("skipped: the command rattle of Rattle's kit is missing")
        return 77
    missing = [name for crate in chosen for name in crates[crate][1] if not rlib(crates, name).exists()]
    if missing:
        print(f"skipped: the library {missing[0]} isn't built here; run rt ci first")
        return 77
    with concurrent.futures.ThreadPoolExecutor(words.jobs) as side_by_side:
        # Crates that use most others stand last in crates.txt and take longest, so they begin.
        counts = list(side_by_side.map(lambda crate: tried(crates, crate, kinds, words), reversed(chosen)))
    total, earlier, wrong = (sum(count[place] for count in counts) for place in range(3))
    print(f"{total} edits, {total - wrong} refused ({earlier} of them by an earlier run here), {wrong} not")
    return int(wrong > 0 or not total)


if __name__ == "__main__":
    sys.exit(main())
