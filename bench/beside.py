#!/usr/bin/env python3
"""Compares the trees of made documents under the wider profile with those of Docutils.

    bench/beside.py [--count N] [--seed N] [--jobs N] [--show N] [PROGRAM]

A document has one to three constructs of the wider profile (docs/profile/wider.md), each in a place where blocks or a text may stand. The same
seed and number always make the same document. PROGRAM is by default dist/rst-tree. Docutils is that of the Python that runs this, without
files, highlighting and the directives that the wider profile leaves out. Trees that differ are compared again without the differences that
docs/DOCUTILS.md lists, each taken out of both, and then all. It prints how many trees are the same, how many without which difference, and the
first of the others. The status is 1 if there are others. It takes some 15 CPU milliseconds for each document.
"""

import argparse
import collections
import difflib
import multiprocessing
import os
import random
import re
import subprocess
import sys

from real import DIRECTIVES, TOP

WIDER = "rubric parsed-literal raw compound container class include contents table list-table".split()
ROLES = (
    "abbreviation ab acronym ac math code pep-reference pep rfc-reference rfc raw index i named-reference anonymous-reference footnote-reference "
    "citation-reference substitution-reference target uri-reference uri url emphasis strong literal subscript sub superscript sup "
    "title-reference title t unknown"
).split()
TEXTS = "8|0257|10000|0|00|009999|x|-1|2822|2822#section-3|0001#|#a|1#a#b|\\8|7 9|a\\*b|\\alpha|a b|a\\\\b|a_|*a*|a|1.2|²|8\\9".split("|")
MAILS = (
    "me@example.org|a@bc|a@b|a.b@c.d|john_@example.org|me@example.org_|o'x@y.zz|a..b@c.de|a\\@b.cd|m\\e@b.cd|a@.cd|a@b..cd|a@bc.|a@bc-|a@bc?|é@b.cd|"
    "a@é.cd|<a@b.cd>|`a@b.cd`|*a@b.cd*|``a@b.cd``|`a@b.cd`_|`t <a@b.cd>`_|`t <a@b.cd>`__|`<a@b.cd>`__|`<a@b.cd>`_|mailto:a@b.cd|http://a@b.cd/x|"
    "a@b.cd/x?y=z|a@b.cd#f|a@b.cd>|{a}@b.cd|a%b@c.d~|a@b@c.d|@b.cd|a@|a@b.c\\d|a\\.b@c.d|a@b.cd-x|a@b.cd,c@d.ef|a|b@c.de|-a@b.cd|`t <m\\e@b.cd>`__"
).split("|")
URIS = "ssh://x.org|http:a|urn:a:b|Tel:+1-8|http:a-|http:a.b<c>|<http:a.>|http:a?b=c#d|http:a?#b|http:/\\*x|http:c\\ d|news:a_|http:|view-source:a".split("|")
AROUND = [("", ""), ("", ""), ("(", ")"), ("x ", " y"), ("<", ">"), ("", ":"), ("", ": z"), ("\\ ", "\\ "), ("", ",")]
KEYWORDS = (
    "$Date: 2005/12/30 10:11:12 $|$date: 2005-12-30T1 $|$Date: 2005/1/3 4 $|$RCSfile: a,v $|$rcsfile: a b,v $|$Id: a b $|$id: q $|$Id:a $|$Id: $|"
    "$Id:  $|$Date$|x $Id: a $ y $Id: b $|$Date: 2005-12-30 (x) $ $Id: z $|$Revision: 4231 $|$a1: b $"
).split("|")
OPTIONS = "class class name file url start-line literal foo sub Class code tab-width depth local backlinks widths widths align".split()
FIELDS = "author date version revision status contact organization copyright address abstract dedication x class DATE".split()


class Maker:
    """Makes a document. A block is a list of lines."""

    def __init__(self, seed: str):
        self.chance = random.Random(seed)
        self.number = 0

    def of(self, *choices):
        return self.chance.choice(choices)

    def is_so(self, share: float) -> bool:
        return self.chance.random() < share

    def name(self) -> str:
        self.number += 1
        return f"n{self.number}"

    def cased(self, name: str) -> str:
        return self.of(name, name, name.upper(), name.title())

    def address(self) -> str:
        """An address or a URI, or almost one."""
        ends = ["".join(self.chance.choices("ab1.-~!'{}/#?^&=+$%", k=self.chance.randint(0, 4))) for _ in range(3)]
        return self.of(*MAILS, *URIS, f"{ends[0]}{self.of('a', '')}{ends[1]}@{self.of('b', '')}{ends[2]}{self.of('c', '.', '>', ')', ' c')}")

    def piece(self) -> str:
        role, text = self.cased(self.of(*ROLES)), self.of(*TEXTS)
        before, after = self.of(*AROUND)
        return before + self.of(f":{role}:`{text}`", f":{role}:`{text}`", f"`{text}`:{role}:", self.address(), self.address()) + after

    def text(self) -> str:
        return " ".join(self.of(self.piece(), self.piece(), "a", "b c", "*d*") for _ in range(self.of(1, 1, 2, 3)))

    def plain(self) -> list[str]:
        return [self.text() for _ in range(self.of(1, 1, 2))]

    def options(self) -> list[str]:
        made = []
        for _ in range(self.of(1, 1, 2)):
            name = self.of(*OPTIONS)
            value = {"name": self.name(), "start-line": self.of("1", "x", "-2"), "literal": self.of("", "x"), "tab-width": self.of("4", "x", "")}
            value |= {"depth": self.of("0", "2", "x"), "local": self.of("", "x"), "backlinks": self.of("top", "Entry", "none", "x")}
            value |= {"widths": self.of("auto", "grid", "3 5", "10,20", "1", "0"), "align": self.of("left", "center", "top")}
            made.append(f":{name}: {value.get(name, self.of('a', 'a b', ''))}".rstrip())
        return self.of(made, made, made, [":sub:`2`: c"])

    def directive(self) -> list[str]:
        name = self.of(*WIDER, *WIDER, *WIDER, "note", "image", "code", "foo")
        usual = {"rubric": self.text(), "raw": self.of("html", "HTML  x", "h,t"), "container": self.of("", "a", "A b", "?", "a ?"), "image": "a.png"}
        usual["contents"] = self.of("", self.text())
        usual["class"] = self.of("a", "A b", "b c d", "?")
        argument = usual.get(name, self.of("a.txt", "")) if self.is_so(0.85) else self.of("", "a", self.text())
        lines = [f".. {self.cased(name)}{self.of('::', '::', '::', ' ::')} {argument}".rstrip()] + self.of([], [], [], [], [""])
        lines += self.indented(self.of([], self.options()), "   ") + self.of([], [""], [""])
        if name == "include" and self.is_so(0.7):
            return lines
        if name.endswith("table") and self.is_so(0.8):
            content = self.of(*[self.table(self.plain()) for _ in range(4)], self.lists(), self.lists())
            return lines + self.of([""], [""], []) + self.indented(content, "   ")
        return lines + self.indented(self.of([], *[self.plain() for _ in range(3)], *[self.block() for _ in range(self.is_so(0.3))]), "   ")

    def lists(self) -> list[str]:
        """Rows as lists, most of them even."""
        return [line for _ in range(self.of(1, 2)) for line in ["* - " + self.text(), *self.of(["  - b"], ["  - b"], ["  - b"], [], ["", "  c"])]]

    def fields(self) -> list[str]:
        made = []
        for _ in range(self.of(1, 1, 2, 3)):
            first, piece = self.of(*FIELDS), self.piece().removeprefix("\\ ").removesuffix("\\ ")
            name = self.of(self.cased(first), f"{first} {piece}", piece + self.of(" a", ""), f"*{first}* x", f"``{first}``", f"{first} *x*")
            made.append(f":{name}: {self.of(self.of(*KEYWORDS), self.text(), self.of(*KEYWORDS) + ' ' + self.of(*KEYWORDS), '')}".rstrip())
            made += self.of([], [], [], [], ["   " + self.of(self.of(*KEYWORDS), self.text())])
        return made

    def definition(self) -> list[str]:
        first, *more = self.of(["replace:: " + self.text()], ["raw:: html", "", "   " + self.text()], self.directive())
        return [f".. |s| {first.removeprefix('.. ')}", *more, "", self.of("a |s| b", "|s|", self.text())]

    def target(self) -> list[str]:
        address = self.address().replace("`", "")
        line, reference = self.of((".. _{}: {}", "{}_"), (".. _{}: {} x", "{}_"), (".. _{}:{}", "x"), ("__ {1}", "`x`__"), (".. __: {1}", "`x`__"))
        name = self.name()
        return [line.format(name, address), "", reference.format(name)]

    @staticmethod
    def indented(lines: list[str], rest: str, first: str = "") -> list[str]:
        made = [rest + line if line else "" for line in lines]
        return [first + lines[0], *made[1:]] if first else made

    def table(self, lines: list[str]) -> list[str]:
        if self.is_so(0.5):
            return ["=====  ===", "a      b", *self.indented(lines, " " * 7, "c      "), "=====  ==="]
        border = f"+---+{'-' * (max(map(len, lines)) + 2)}+"
        return [border, *(f"| {' ' if at else 'a'} | {line.ljust(len(border) - 8)} |" for at, line in enumerate(lines)), border]

    def block(self) -> list[str]:
        return self.of(self.plain, self.plain, self.directive, self.directive, self.directive, self.target, self.definition, self.fields)()

    def placed(self) -> list[str]:
        """A block in a place for blocks, or a text in a place for texts."""
        lines, text, more = self.block(), self.text(), self.text()
        marks = ["- ", "1. ", ":f: ", ".. [#] ", f".. [C{self.name()}] ", "-o  "]
        heads = [["a", ""], ["term"], [".. note::", ""], [".. container::", ""], [".. topic:: T", ""], [".. figure:: a.png", "", "   cap", ""]]
        places = [lines, lines, *(self.indented(lines, " " * len(mark), mark) for mark in marks), *(head + self.indented(lines, "   ") for head in heads)]
        places += [self.table(lines), self.fields(), self.fields(), [text, "=" * (len(text) + 3), "", "x"], [text, "  a"], [f"a : {text}", "  b"]]
        places += [[f":{text}: x"], [f"| {text}", f"|   {more}"], ["  a", "", f"  -- {text}"], [f".. admonition:: {text}", "", "   x"]]
        return self.of(*places, [f".. topic:: {text}", "", "   x"], [f"``{text}``", f"**{text}**"], ["a::", "", f"  {text}"])

    def document(self) -> str:
        lines = self.of([], [], [], [], [], self.fields() + [""])
        for _ in range(self.of(1, 1, 1, 2, 3)):
            made = self.placed()
            lines += [*made, *([""] if self.is_so(0.95) or made[0][0] in "+=" else [])]
        return "\n".join(lines) + "\n"


def without_blank_ends(tree: str) -> str:
    """The source text of a message ends with its last line that isn't blank."""
    made: list[str] = []
    margin = None
    for line in [*tree.split("\n"), "<end>"]:
        depth = len(line) - len(line.lstrip())
        if margin is not None and line.strip() and depth < margin:
            while not made[-1].strip():
                made.pop()
            margin = None
        if line.endswith('<literal_block xml:space="preserve">') and any(one.startswith(" " * (depth - 4) + "<system_message ") for one in made[-9:]):
            margin = depth + 4
        made.append(line)
    return "\n".join(made[:-1])


def without_lines(tree: str) -> str:
    """Messages in cells and on terms have other lines, and so have those of transforms and some that are found at the end of a block."""
    made: list[str] = []
    inside: list[str] = []
    for line in tree.split("\n"):
        depth = len(line) - len(line.lstrip())
        inside = [tag for tag in inside if len(tag) - len(tag.lstrip()) < depth]
        tags = [tag.strip() for tag in inside]
        if tags[-1:] == ["<definition>"] or '<section classes="system-messages">' in tags or any(tag.startswith("<entry") for tag in tags):
            line = re.sub(r'^( *<system_message .*) line="\d+"', r"\1", line)
        if line.strip() in ("Line block ends without a blank line.", "Literal block expected; none found."):
            made[-2] = re.sub(r' line="\d+"', "", made[-2])
        if line.lstrip().startswith("<"):
            inside.append(line)
        made.append(line)
    return "\n".join(made)


# Each is a difference that docs/DOCUTILS.md lists: what takes it out of a tree, or what is written for what.
LISTED = {
    "text of a fault": (
        (r'^( *)Error in "[\w-]*" directive:\n(?: .*\n)*?(?= *<literal_block)', r"\1(a text)\n"),
        (r'^( *)(?:Bibliographic field ".*" (?:is not|incompatible)|Cannot extract .*bibliographic field "|There can only be one ").*', r"\1(a text)"),
        ("(both interpreted text role) (?:prefix|suffix)", r"\1"),
        (r'^ *See "backrefs" attribute for IDs\.\n', ""),
    ),
    "blank lines at the end of a source text": without_blank_ends,
    "line of a message": without_lines,
    "anonymous target that is an address": ((r'^( *<(?:target|reference) anonymous="1".*refuri=")mailto:', r"\1"),),
    "class of an admonition": ((r'<admonition classes="[^"]*"', "<admonition"),),
    "URI of an image": ((r'(<image .*)uri="[^"]*"', r"\1"),),
}


def without(tree: str, *names: str) -> str:
    """A tree without these differences."""
    for name in names:
        taken = LISTED[name]
        if callable(taken):
            tree = taken(tree)
        else:
            for pattern, new in taken:
                tree = re.sub(pattern, new, tree, flags=re.MULTILINE)
    return tree


def reason(ours: str, theirs: str) -> str:
    """Which listed differences two trees have; "others" if there are more. Where a substitution definition has a fault, messages differ in many ways."""
    if ours == theirs:
        return "the same"
    for name in LISTED:
        if without(ours, name) == without(theirs, name):
            return name
    if without(ours, *LISTED) == without(theirs, *LISTED):
        return "several of these"
    faulty = re.search("ubstitution definition|Undefined substitution|Invalid context", ours + theirs)
    return "not looked at: faults of substitution definitions" if faulty else "others"


class Both:
    """This program, and Docutils in this process."""

    def __init__(self, program: str):
        import docutils.core
        from docutils.parsers.rst import directives, roles

        self.program, self.core, self.roles = program, docutils.core, roles
        for name in set(directives._directive_registry) - {*DIRECTIVES, *WIDER}:
            del directives._directive_registry[name]
        self.settings = {
            "_disable_config": True,
            "halt_level": 5,
            "file_insertion_enabled": False,
            "warning_stream": False,
            "output_encoding": "unicode",
            "syntax_highlight": "none",
        }

    def trees(self, text: str) -> tuple[str, str]:
        words = [self.program, "--profile=docutils", "--halt=none"]
        done = subprocess.run(words, input=text.encode(), stdout=subprocess.PIPE, stderr=subprocess.PIPE, check=False)
        ours = done.stdout if done.returncode == 0 else done.stderr
        self.roles._roles.clear()
        try:
            theirs = self.core.publish_string(text, source_path="<stdin>", writer_name="pseudoxml", settings_overrides=self.settings)
        except Exception as fault:  # whatever a document makes it raise
            theirs = f"raised {type(fault).__name__}"
        return ours.decode("utf-8", "replace"), theirs


def counted(program: str, seed: str, numbers: range) -> tuple[collections.Counter, list[int]]:
    """How often there is which reason, and the numbers of the documents with others."""
    both = Both(program)
    found = {number: reason(*both.trees(Maker(f"{seed}/{number}").document())) for number in numbers}
    return collections.Counter(found.values()), [number for number, why in found.items() if why == "others"]


def main() -> int:
    parser = argparse.ArgumentParser(description=__doc__, formatter_class=argparse.RawDescriptionHelpFormatter)
    parser.add_argument("--count", type=int, default=2000)
    parser.add_argument("--seed", default="1")
    parser.add_argument("--jobs", type=int, default=os.cpu_count())
    parser.add_argument("--show", type=int, default=5, help="how many of the others are shown")
    parser.add_argument("program", nargs="?", default=str(TOP / "dist/rst-tree"))
    given = parser.parse_args()
    if not os.access(given.program, os.X_OK):
        parser.error(f"{given.program}: there is no such program")
    parts = [range(first, given.count, given.jobs) for first in range(given.jobs)]
    with multiprocessing.Pool(given.jobs) as pool:
        found = pool.starmap(counted, [(given.program, given.seed, part) for part in parts])
    counts = sum((part for part, _ in found), collections.Counter())
    for why, count in counts.most_common():
        print(f"{count:6} {why}")
    both = Both(given.program)
    for number in sorted(number for _, numbers in found for number in numbers)[: given.show]:
        text = Maker(f"{given.seed}/{number}").document()
        ours, theirs = both.trees(text)
        changed = difflib.unified_diff(theirs.split("\n"), ours.split("\n"), "Docutils", "ours", lineterm="", n=1)
        print(f"\n{number}: {text!r}", *changed, sep="\n")
    return int(counts["others"] > 0)


if __name__ == "__main__":
    sys.exit(main())
