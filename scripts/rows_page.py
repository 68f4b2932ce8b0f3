#!/usr/bin/env python3
"""Prints the worked examples that are theorems, as a page: the clauses of the functions in crates/*/src/rows.rt and src/rows/. With --check it prints
nothing, and fails if a function's comment doesn't end with the section of the standard that its rows are of, as (Markup Specification, 'Bullet
Lists'), or with that of a page of this repository."""

import pathlib
import re
import sys

TOP = pathlib.Path(__file__).resolve().parent.parent
OPENING = """# Worked examples as theorems

Each example is a theorem on the definition alone, in the order of the standard's sections: the prover computes what the definition gives for a text,
and compares. No code of the program is run for it. The name of each is that of a clause in the crate's `src/rows.rt` or `src/rows/`.

Where two trees are given, the second is what is printed on standard error. `Outputs`, `Reports` and `ReportsOn` give what the program prints; any
other tree of a document is the one before the transforms: titles are sections, and references aren't resolved yet. Where the count of messages on
texts is given, the tree has all attributes, also those that only the transforms read, and each element's line. An example of a single definition is
its clause.

The last sections aren't of the standard: those of [the command line](profile/options.md), of [JSON](LIBRARY.md#json), of [records](LIBRARY.md#records) and of the
[header](../include/rst2pseudoxml.h) of the library for C.
"""
# the documents, each with its sections in their order: those of the standard first
SECTIONS = {
    "Markup Specification": """Whitespace; Indentation; Escaping Mechanism; Reference Names; Document; Document Title; Sections; Transitions;
        Body Elements; Paragraphs; Bullet Lists; Enumerated Lists; Definition Lists; Field Lists; Bibliographic Fields; RCS Keywords; Option Lists; Literal Blocks;
        Indented Literal Blocks; Quoted Literal Blocks; Line Blocks; Block Quotes; Doctest Blocks; Grid Tables; Simple Tables;
        Explicit Markup Blocks; Footnotes; Auto-Numbered Footnotes; Auto-Symbol Footnotes; Citations; Hyperlink Targets; Anonymous Hyperlinks;
        Directives; Substitution Definitions; Comments; Implicit Hyperlink Targets; Inline Markup; Inline markup recognition rules; Emphasis;
        Strong Emphasis; Interpreted Text; Inline Literals; Hyperlink References; Embedded URIs and Aliases; Inline Internal Targets;
        Footnote References; Citation References; Substitution References; Standalone Hyperlinks; Units; Length Units; Percentage Units;
        Error Handling""",
    "Directives": """Specific Admonitions; Generic Admonition; Image; Figure; Topic; Sidebar; Epigraph; Highlights; Pull-Quote; Code; Parsed Literal Block; Line Block; Math; Rubric; Compound Paragraph; Container; Table; List Table;
        Table of Contents; Replacement Text; Including an External Document Fragment; Raw Data Pass-Through; Class; Common Options; Identifier Normalization""",
    "Roles": "Standard Roles",
    "Document Tree": "Introduction; Element Reference; Attribute Reference",
    "Configuration": """docinfo_xform; doctitle_xform; exit_status_level; halt_level; input_encoding; line_length_limit; report_level; tab_width""",
    # pages of this repository, and its header
    "The command line": "Options; Faults; The options of rst-tree",
    "JSON": "The document; The parsed document; Directives and roles handed back; The messages; Strings",
    "Records": "Nodes and attributes",
    "Header": "rst_options; rst_end; rst_print; rst_json; rst_messages",
}
ORDER = [(document, section) for document, sections in SECTIONS.items() for section in re.split(r";\s+", sections)]
FUNCTION = re.compile(r"((?:^///.*\n)+)pub fn (\w+)\(\)\n((?:    .*\n)+)\{\}", re.M)
CLAUSE = re.compile(r"^    ensures (\w+) \{ (.*?) \}(?=\n    ensures|\n*\Z)", re.M | re.S)
SECTION = re.compile(r"\(([A-Z][\w ]+), '([^']+)'(?:, '[^']+')*\)")
STRINGS = re.compile(r'"((?:[^"\\]|\\.)*)"')
LIST = r"(\[\]|\(.*?∷ \[\]\))"
EXACT = r'(\(codes "(?:[^"\\]|\\.)*"\))'
TREE = re.compile(rf"(?:Reads|Means|Outputs|Reports(?:On)? (\w+|\(.*?\}}\)))\s+(?:{LIST}|{EXACT})\s*(\d*)\s*{LIST}(?:\s*{LIST}\s*(\d+))?", re.S)
ESCAPES = {"n": "\n", "t": "\t", "r": "␍", "0": "␀"}


def lines_of(words):
    """The texts of a list of strings."""
    return [re.sub(r"\\(u\{\w+\}|.)", lambda m: m[0] if m[1][1:] else ESCAPES.get(m[1], m[1]), text) for text in STRINGS.findall(words)]


def fenced(lines):
    return ["```", *lines, "```"]


def shown(name, clause):
    """The lines that show a theorem."""
    tree = TREE.fullmatch(clause)
    if not tree:
        one = re.sub(r"\n *", " ", clause)
        return [f"- `{name}`: `{one}`"]
    settings, lines, exact, count, printed, messages, status = tree.groups()
    said = [f"`{name}`"]
    if count:
        said.append(f"{count} messages on texts")
    if settings and settings != "usual":
        changed = re.search(r"{ (.*) }", settings)
        said.append(f"`{changed[1] if changed else settings}`")
    if int(status or 0):
        said.append(f"exit status {status}")
    blocks = [lines or exact, printed, *([messages] if messages and messages != "[]" else [])]
    return ["", ", ".join(said), *(line for block in blocks for line in ["", *fenced(lines_of(block))]), ""]


def functions():
    """Of each function of rows: its section, its name, its comment, and its clauses."""
    for line in (TOP / "crates.txt").read_text().splitlines():
        crate = re.split("[ :]", line)[0]
        folder = TOP / "crates" / crate / "src"
        for path in [folder / "rows.rt", *sorted(folder.glob("rows/*.rt"))]:
            if path.exists():
                module = "::".join(path.relative_to(folder).with_suffix("").parts)
                for comment, name, clauses in FUNCTION.findall(path.read_text()):
                    yield f"{crate}::{module}::{name}", " ".join(comment.replace("///", "").split()), CLAUSE.findall(clauses + "\n")


def page():
    """The text of the page."""
    groups = {section: [] for section in ORDER}
    count = 0
    for name, comment, clauses in functions():
        section = SECTION.search(comment)
        if not section or section.groups() not in groups:
            sys.exit(f"{name}: its comment names no section of a document: {comment}")
        groups[section.groups()].append((name, SECTION.sub("", comment).replace(" .", "."), clauses))
        count += len(clauses)
    lines = [OPENING, f"{count} theorems."]
    for (document, section), group in groups.items():
        if group:
            lines += ["", f"## {section} ({document})"]
        for name, comment, clauses in group:
            lines += ["", f"### `{name}`", "", comment, ""]
            for clause in clauses:
                lines += shown(*clause)
    return re.sub(r"\n{3,}", "\n\n", "\n".join(lines)).rstrip() + "\n"


def main():
    if sys.argv[1:] not in ([], ["--check"]):
        sys.exit("usage: scripts/rows_page.py [--check]")
    text = page()
    if not sys.argv[1:]:
        print(text, end="")


if __name__ == "__main__":
    main()
