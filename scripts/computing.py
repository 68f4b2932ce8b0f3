#!/usr/bin/env python3
"""Writes proofs/Computing.antt in each crate that has one: the name that opens, for a proof by computing, each definition of the crate that
is shut (`unfoldable`), and those of the crates that it lists in crates.txt; and the proofs of the worked examples: that they hold by
computing, which takes a third of the time of a search. With --check it only compares."""

import pathlib
import re
import sys

TOP = pathlib.Path(__file__).resolve().parent.parent
# the names of the kit that the definitions go through, by the library that crates.txt lists; those of `std` are always there
KIT = {
    "std": ["lib.Utf8.encode", "Rattle.std.specs.Fmt.digits"],
    **{library: [f"Rattle.{library}.proofs.Computing.{library}"] for library in ("ucd_case", "ucd_category", "unicode_width", "unicode_normalization")},
    "clap": ["Rattle.clap.proofs.OnLiterals.clap_on_literals"],
}
# the further names of `std` that the definitions of a crate go through
FURTHER = {
    "rst_transform_docinfo": ["Rattle.std.specs.Str.trim_start", "Rattle.std.specs.Str.trim_end"],
    "rst2pseudoxml_run": ["Rattle.std.specs.Str.chars", "Rattle.std.specs.Str.is_utf8", "Rattle.std.specs.Str.Lossy.utf8_valid_len"],
}
WIDTH = 150


def computing(crate):
    return TOP / "crates" / crate / "proofs" / "Computing.antt"


def shut(crate):
    """The definitions of a crate that are shut, by their full names."""
    for path in sorted((TOP / "crates" / crate / "specs").rglob("*.antt")):
        module = ".".join(path.relative_to(TOP / "crates").with_suffix("").parts)
        for name in re.findall(r"^ *unfoldable pub (\S+)", path.read_text(), re.M):
            yield f"Rattle.{module}.{name}"


def text_of(crate, libraries):
    names = KIT["std"] + FURTHER.get(crate, [])
    for library in libraries:
        if library in KIT:
            names += KIT[library]
        elif computing(library).exists():
            names.append(f"Rattle.{library}.proofs.Computing.{library}")
    lines = [""]
    for name in names + list(shut(crate)):
        if len(lines[-1]) + 1 + len(name) > WIDTH - 3:
            lines.append("")
        lines[-1] += " " + name
    return "\n".join(
        [
            f"-- `unfolding {crate}` lets `refl` compute what the definitions give for a text that is written out. scripts/computing.py writes this file.",
            "",
            f"unfoldable pub {crate} : Unit {{0}}",
            "unfolding",
            *("   " + line for line in lines),
            f"{crate} = tt",
            "",
        ]
    )


def records(crate):
    """The fields of each record of equations in the definitions of a crate, by its name."""
    for path in sorted((TOP / "crates" / crate / "specs").rglob("*.antt")):
        for name, fields in re.findall(r"^pub record (\w+) .*where\n((?:  .*\n)+)", path.read_text(), re.M):
            yield name, re.findall(r"^  pub (\w+) :", fields, re.M)


def computed(clause, equations):
    """The proof of a clause: each of the equations that it joins holds by computing, for all values that it begins with."""
    named = equations.get(re.match(r"\{ (\w*)", clause)[1])
    if named:
        return f"record {{ {'; '.join(f'{field} = refl' for field in named)} }}"
    values = "".join(f"λ {name}. " for name in re.findall(r"(?:^\{|→) \((\w+) : \w+\)(?= →)", clause))
    joined = clause.count("\n        × ")
    return values + (f"({', '.join(['refl'] * (joined + 1))})" if joined else "refl")


def answers(crate):
    """The proofs of a crate's worked examples, each with its path."""
    equations = dict(records(crate))
    sources = TOP / "crates" / crate / "src"
    proofs = TOP / "crates" / crate / "proofs"
    for path in sorted([*sources.glob("rows.rt"), *sources.glob("rows/*.rt")]):
        for name, clauses in re.findall(r"^pub fn (\w+)\(\)\n(.*?)^\{\}", path.read_text(), re.M | re.S):
            module = [*path.relative_to(sources).with_suffix("").parts, name]
            goals = ["Rattle", crate, "proofs", *module, "Goals"]
            lines = [
                "use Rattle.std.proofs.Common.{refl}",
                f"use Rattle.{crate}.proofs.Computing.{{{crate}}}",
                f"use {'.'.join(goals)} as goal",
                "",
                "pub returns : goal.returns",
                f"unfolding {crate}",
                "returns c = record {",
                *(f"  {clause} = {computed(text, equations)};" for clause, text in re.findall(r"^    ensures (\w+) (.*?)(?=^    ensures|\Z)", clauses, re.M | re.S)),
                "}",
                "",
            ]
            yield proofs.joinpath(*module, "Answers.antt"), "\n".join(lines)


def written(crate, libraries):
    """What is written in a crate: each file's path and text."""
    if computing(crate).exists():
        yield computing(crate), text_of(crate, libraries)
    yield from answers(crate)


def main():
    check = sys.argv[1:] == ["--check"]
    if sys.argv[1:] and not check:
        sys.exit("usage: scripts/computing.py [--check]")
    stale = []
    for line in (TOP / "crates.txt").read_text().splitlines():
        crate, _, libraries = line.split("#")[0].partition(":")
        for path, text in written(crate.split(" ")[0], libraries.split()):
            # A file that stays the same isn't touched: a gate that runs then would keep nothing of its crate.
            if path.exists() and path.read_text() == text:
                continue
            if check:
                stale.append(str(path.relative_to(TOP)))
            else:
                path.parent.mkdir(parents=True, exist_ok=True)
                path.write_text(text)
    if stale:
        sys.exit(f"scripts/computing.py writes another text: {' '.join(stale)}")


if __name__ == "__main__":
    main()
