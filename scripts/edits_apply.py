#!/usr/bin/env python3
"""Fails if an edit that the prover must refuse can't be made: a file isn't there, or a text isn't in it exactly once.

    scripts/edits_apply.py

It looks at the edits of all crates, in the folders that KINDS names. It doesn't compile or prove anything: scripts/edits.py does.
"""

import pathlib
import sys

TOP = pathlib.Path(__file__).resolve().parent.parent
KINDS = ("must-fail", "wrong-bodies", "more-edits")


def pairs(edit):
    """The changes of an edit: (file, old text, new text)."""
    file, old = None, None
    for line in edit.read_text(encoding="utf-8").splitlines():
        word, _, text = line.partition(":")
        text = text.removeprefix(" ")
        if word == "file":
            file = edit.parent.parent / text
        elif word == "old" and file is not None and old is None:
            old = text
        elif word == "new" and old is not None:
            yield file, old, text
            old = None
        else:
            raise ValueError(f"'{line}' isn't expected here")
    if old is not None:
        raise ValueError("its last old text has no new one")


def fault(edit):
    """Why an edit can't be made, or None."""
    texts = {}
    try:
        for file, old, new in pairs(edit):
            text = texts.get(file) or file.read_text(encoding="utf-8")
            if text.count(old) != 1:
                return f"'{old}' is {text.count(old)} times in {file.name}"
            texts[file] = text.replace(old, new)
    except (OSError, ValueError) as error:
        return str(error)
    return None if texts else "it changes nothing"


def main():
    edits = [edit for kind in KINDS for edit in sorted(TOP.glob(f"crates/*/{kind}/*.edit"))]
    wrong = 0
    for edit in edits:
        why = fault(edit)
        if why is not None:
            wrong += 1
            print(f"{edit.relative_to(TOP)}: {why}")
    print(f"{len(edits)} edits, {f'{wrong} do not apply' if wrong else 'all apply'}")
    return wrong > 0 or not edits


if __name__ == "__main__":
    sys.exit(main())
