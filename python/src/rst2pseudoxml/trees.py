"""Prints the tree of standard input with all messages. The argument names a module: what it registers with Docutils is handed back."""

from __future__ import annotations

import importlib
import os
import sys

from . import Refused


def main() -> int:
    """The status is 0 if the tree was printed, 1 if the text was refused, 2 if there is no such module, or no Docutils."""
    sys.path.insert(1, os.getcwd())
    try:
        importlib.import_module(sys.argv[1])
        from .docutils import pseudoxml
    except ImportError as missing:
        print(f"rst2pseudoxml: {missing}", file=sys.stderr)
        return 2
    try:
        tree = pseudoxml(sys.stdin.buffer.read(), report="info", halt="none")
    except Refused as refused:
        print(refused, file=sys.stderr)
        return 1
    sys.stdout.buffer.write(tree.encode())
    return 0


if __name__ == "__main__":
    sys.exit(main())
