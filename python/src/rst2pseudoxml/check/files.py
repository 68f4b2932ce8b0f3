"""The pages that are checked: which files they are, and what they hold."""

from __future__ import annotations

import os
import re
from fnmatch import translate
from typing import Sequence

from .. import LONGEST, Refused

FILE = ".rst-known"
NO_PAGES = ("requirements*.txt", "CMakeLists.txt")


def pages_in(folder: str, excluded: Sequence[str] = ()) -> list[str]:
    """The pages in a folder and those in it, by the bytes of their names. A folder that can't be read is among them."""
    is_none = re.compile("|".join(map(translate, [*NO_PAGES, *excluded]))).match
    found: list[str] = []
    waiting = [folder]
    while waiting:
        path = waiting.pop()
        try:
            entries = list(os.scandir(path))
        except OSError:
            found.append(path)
            continue
        for entry in entries:
            name = entry.name
            page = name.endswith((".rst", ".txt")) and entry.is_file(follow_symlinks=False)
            if name.startswith(".") or not (page or entry.is_dir(follow_symlinks=False)):
                continue
            if not is_none(name) and not (excluded and any(map(is_none, _paths(folder, entry.path)))):
                (found if page else waiting).append(entry.path)
    return sorted(found, key=os.fsencode)


def _paths(folder: str, path: str) -> tuple[str, str]:
    """A path in the folder, and as it is shown."""
    return path[len(folder) :].lstrip("/"), path[2:] if path.startswith("./") else path


def content(page: str) -> bytes:
    """The bytes of a page, `-` being standard input, or as many as show that it is too long."""
    try:
        place = 0 if page == "-" else os.open(page, os.O_RDONLY)
    except (OSError, ValueError):  # the second for a name with a NUL
        raise Refused("cannot open", None, f"rst2pseudoxml: cannot open {page}") from None
    try:
        return _all(place)
    except OSError:
        raise Refused("read failed", None, "rst2pseudoxml: read failed") from None
    finally:
        if page != "-":
            os.close(place)


def _all(place: int) -> bytes:
    """What can be read there, up to a byte more than a text may have."""
    parts, left = [], LONGEST + 1
    while left and (part := os.read(place, min(left, 65536))):
        parts.append(part)
        left -= len(part)
    return b"".join(parts)
