"""The forms in which messages are shown."""

from __future__ import annotations

import json
import re
from typing import Callable


def gcc(file: str, line: int | None, level: int | None, kind: str, text: str, block: str | None = None) -> str:
    if level is None:
        place = "" if line is None else f"line {line}: "
        return f"{file}: rst2pseudoxml: {place}{text}"
    return f"{file}:{line}: ({kind}/{level}) {text}" + ("" if block is None else f"\n\n{block}")


def github(file: str, line: int | None, level: int | None, kind: str, text: str, block: str | None = None) -> str:
    kind = {1: "notice", 2: "warning"}.get(level or 0, "error")
    place = "" if line is None else f",line={line}"
    name = re.sub(r"^(\./)+", "", file)  # GitHub compares names
    return f"::{kind} file={_escaped(name, '%:,')}{place}::{_escaped(text, '%')}"


def _escaped(text: str, marks: str) -> str:
    return "".join(f"%{ord(one):02X}" if one in marks or one in "\r\n" else one for one in text)


def as_json(file: str, line: int | None, level: int | None, kind: str, text: str, block: str | None = None) -> str:
    return json.dumps({"file": file, "line": line, "level": level, "type": kind, "text": text}, ensure_ascii=False)


FORMATS: dict[str, Callable[..., str]] = {"gcc": gcc, "github": github, "json": as_json}
