"""A language server for reStructuredText, over standard input and output.

It shows the messages that rst-check has of each open page, at each change. The names that other tools read are in the nearest file
.rst-known, in the page's folder or above it. It has the outline of sections, the parts that can be folded, the way from a reference to what
it refers to, and the path of an element in the tree.
"""

from __future__ import annotations

import argparse
import json
import sys
from pathlib import Path
from typing import Any, BinaryIO, Callable, Iterator
from urllib.parse import unquote, urlsplit

from .. import LEVELS, PROFILES
from ..check import Known, Pages
from ..check.files import FILE
from .page import Page

CAPABILITIES: dict[str, Any] = {
    "textDocumentSync": {"openClose": True, "change": 1, "save": True},  # 1: a change has the whole text
    **dict.fromkeys(("documentSymbolProvider", "foldingRangeProvider", "definitionProvider", "hoverProvider"), True),
}
INVALID_REQUEST, NO_METHOD, INTERNAL = -32600, -32601, -32603  # codes of the protocol


class Server:
    """Answers an editor. The level, the code and the profile are those of rst-check."""

    def __init__(self, given: BinaryIO, out: BinaryIO, level: str = "info", code: bool = False, profile: str = "docutils") -> None:
        self.given, self.out, self.level, self.code, self.profile = given, out, level, code, profile
        self.pages: dict[str, Page] = {}
        self.shut = False
        self.methods: dict[str, Callable[[Any], Any]] = {
            "initialize": lambda _: {"capabilities": CAPABILITIES, "serverInfo": {"name": "rst-lsp"}},
            "shutdown": lambda _: setattr(self, "shut", True),
            "textDocument/didOpen": lambda given: self.show(given["textDocument"]["uri"], given["textDocument"]["text"]),
            "textDocument/didChange": self.change,
            "textDocument/didSave": lambda given: self.show(given["textDocument"]["uri"], self.page(given).text),
            "textDocument/didClose": self.close,
            "textDocument/documentSymbol": lambda given: self.page(given).symbols(),
            "textDocument/foldingRange": lambda given: self.page(given).folds(),
            "textDocument/definition": self.definition,
            "textDocument/hover": self.hover,
        }

    def serve(self) -> int:
        """Answers until the editor ends the run; the status."""
        for message in self.received():
            if message.get("method") == "exit":
                return 0 if self.shut else 1
            if "method" in message:
                self.answer(message["method"], message)
        return 1

    def received(self) -> Iterator[dict[str, Any]]:
        """The messages of the editor, each after a header with its length."""
        length = 0
        while line := self.given.readline():
            name, _, value = line.partition(b":")
            if name.lower() == b"content-length":
                length = int(value)
            elif not line.strip():
                yield json.loads(self.given.read(length))

    def send(self, **message: Any) -> None:
        data = json.dumps({"jsonrpc": "2.0", **message}).encode()
        self.out.write(b"Content-Length: %d\r\n\r\n%b" % (len(data), data))
        self.out.flush()

    def answer(self, method: str, message: dict[str, Any]) -> None:
        """Does what a message asks for. If it has an id, it is answered."""
        answer: dict[str, Any] = {"error": {"code": INVALID_REQUEST if self.shut else NO_METHOD, "message": method}}
        if not self.shut and method in self.methods:
            try:
                answer = {"result": self.methods[method](message.get("params"))}
            except Exception as fault:  # the next message may be fine
                answer = {"error": {"code": INTERNAL, "message": repr(fault)}}
                print(f"rst-lsp: {method}: {fault!r}", file=sys.stderr)
        if "id" in message:
            self.send(id=message["id"], **answer)

    def page(self, given: Any) -> Page:
        return self.pages[given["textDocument"]["uri"]]

    def show(self, uri: str, text: str, reader: Pages | None = None) -> None:
        """Keeps a text and shows its messages; the known names are read anew, if no reader of pages is given."""
        page = self.pages[uri] = Page(text, reader or Pages(self.known(uri), self.level, self.code, profile=self.profile))
        self.send(method="textDocument/publishDiagnostics", params={"uri": uri, "diagnostics": page.diagnostics()})

    def known(self, uri: str) -> Known:
        """The names in the nearest file .rst-known."""
        address = urlsplit(uri)
        folders = Path(unquote(address.path)).parents if address.scheme == "file" else ()
        file = next((str(folder / FILE) for folder in folders if (folder / FILE).is_file()), None)
        known = Known()
        try:
            if file:
                known.add_file(file)
        except (OSError, ValueError) as fault:
            self.send(method="window/showMessage", params={"type": 1, "message": f"{file}: {fault}"})
        return known

    def change(self, given: Any) -> None:
        self.show(given["textDocument"]["uri"], given["contentChanges"][-1]["text"], self.page(given).reader)

    def close(self, given: Any) -> None:
        self.pages.pop(given["textDocument"]["uri"], None)
        self.send(method="textDocument/publishDiagnostics", params={"uri": given["textDocument"]["uri"], "diagnostics": []})

    def definition(self, given: Any) -> Any:
        page = self.page(given)
        line = page.definition(*page.place(given["position"]))
        return None if line is None else {"uri": given["textDocument"]["uri"], "range": page.range(line)}

    def hover(self, given: Any) -> Any:
        page = self.page(given)
        line, _ = page.place(given["position"])
        return {"contents": {"kind": "plaintext", "value": page.path(line)}, "range": page.range(line)}


def main() -> int:
    """The command rst-lsp; the status."""
    parser = argparse.ArgumentParser("rst-lsp", description=__doc__, formatter_class=argparse.RawTextHelpFormatter, allow_abbrev=False)
    levels = [level for level in LEVELS if isinstance(level, str)]
    parser.add_argument("--level", choices=levels, metavar="LEVEL", default="info", help="show messages at or above LEVEL; info by default")
    parser.add_argument("--code", action="store_true", help="read blocks of code, as rst-check does")
    profile = "read pages by this profile, docutils or base, as rst-check does; docutils by default"
    parser.add_argument("--profile", choices=list(PROFILES), metavar="PROFILE", default="docutils", help=profile)
    given, _ = parser.parse_known_args()  # others, such as `--stdio`, change nothing
    sys.setrecursionlimit(10_000)  # for trees that are 500 deep
    return Server(sys.stdin.buffer, sys.stdout.buffer, given.level, given.code, given.profile).serve()
