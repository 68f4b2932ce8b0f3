"""rst-view: a page that shows a text beside its document tree.

The page is one HTML file with its style and script (`TEMPLATE`); what it shows is in it as JSON. With `--watch` it is served on the
loopback address alone, and asks for the next state of the file whenever it has shown one.
"""

from __future__ import annotations

import argparse
import base64
import contextlib
import hashlib
import hmac
import html
import json
import os
import re
import secrets
import sys
import tempfile
import threading
import urllib.parse
import webbrowser
from http.server import BaseHTTPRequestHandler, ThreadingHTTPServer
from importlib import import_module
from pathlib import Path
from typing import Any, NoReturn

import rst2pseudoxml

from ..check import Known, Pages, known_names

FileSystemEventHandler: Any = None
Observer: Any = None
with contextlib.suppress(ImportError):  # by names, since a type checker may not find them either
    FileSystemEventHandler = import_module("watchdog.events").FileSystemEventHandler
    Observer = import_module("watchdog.observers").Observer


def part(*names: str) -> str:
    """A part of the page, of files beside this one."""
    return "".join(Path(__file__).with_name(name).read_text("utf-8") for name in names)


SCRIPTS = ("document.js", "lines.js", "search.js", "list.js", "page.js")
TEMPLATE = part("page.html").replace("%STYLE%", part("page.css")).replace("%SCRIPT%", part(*SCRIPTS))
LINE_END = re.compile("\r\n|[\n\r\x1c-\x1e\x85\u2028\u2029]")
LOOKED_AT = 0.5  # seconds from one look at the file's time to the next
ANSWERED = 20  # seconds after which the page is told that nothing has changed


class CannotRead(Exception):
    """The text of the exception is the line that says why."""


def read(name: str) -> bytes:
    """The bytes of a file, or of standard input for `-`; of a text that is too long just enough to tell."""
    try:
        with sys.stdin.buffer if name == "-" else open(name, "rb") as file:
            return file.read(rst2pseudoxml.LONGEST + 1)
    except OSError as error:
        raise CannotRead(f"rst-view: cannot open {printable(name)}: {error.strerror}") from None


def printable(name: str) -> str:
    """A file's name without bytes that aren't UTF-8, and in one line."""
    return "".join(c if c.isprintable() else "\ufffd" for c in name)


def state(name: str, data: bytes, settings: dict[str, Any], known: Known, version: int = 0) -> str:
    """What a page shows, as JSON: the whole tree, and the messages that aren't on known names. It raises `rst2pseudoxml.Refused`."""
    tree = rst2pseudoxml.json(data, halt="none", **settings)
    pages = Pages(known, settings.get("report", "warning"), **settings)
    messages = [message._asdict() for message in pages.read(data, "").messages]
    return shown(name, data, settings, version, messages=messages)[:-1] + f', "tree": {tree}}}'


def refused(name: str, data: bytes, settings: dict[str, Any], version: int, error: Exception) -> str:
    """What a page shows of a text that was refused: the line that says so, and at which line of the text."""
    line, kind, place = None, getattr(error, "kind", ""), getattr(error, "place", None)
    if kind == "not UTF-8":
        line = len(LINE_END.findall(data[:place].decode())) + 1
    elif kind != "too long":
        line = place
    return shown(name, b"" if kind == "too long" else data, settings, version, refused={"text": str(error), "line": line})


def shown(name: str, data: bytes, settings: dict[str, Any], version: int, **more: Any) -> str:
    """The part that both have."""
    always = {"name": printable(name), "version": version, "tab_width": settings.get("tab_width", 8), "messages": []}
    return json.dumps({**always, "source": data.decode("utf-8-sig", "replace"), **more}, ensure_ascii=False)


def policy(*further: str) -> str:
    """The Content-Security-Policy of the page: its own style and script, and nothing else."""

    def hashed(tag: str) -> str:
        (text,) = re.findall(f"<{tag}>(.*?)</{tag}>", TEMPLATE, re.DOTALL)
        return f"'sha256-{base64.b64encode(hashlib.sha256(text.encode()).digest()).decode()}'"

    parts = ["default-src 'none'", f"script-src {hashed('script')}", f"style-src {hashed('style')}", "base-uri 'none'", "form-action 'none'"]
    return "; ".join([*parts, "require-trusted-types-for 'script'", "trusted-types 'none'", *further])


def page(name: str, data: str, *further: str) -> str:
    """The page that shows a state. A `<` in the state is written so that no HTML begins there."""
    parts = {"TITLE": html.escape(printable(name)), "POLICY": html.escape(policy(*further)), "DATA": data.replace("<", "\\u003c")}
    return re.sub("%(TITLE|POLICY|DATA)%", lambda found: parts[found[1]], TEMPLATE)


class Watched:
    """A file, and the state that a page shows of it. Each state has a version, from 1."""

    def __init__(self, name: str, settings: dict[str, Any], known: Known) -> None:
        self.name, self.settings, self.known = name, settings, known
        self.version, self.state = 0, ""
        self.time: tuple[int, int, int] | None = None
        self.changed = threading.Condition()
        self.look(always=True)

    def look(self, always: bool = False) -> None:
        """Reads the file if its time, its size or the file of that name is another."""
        try:
            found = os.stat(self.name)
            time = (found.st_mtime_ns, found.st_size, found.st_ino)
        except OSError:
            time = None
        if time == self.time and not always:
            return
        data, version = b"", self.version + 1
        try:
            data = read(self.name)
            made = state(self.name, data, self.settings, self.known, version)
        except (CannotRead, rst2pseudoxml.Refused) as error:
            made = refused(self.name, data, self.settings, version, error)
        with self.changed:
            self.time, self.state, self.version = time, made, version
            self.changed.notify_all()

    def after(self, version: str) -> str:
        """The state, as soon as it is another than that of `version`; after some seconds anyway."""
        with self.changed:
            self.changed.wait_for(lambda: str(self.version) != version, ANSWERED)
            return self.state

    def watch(self) -> NoReturn:
        """Looks at the file twice a second, and where there is `watchdog` whenever something happens in its folder."""
        happened = threading.Event()
        if Observer:
            handler = FileSystemEventHandler()
            handler.on_any_event = lambda event: happened.set()
            observer = Observer()
            observer.schedule(handler, os.path.dirname(os.path.abspath(self.name)))
            with contextlib.suppress(OSError):  # the system may watch as many folders already as it can
                observer.start()
        while True:
            happened.wait(LOOKED_AT)
            happened.clear()
            self.look()


class Handler(BaseHTTPRequestHandler):
    """Answers those who know the token and name the server by its address."""

    server: Server
    timeout = 60

    def do_GET(self) -> None:
        asked = urllib.parse.urlsplit(self.path)
        folder, slash, name = asked.path[1:].partition("/")
        known = hmac.compare_digest(folder.encode(), self.server.token.encode()) and bool(slash)
        if not known or self.headers.get_all("Host") != [self.server.host]:
            self.answer(403, "text/plain", "refused\n")
        elif name == "":
            watched = self.server.watched
            self.answer(200, "text/html", page(watched.name, watched.state, "connect-src 'self'"))
        elif name == "data":
            self.answer(200, "application/json", self.server.watched.after(asked.query.removeprefix("have=")))
        else:
            self.answer(404, "text/plain", "no such page\n")

    def answer(self, status: int, kind: str, text: str) -> None:
        body = text.encode("utf-8", "replace")
        headers = {
            "Content-Type": f"{kind}; charset=utf-8",
            "Content-Length": str(len(body)),
            "Content-Security-Policy": policy("connect-src 'self'", "frame-ancestors 'none'"),
            "Cache-Control": "no-store",
            "Cross-Origin-Resource-Policy": "same-origin",
            "Referrer-Policy": "no-referrer",
            "X-Content-Type-Options": "nosniff",
        }
        try:
            self.send_response(status)
            for name, value in headers.items():
                self.send_header(name, value)
            self.end_headers()
            self.wfile.write(body)
        except OSError:
            self.close_connection = True  # the page was closed meanwhile

    def log_message(self, format: str, *args: Any) -> None:
        """Nothing is logged: the address holds the token."""


class Server(ThreadingHTTPServer):
    """Serves the page of a watched file, on a free port of the loopback address."""

    daemon_threads = True

    def __init__(self, watched: Watched) -> None:
        super().__init__(("127.0.0.1", 0), Handler)
        self.watched, self.token = watched, secrets.token_urlsafe(24)
        self.host = f"127.0.0.1:{self.server_port}"
        self.url = f"http://{self.host}/{self.token}/"


class Parser(argparse.ArgumentParser):
    """Its faults are one line."""

    def error(self, message: str) -> NoReturn:
        self.exit(2, f"rst-view: {message}\n")


def arguments(given: list[str] | None) -> tuple[argparse.Namespace, dict[str, Any], Known]:
    """The arguments, those of them that are settings of a call, and the known names."""
    parser = Parser(prog="rst-view", description="Shows reStructuredText beside its document tree, in a browser.", allow_abbrev=False)
    parser.add_argument("file", metavar="FILE", help="the text; - is standard input, whose page goes to standard output")
    parser.add_argument("-o", "--output", metavar="FILE", help="write the page to this file, and don't open it; - is standard output")
    parser.add_argument("-w", "--watch", action="store_true", help="serve the page on this machine alone, and show the file whenever it is saved")
    names = "leave out messages on these names, as rst-check does (rst-check --help); .rst-known in the current folder is read too"
    parser.add_argument("--known", metavar="NAMES|@FILE", action="append", default=[], help=names)
    profile = "read the text by this profile, docutils or base, as rst-check does; docutils by default"
    parser.add_argument("--profile", metavar="PROFILE", default="docutils", help=profile)
    reading = parser.add_argument_group("as for rst2pseudoxml", argument_default=argparse.SUPPRESS)
    reading.add_argument("-r", "--report", metavar="LEVEL", help="the lowest level of the messages that are shown")
    reading.add_argument("--tab-width", metavar="N", type=int, help="columns from one tab stop to the next")
    reading.add_argument("--line-length-limit", metavar="N", type=int, help="the most characters of a line")
    reading.add_argument("--no-doc-title", action="store_true", help="don't make a lone title the document's title")
    reading.add_argument("--no-doc-info", action="store_true", help="don't turn a leading field list into docinfo")
    found = parser.parse_args(given)
    settings = {name: value for name, value in vars(found).items() if name in rst2pseudoxml.Settings.__annotations__}
    if found.watch and found.output is not None:
        parser.error("--watch writes no file, so it takes no --output")
    if found.watch and found.file == "-":
        parser.error("--watch needs a file")
    try:
        rst2pseudoxml.json("", **settings)
        return found, settings, known_names(found.known)
    except (OSError, ValueError) as error:
        parser.error(str(error).removeprefix("rst2pseudoxml: "))


def serve(name: str, settings: dict[str, Any], known: Known) -> int:
    """Serves the page of a file until the run is interrupted."""
    read(name)  # a file that isn't there is a fault, unless it goes later
    watched = Watched(name, settings, known)
    server = Server(watched)
    threading.Thread(target=server.serve_forever, daemon=True).start()
    print(server.url, flush=True)
    webbrowser.open(server.url)
    try:
        watched.watch()
    except KeyboardInterrupt:
        return 0


def write(text: str, output: str | None, name: str) -> None:
    """Writes the page to the file that was named, or to one of its own that is opened in a browser."""
    data = text.encode("utf-8", "replace")
    if output == "-":
        sys.stdout.buffer.write(data)
        sys.stdout.buffer.flush()
    elif output is not None:
        Path(output).write_bytes(data)
    else:
        stem = re.sub(r"[^\w.-]", "_", os.path.basename(name))[:60]
        with tempfile.NamedTemporaryFile(prefix=f"{stem}-", suffix=".html", delete=False) as file:
            file.write(data)
        print(file.name, flush=True)
        webbrowser.open(Path(file.name).as_uri())


def main(given: list[str] | None = None) -> int:
    """The command. The status is 0, 1 if the text can't be shown, or 2 if the arguments are wrong."""
    found, settings, known = arguments(given)
    try:
        if found.watch:
            return serve(found.file, settings, known)
        data = read(found.file)
        output = found.output or ("-" if found.file == "-" else None)
        write(page(found.file, state(found.file, data, settings, known)), output, found.file)
    except (CannotRead, rst2pseudoxml.Refused) as error:
        print(error, file=sys.stderr)
        return 1
    except OSError as error:
        print(f"rst-view: cannot write {printable(found.output or 'the page')}: {error.strerror}", file=sys.stderr)
        return 1
    return 0
