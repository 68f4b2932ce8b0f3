"""Checks reStructuredText pages: prints their system messages, and a line for each page that is refused.

    rst-check [--level LEVEL] [--known NAMES|@FILE].. [--code] [--profile PROFILE] [--format FORMAT] [--jobs N] [--name FILE] [--] FILE|FOLDER|-..
    rst-check --help

The messages at or above LEVEL (info, warning, error, severe or none, or 1 to 5; warning by default) are shown, and a page
that has one fails. Of a FOLDER all files *.rst and *.txt are checked, also those in folders in it, but no hidden ones, none that is named
requirements*.txt or CMakeLists.txt, and none that .rst-known excludes. `-` is standard input, and --name says which file it is. N pages
are read at once, by default as many as there are processors. The status is 0 if all pages passed, 1 if one failed, 2 if nothing was
checked because the arguments are bad.

--known names what another tool reads, such as Sphinx: NAMES with commas between them, or a FILE with one name in each line and
comments in lines that begin with `#`. It may be given several times. A bare NAME is a directive and a role, directive:NAME and role:NAME
are only one of them; a NAME with a domain, such as py:func, counts without the domain too. substitution:NAME and target:NAME are
defined elsewhere; definitions:FILE names a file whose lines define more of them. exclude:PATTERN leaves pages of a FOLDER out, by their
names or paths. A line @FILE reads another file. A FILE is looked for in the folder of the file that names it, in the current folder, and
among those of this package: @sphinx-names.txt has the names of Sphinx, and reads @docutils-names.txt, which has those of Docutils that
this package leaves out. The file .rst-known in the current folder, and in each FOLDER, is read if it is there. All names count for all
pages.

What a known directive holds is read as a part of the page if a mark comes after its name, as in `directive:seealso text`:

    text      all of it is text, as in `note`
    content   what comes after its argument is text
    sections  the same, and titles, topics and sidebars may be in it
    title     its argument is text, and what comes after it
    lines     its lines are text without blocks, as in `parsed-literal`
    terms     its lines are terms and definitions, as in `glossary`
    none      nothing in it is text, though it is in a list that comes before

Without a mark nothing in a directive is read. The lists of this package have marks.

These messages are left out: that a known name is unknown; that a known directive has an unknown option, or reads a file; that a substitution isn't
valid, or isn't defined, because its definition has a known directive or role; that a name isn't defined which the source of a known
directive defines (as a target, citation, footnote, substitution or role, or by its option `name`), or a file of Docutils that it
includes, such as <isonum.txt>. Messages on other names are shown, since nothing here says what defines them. If all messages of
some pages are on unknown names, a last line on standard error says with which option these pages pass.

PROFILE is docutils (the default) or base. With docutils more is read as Docutils has it (docs/profile/wider.md), such as e-mail addresses, and more
directives and roles. With base a page is read as the program rst2pseudoxml reads it.

With --code the blocks of code are read whose language is JSON, Python, TOML (by Python 3.11 or later) or XML. A fault is an ERROR.

FORMAT is gcc (the default: FILE:LINE: (TYPE/LEVEL) TEXT, and source text), github (annotations of a workflow), or json: an object
in a line for each message, with file, line, level, type and text. If a page is refused, level is null, type REFUSED, and line may be null.
"""

from __future__ import annotations

import os
import signal
import sys
from io import TextIOWrapper
from typing import Iterable, Iterator, NoReturn

from .. import LEVELS, PROFILES, Refused
from .files import FILE, content, pages_in
from .formats import FORMATS
from .jobs import Outcome, Progress, Stopped, outcomes
from .names import Known
from .pages import Page, Pages

__all__ = ["Known", "Page", "Pages", "known_names", "main"]

USAGE = "rst-check [--level LEVEL] [--known NAMES|@FILE].. [--code] [--profile PROFILE] [--format FORMAT] [--jobs N] [--name FILE] [--] FILE|FOLDER|-.."


class Checker:
    """Checks pages, with what the options say."""

    def __init__(self, known: Known, options: dict[str, str]) -> None:
        self.show = FORMATS[options["--format"]]
        self.name = options["--name"]
        self.pages = Pages(known, options["--level"], bool(options["--code"]), profile=options["--profile"])

    def name_of(self, page: str) -> str:
        return self.name if page == "-" else page

    def check(self, page: str) -> Outcome:
        """What is to be printed for a page, whether it failed, and the names with which it would pass."""
        name = self.name_of(page)
        try:
            found = self.pages.read(content(page), name).found
        except Refused as refused:
            line = refused.place if refused.kind == "too deep" else None
            words = str(refused).removeprefix("rst2pseudoxml: ").removeprefix(f"line {line}: ")
            return self.show(name, line, None, "REFUSED", words) + "\n", True, ()
        if not found:
            return "", False, ()
        names = tuple(dict.fromkeys(name for _, name in found))
        shown = "".join(self.show(*message) + "\n" for message, _ in found)
        return shown, True, () if "" in names else names


def known_names(options: Iterable[str]) -> Known:
    """The names in .rst-known of the current folder, if it is there, and then those of the options --known."""
    return Known(f"@{FILE}" if os.path.isfile(FILE) else "", *options)


def _refuse(line: str) -> NoReturn:
    print(f"rst-check: {line}", file=sys.stderr)
    sys.exit(2)


def _pages(given: list[str], known: Known) -> Iterator[str]:
    """The pages that are named, and those in folders. The names that a folder says are added to the known ones."""
    for page in given:
        if "\n" in page:
            _refuse(f"a name has a line feed: {page}")
        page = f"./{page}" if page.startswith("-") and page != "-" else page
        if not os.path.isdir(page):
            yield page
            continue
        if os.path.isfile(os.path.join(page, FILE)):
            known.add_file(f"{page}/{FILE}")
        pages = pages_in(page, known.excluded)
        if not pages:
            _refuse(f"there is no *.rst or *.txt in {page}")
        yield from pages


def _options(arguments: list[str]) -> dict[str, str]:
    """The options, which are taken from the front of the arguments."""
    given = {"--level": "warning", "--profile": "docutils", "--format": "gcc", "--known": ""}
    given.update({"--jobs": str(len(os.sched_getaffinity(0))), "--name": "<stdin>", "--code": ""})
    while arguments and arguments[0].startswith("-") and arguments[0] != "-":
        argument = arguments.pop(0)
        option, equals, value = argument.partition("=")
        if argument == "--help":
            print((__doc__ or "").strip())
            sys.exit(0)
        if argument == "--":
            break
        if option not in given or (option == "--code" and equals):
            _refuse(f"no such option: {argument}")
        if option == "--code":
            value = "yes"
        elif not equals:
            value = arguments.pop(0) if arguments else _refuse(f"nothing comes after {option}")
        given[option] = f"{given[option]}\n{value}" if option == "--known" else value
    if given["--level"] not in LEVELS:
        _refuse(f"no such level: {given['--level']}")
    if given["--profile"] not in PROFILES:
        _refuse(f"no such profile: {given['--profile']}")
    if given["--format"] not in FORMATS:
        _refuse(f"no such format: {given['--format']}")
    if not given["--jobs"].isdecimal() or int(given["--jobs"]) < 1:
        _refuse(f"no such number of jobs: {given['--jobs']}")
    return given


def _checked(pages: list[str], checker: Checker, jobs: int) -> bool:
    """Prints what the checks of pages give; whether all passed."""
    passed, failed, names = True, [], {}
    progress = Progress(len(pages))
    for done, (shown, wrong, unknown) in enumerate(outcomes(pages, checker.check, jobs), 1):
        if shown:
            progress.hide()
            print(shown, end="", flush=True)
        if unknown:
            failed.append(checker.name_of(pages[done - 1]))
            names.update(dict.fromkeys(unknown))
        passed = passed and not wrong
        progress.at(done)
    progress.hide()
    if failed:
        which = f"{failed[0]}: passes" if len(failed) == 1 else f"rst-check: {len(failed)} pages pass"
        print(f"{which} with --known={','.join(names)}", file=sys.stderr)
    return passed


def main() -> int:
    """The command rst-check; the status."""
    for number in (signal.SIGPIPE, signal.SIGINT):
        signal.signal(number, signal.SIG_DFL)
    for stream in (sys.stdout, sys.stderr):
        if isinstance(stream, TextIOWrapper):
            stream.reconfigure(encoding="utf-8", errors="surrogateescape")
    arguments = sys.argv[1:]
    options = _options(arguments)
    if not arguments:
        _refuse(f"no file was named (usage: {USAGE})")
    try:
        known = known_names([options["--known"]])
        pages = list(_pages(arguments, known))
    except (OSError, ValueError) as fault:
        _refuse(str(fault))
    try:
        return 0 if _checked(pages, Checker(known, options), int(options["--jobs"])) else 1
    except Stopped as fault:
        _refuse(str(fault))
