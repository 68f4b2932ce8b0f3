"""Which kind of difference two trees have: what is in each at the first line in which they differ."""

import re
from collections.abc import Iterator

UNKNOWN = re.compile(r' +Unknown (directive|interpreted text) (?:type|role) "(.*)"\.$')
# What Docutils makes of some directives is far from the directive, at the top of the document.
AT_THE_TOP = ("<document ", '<topic classes="contents', "<decoration>", "<meta ", "<raw ")


def unknown(line: str) -> tuple[str, str] | None:
    """The kind and the name that a line speaks of as unknown."""
    found = UNKNOWN.match(line)
    return ("directive" if found[1] == "directive" else "role", found[2].lower()) if found else None


def message_at(lines: list[str], place: int) -> str:
    """The line with the text of the system message that begins at a place, if one does."""
    begins = place + 2 < len(lines) and lines[place].lstrip().startswith("<system_message ")
    return lines[place + 2] if begins else ""


def message_on(lines: list[str], place: int) -> str:
    """The line with the text of the message on the problematic text that begins at a place, if one does."""
    found = re.match(r' *<problematic ids="([^"]*)"', lines[place])
    if not found:
        return ""
    for other, line in enumerate(lines):
        refers = re.match(r' *<system_message backrefs="([^"]*)"', line)
        if refers and found[1] in refers[1].split():
            return message_at(lines, other)
    return ""


def ids_of(line: str) -> set[str]:
    """The ids of the element that begins at a line."""
    found = re.search(r' ids="([^"]*)"', line)
    return set(found[1].split()) if found else set()


class Difference:
    """The first difference between the tree of this program (`ours`) and that of Docutils (`theirs`)."""

    def __init__(self, ours: str, theirs: str, known: set[tuple[str, str]]):
        self.known = known
        self.ours, self.theirs = ours.split("\n"), theirs.split("\n")
        pairs = enumerate(zip(self.ours, self.theirs))
        self.place = next(place for place, (one, other) in pairs if one != other)
        self.one, self.other = self.ours[self.place].strip(), self.theirs[self.place].strip()
        self.here, self.there = message_at(self.ours, self.place), message_at(self.theirs, self.place)

    def in_a_source_text(self) -> str | None:
        """Blank lines that end the source text of a message."""
        found = self.other == "" and self.place + 1 < len(self.theirs)
        return "blank lines at the end of a message's source text" if found else None

    def in_a_field(self) -> str | None:
        """A list of fields here alone."""
        here, there = (" ".join(lines[self.place : self.place + 2]) for lines in (self.ours, self.theirs))
        fields = re.compile("<field_list>|<docinfo")
        found = fields.search(here) and not fields.search(there) and re.search("<paragraph>|<title>", there)
        return "a line that begins with a role and holds a colon" if found else None

    def left_out(self) -> str | None:
        """A directive or role that only Docutils knows."""
        named = unknown(self.here or message_on(self.ours, self.place) or self.ours[self.place])
        if named is None and self.other.startswith(AT_THE_TOP):
            named = next((one for one in map(unknown, self.ours) if one in self.known), None)
        if named in self.known:
            return f"{named[0]} `{named[1]}`"
        return "roles of the document's own" if named and named[0] == "role" and not self.there else None

    def in_a_text(self) -> str | None:
        """A piece of text that is markup in only one of the two."""
        here, there = ("\n".join(lines[self.place : self.place + 3]) for lines in (self.ours, self.theirs))
        if "<inline classes=" in there or "Cannot analyze code" in self.there:
            return "tokens and numbers of code"
        if '<reference refuri="mailto:' in there:
            return "e-mail addresses"
        uris = [re.findall(r'<reference refuri="([^"]*)"', text) for text in (here, there)]
        if uris[0] != uris[1]:
            return "which text is a URI"
        return "RCS keywords" if self.one.startswith("$") else None

    def in_a_message(self) -> str | None:
        """A message that is elsewhere, or says something else."""
        if "hyperlink mismatch" in self.here:
            return "text of `Anonymous hyperlink mismatch`"
        if self.here and self.here == self.there:
            return "line of a message"
        texts = [self.here, self.there, *self.ours[self.place : self.place + 2]]
        if any("ubstitution definition" in text or text.lstrip().startswith("|") for text in texts):
            return "substitution definitions"
        return "text or place of a message" if self.here or self.there else None

    def in_an_element(self) -> str | None:
        """Another element, or other attributes."""
        if self.one.startswith(("<docinfo ids=", '<field classes="author')) or "Bibliographic field" in self.one:
            return "bibliographic fields"
        if {self.one, self.other} == {"<entry>", "<paragraph>"}:
            return "the first row of a simple table, with a blank first cell"
        if self.one.startswith("<target ids=") and self.other.startswith("<target refid="):
            return "target before a message"
        if set() < ids_of(self.one) < ids_of(self.other):
            return "target before a message"
        return "target of a phrase with an embedded alias" if self.other.startswith("<target ") else None

    def kinds(self) -> Iterator[str | None]:
        yield self.in_a_source_text()
        yield self.in_a_field()
        yield self.left_out()
        yield self.in_a_text()
        yield self.in_an_element()
        yield self.in_a_message()

    def kind(self) -> str:
        return next((kind for kind in self.kinds() if kind), "others")
