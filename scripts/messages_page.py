#!/usr/bin/env python3
"""Writes the lists of docs/profile/messages.md, below the mark in it: all system messages. Their texts are those that the definitions in
crates/*/specs put together, each from `codes ".."` and what is joined to it. The level of a text is the one that it has in examples: the worked
ones (crates/*/src/rows.rt and src/rows/) and those of the profile's pages. With it are the pages that show it. A text without an example, or
on no page, is a fault. With --check nothing is written: the lists are compared."""

import itertools
import re
import sys

from rows_page import TOP, functions, lines_of

PROFILE = TOP / "docs/PROFILE.md"
PAGE = TOP / "docs/profile/messages.md"
MARK = "<!-- scripts/messages_page.py writes what follows -->\n"
LEVELS = ["INFO", "WARNING", "ERROR", "SEVERE"]
CLAUSE = re.compile(r"^( *)(\w+)((?: (?:\w+|\[\]|\((?:[^()]|\([^()]*\))*\)))*) =(.*(?:\n\1 +.*)*)", re.M)
TOKEN = re.compile(r'"(?:[^"\\]|\\.)*"|\+\+|[\w.]+|\S')
KEYWORDS = {"if", "then", "else", "let", "in", "record"}
NAME, NUMBER = "\1", "\2"  # what a text has from elsewhere
GAPS = {NAME: ("X", "Y", "Z"), NUMBER: ("N", "M", "K")}
SENTENCE = re.compile(r'(?:"(?:\x01|[a-z-]+)"|\x02 |[A-Za-z]).*\s.*[.:)]|[A-Z].*\s.*[^"\1]', re.S)
PART = ""  # stands for the name of what is a part of a text alone
OTHERS = {"Docutils System Messages"}  # a title


def parsed(tokens):
    """The chains of `++` up to a closing parenthesis, or the end. A chain is a list of applications; an application is a list of tokens, and of the
    lists of chains in parentheses."""
    chains = [[[]]]
    for token in tokens:
        if token == ")":
            break
        if token == "++":
            chains[-1].append([])
        elif token == "(":
            chains[-1][-1].append(parsed(tokens))
        elif token in KEYWORDS or not re.match(r'["\w]', token):
            chains.append([[]])
        else:
            chains[-1][-1].append(token)
    return [[part for part in chain if part] for chain in chains if chain != [[]]]


class Definitions:
    """The definitions of a crate: of each name its clauses, each with its parameters, the chains of its right side, and whether a text is in it."""

    def __init__(self, folder):
        self.clauses, self.parts, self.found = {}, {PART}, {}
        for path in sorted(folder.rglob("*.antt")):
            code = re.sub(r"^ *--.*\n", "", path.read_text(encoding="utf-8"), flags=re.M)
            for _, name, parameters, body in CLAUSE.findall(code):
                self.clauses.setdefault(name, []).append((parameters.split(), parsed(iter(TOKEN.findall(body))), 'codes "' in body))
        for name, clauses in self.clauses.items():
            for _, chains, _ in clauses:
                self.keep(name, chains, {}, (name,))

    def texts(self):
        """All sentences, but for those of names that are parts of a text."""
        return {text for name, texts in self.found.items() if name not in self.parts for text in texts if SENTENCE.fullmatch(text)} - OTHERS

    def keep(self, owner, chains, values, callers):
        """The texts of some chains, which are kept as those of a name."""
        texts = [text for chain in chains for text in self.joined(owner, chain, values, callers)]
        self.found.setdefault(owner, set()).update(texts)
        return texts

    def joined(self, owner, chain, values, callers):
        """The texts of a chain, where parameters have these values."""
        if len(chain) > 1:
            self.parts.update(part[0] for part in chain if isinstance(part[0], str) and part[0] in self.clauses)
        return ["".join(parts) for parts in itertools.product(*(self.applied(owner, part, values, callers) for part in chain))]

    def applied(self, owner, part, values, callers):
        """The texts of an application."""
        head, *rest = part
        if head == "codes" and len(rest) == 1 and rest[0][0] == '"':
            return lines_of(rest[0])
        if isinstance(head, list):
            return self.keep(owner, head, values, callers) if rest or len(head) != 1 else self.joined(owner, head[0], values, callers)
        # What a definition with a text is given is a part of its text.
        keeper = PART if any(has_text for _, _, has_text in self.clauses.get(head, [])) else owner
        given = [self.keep(keeper, one, values, callers) if isinstance(one, list) else values.get(one, [NAME]) for one in rest]
        if head == "decimal":
            return [NUMBER]
        texts = [] if rest else values.get(head, [])
        for parameters, chains, has_text in self.clauses.get(head, []):
            if has_text and head not in callers:
                inner = (dict(zip(parameters, given)), (*callers, head))
                if len(chains) == 1:
                    texts = texts + self.joined(owner, chains[0], *inner)
                else:
                    self.keep(owner, chains, *inner)
        return texts or [NAME]


def pattern(text):
    """A regular expression for what is printed for a text."""
    gaps = {NAME: ".+?", NUMBER: r"\w+", "\n": r"\n\s*"}
    return "".join(gaps.get(letter) or re.escape(letter) for letter in text)


def levels(shown, text):
    """The levels that a text has in examples."""
    element = r'<system_message [^\n]*\blevel="([1-4])"[^\n]*>[^\n]*\n *<paragraph>[^\n]*\n *'
    return {int(found[0] or found[1]) for found in re.findall(rf"(?:{element}|\([A-Z]+/([1-4])\) ){pattern(text)}$", shown, re.M)}


def written(text):
    """A text as the page has it."""
    for gap, names in GAPS.items():
        for name in names:
            text = text.replace(gap, name, 1)
    return " ".join(f"`{line}`" for line in text.splitlines())


def lists():
    """A list for each level, in the order of the profile's pages."""
    profile, lines = PROFILE.read_text(encoding="utf-8"), {level: [] for level in LEVELS}
    names = re.findall(r"^\| \[(.+?)\]\(profile/(\w+\.md)\)", profile, re.M)
    pages = [(f"[{name}]({file})", (PAGE.parent / file).read_text(encoding="utf-8")) for name, file in names if file not in ("options.md", PAGE.name)]
    pages.append(("[the wider profile](wider.md)", (PAGE.parent / "wider.md").read_text(encoding="utf-8")))
    pages.append(("[the profile](../PROFILE.md)", profile))
    examples = ["\n".join(lines_of(clause)) for _, _, clauses in functions() for _, clause in clauses]
    shown = "\n\n".join(examples + [page for _, page in pages])
    for text in sorted(set().union(*(Definitions(folder).texts() for folder in TOP.glob("crates/*/specs")))):
        places = [place for place, (_, page) in enumerate(pages) if all(re.search(pattern(line), page) for line in text.splitlines())]
        links = [pages[place][0] for place in places if place < len(pages) - 1 or len(places) == 1]
        if not links or not levels(shown, text):
            sys.exit(f"no {'example' if links else 'page of the profile'} shows the message {written(text)}")
        for level in levels(shown, text):
            lines[LEVELS[level - 1]].append((places[0], f"- {written(text)} ({', '.join(links)})"))
    return "\n\n".join("\n".join([f"## {level}", "", *(line for _, line in sorted(lines[level]))]) for level in LEVELS) + "\n"


def main():
    if sys.argv[1:] not in ([], ["--check"]):
        sys.exit("usage: scripts/messages_page.py [--check]")
    page = PAGE.read_text(encoding="utf-8")
    new = page.split(MARK)[0] + MARK + "\n" + lists()
    if not sys.argv[1:]:
        PAGE.write_text(new, encoding="utf-8")
    elif page != new:
        sys.exit("docs/profile/messages.md isn't what scripts/messages_page.py writes")


if __name__ == "__main__":
    main()
