"""Tests of the lines that rst-view's page says elements have, in Chromium: those of texts made by hand, and that no last line is wrong."""

import json
import sys
import unittest
from pathlib import Path

import rst2pseudoxml
from browser import Browser
from rst2pseudoxml import view

TOP = Path(__file__).resolve().parents[2]
sys.path[:0] = [str(TOP / "scripts"), str(TOP / "bench")]
import rows  # noqa: E402

# Texts, and the lines of each element that has one, in the order of the tree.
TEXTS = {
    "Title\n=====\n\nText\nof *two\nlines*\n\n---\nSub\n---\n\nEnd\n": "title 1–2, paragraph 4–6, section 9–12, title 9–10, paragraph 12",
    "- a\n  b\n- c\n\n  d\n\nend": "bullet_list 1–5, list_item 1–2, paragraph 1–2, list_item 3–5, paragraph 3, paragraph 5, paragraph 7",
    "t : c\n  d\n  e\n": "definition_list 1–3, definition_list_item 1–3, term 1, classifier 1, definition 1–3, paragraph 2–3",
    "a\n\n:f: b\n  c\n\n-a  d\n    e\n": "paragraph 1, field_list 3–4, field 3–4, field_name 3, field_body 3–4, paragraph 3–4, "
    "option_list 6–7, option_list_item 6–7, option_group 6, option 6, option_string 6, description 6–7, paragraph 6–7",
    ".. note:: a\n   b\n\n   c\n.. image:: i\n   :alt: j\n": "note 1–4, paragraph 1–2, paragraph 4, image 5–6",
    ".. figure:: i\n   :alt: j\n\n   a\n   b\n\n   c\n": "figure 1–7, image 1–, caption 4–5, paragraph 7",
    "a::\n\n  b\n\n   c\n\nd": "paragraph 1, literal_block 3–5, paragraph 7",
    ".. code:: py\n\n   b\n\n   c\n\n..\n   d\n\n..\n\n   e\n": "literal_block 1–5, comment 7–8, comment 10, block_quote 12, paragraph 12",
    "a [1]_ |s|\n\n.. [1] b\n   c\n.. _t: u\n   v\n.. |s| replace:: d\n   e\n\n__ w\n": "paragraph 1, footnote 3–4, label 3, paragraph 3–4, "
    "target 5–6, substitution_definition 7–8, target 10",
    "+---+---+\n| a | b |\n|   | c |\n+---+---+\n| d | e |\n+---+---+\n": "table 1–6, tgroup 1–6, colspec 1, colspec 1, paragraph 2–, "
    "paragraph 2–3, paragraph 5, paragraph 5",
    "+---+---+\n| a | - |\n| a | - |\n| a |   |\n+---+---+": "table 1–5, tgroup 1–5, colspec 1, colspec 1, paragraph 2–4, "
    "bullet_list 2–, list_item 2, list_item 3–",
    "+---+---+\n| a | b |\n| a +---+\n| a | c |\n+---+---+\n": "table 1–5, tgroup 1–5, colspec 1, colspec 1, paragraph 2–4, "
    "paragraph 2–, paragraph 4",
    "== ==\na  b\n== ==\nc  d\n   e\n\nf  g\n== ==\n\nh": "table 1–8, tgroup 1–8, colspec 1, colspec 1, paragraph 2, paragraph 2, "
    "paragraph 4–, paragraph 4–5, paragraph 7, paragraph 7, paragraph 10",
    "  a\n\n  -- b\n     c\n\n----\n\n| d\n  e\n\n>>> f\ng": "block_quote 1–4, paragraph 1, attribution 3–4, transition 6, line_block 8–9, "
    "line 8–9, doctest_block 11–12",
    ":Author: a\n  b\n:Date: d\n\n.. tip:: e\n\tf\n\n\tg\n": "docinfo 1–3, author 1–2, date 3, tip 5–8, paragraph 5–6, paragraph 8",
    # Where the source doesn't tell: what a backslash joins, how far below its field a date begins, what a substitution brings,
    # an unknown directive.
    "a\\\nb\n": "paragraph 1–",
    ":Date:\n\n  d\n  e\n\nf\n": "docinfo 1–, date 1–, paragraph 6",
    "|s|\nb\n\n.. |s| replace:: c\n   d": "paragraph 1–, substitution_definition 4–5",
    "- a\n\n.. unknown::\n\n   b\n\nc": "bullet_list 1–, list_item 1–, paragraph 1, paragraph 7",
}
ADDED = " zqz"
BESIDE = "author classifier field_name label option option_argument option_group option_string term".split()  # others are in their line


def strings(node):
    """The texts in a node of JSON."""
    return [node] if isinstance(node, str) else [text for child in node[3:] for text in strings(child)]


def has(node):
    return any(ADDED.strip() in text for text in strings(node))


class Lines(Browser):
    def spans(self, text):
        """The path of each element, its tag, its line, its last one if it is known, and what its row shows."""
        data = {"source": text, "tab_width": 8, "messages": [], "tree": json.loads(rst2pseudoxml.json(text, halt="none"))}
        return data["tree"], self.js("""
            doc = read(arguments[0]);
            return doc.raw.flatMap((node, i) => {
              if (doc.kind[i] !== BLOCK || !doc.line[i]) return [];
              const path = [], at = linesOf(i);
              for (let k = i; k > 0; k = doc.parent[k]) path.unshift(doc.place[k] + 2);
              return [[path, node[0], doc.line[i], at.sure === at.most ? at.most : null, String(numbersOf(i)[0])]];
            });""", data)

    def test_texts(self):
        self.open("")
        for text, wanted in TEXTS.items():
            with self.subTest(text):
                self.assertEqual(", ".join(f"{tag} {shown}" for _, tag, _, _, shown in self.spans(text)[1]), wanted)

    def test_no_last_line_is_wrong(self):
        """A word that is added to the last line of an element is in it, and one that is added to a later line isn't, where the word changes
        nothing else in the tree."""
        self.open("")
        seen = [0, 0]
        worked = [row for table in rows.TABLES for row in rows.Source(table).rows()]
        for text in [*TEXTS, *(given for _, arguments, given, (_, _, status) in worked if not (arguments or status))]:
            lines = view.LINE_END.split(text)
            tree, spans = self.spans("\n".join(lines))
            for path, tag, line, last, _ in spans:
                if last is None or tag in ("docinfo", "image"):
                    continue
                is_whole = tag not in BESIDE and "table" not in str(tree) and not lines[last - 1].startswith(":")
                self.assertTrue(line <= last <= len(lines) and lines[last - 1].strip(), (text, tag, line, last))
                for number in range(last, min(last + 3, len(lines)) + 1):
                    found = self.element(tree, lines, number, path)
                    if found is not None and (number > last or is_whole):
                        self.assertEqual(found, number == last, (text, tag, line, last, number))
                        seen[number > last] += 1
        self.assertGreater(min(seen), 100)

    def element(self, tree, lines, number, path):
        """Whether the element at a path has a word that is added to a line; None if the tree is then another."""
        line = lines[number - 1].rstrip() + ADDED
        other = json.loads(rst2pseudoxml.json("\n".join([*lines[: number - 1], line, *lines[number:]]), halt="none"))
        if json.loads(json.dumps(other).replace(ADDED, "")) != tree or sum(ADDED.strip() in text for text in strings(other)) != 1:
            return None
        for place in path:
            other = other[place]
        return has(other)


if __name__ == "__main__":
    unittest.main()
