"""The families of the benchmark: documents that grow with n, each of one construct, some of them hostile. Epigraphs are read by the wider profile
alone, as dist/rst-tree has it; under the base they are unknown directives. Docutils ends with a RecursionError at 98 of them."""

# How deep the nested families go: Docutils reads no more than 163 blocks in one another.
DEPTH = 100


def nested(n, mark):
    """Blocks in blocks, as deep as `DEPTH`, again and again; about 100 n bytes for each character of the mark."""
    return "".join(mark * depth + "a\n\n" for depth in range(DEPTH)) * max(1, n // DEPTH)


def outwards(n):
    """Block quotes, each one space less indented than the one before."""
    return "".join(" " * depth + "a\n\n" for depth in reversed(range(DEPTH))) * max(1, n // DEPTH)


def blank_inside(n):
    """A list item as deep as `DEPTH`, with n line ends between its two paragraphs."""
    return "- " * DEPTH + "a" + "\n" * n + "  " * DEPTH + "b\n"


def apart(n, first="a\n", last="b\n"):
    """Two lines with n line ends between them."""
    return first + "\n" * n + last


def indented(text, by):
    """A text whose lines, but for the blank ones, are indented by this many spaces."""
    return "".join((" " * by + line if line.strip() else line) for line in text.splitlines(keepends=True))


def in_quotes(text):
    """A text in block quotes, as deep as `DEPTH`."""
    return "".join(" " * depth + "t\n\n" for depth in range(DEPTH)) + indented(text, DEPTH)


def in_figures(text):
    """A text in the legends of figures, as deep as `DEPTH`."""
    for _ in range(DEPTH):
        text = ".. figure:: x\n\n   c\n\n" + indented(text, 3)
    return text


def in_epigraphs(text, depth=DEPTH, around=""):
    """A text in block quotes of a class, this deep; each directive stands in what is around it, such as the mark of an item."""
    for level in range(depth):
        directive = ("epigraph", "highlights", "pull-quote")[level % 3]
        text = f"{around}.. {directive}::\n\n" + indented(text, len(around) + 3)
    return text


def numbered(n, text):
    """A text for each number below n, in which each `{k}` is that number."""
    return "".join(text.replace("{k}", str(k)) for k in range(n))


def lines(n, text):
    """A text n times over, sixteen in a line."""
    return "".join(text * min(16, n - k) + "\n" for k in range(0, n, 16))


# Each construct once, without messages.
MIXED = """\
Title {k}
==========

A paragraph with *emphasis*, **strong emphasis**, ``literals``, `a role`:title:, |word {k}|, http://example.org/{k}, a reference_{k}_,
`a phrase {k}`_, [#note-{k}]_, [cite-{k}]_, `text {k} <https://example.org/{k}>`_ and plain words, so that most of it is text::

    a literal block
        of two lines

* an item

  + one in it
  + and another

1. first
2. second

term
    A definition, with more words.
other : classifier
    Another.

:field: body
:longer field: body of
   two lines

-a          an option
--long=ARG  one with an argument

| a line
|   of a line block

    A quote of some words.

    -- Somebody

>>> print(1)
1

=====  =======
a      b
=====  =======
cell   *c*
more   words
=====  =======

+-----+-----+
| a   | b   |
+=====+=====+
| c   | d   |
+-----+-----+

.. _reference_{k}: http://example.org/reference/{k}
.. _a phrase {k}:

.. note:: Mind the words.

.. image:: picture-{k}.png
   :alt: a picture
   :width: 50%

.. figure:: figure-{k}.png

   A caption.

.. |word {k}| replace:: some words
.. [#note-{k}] A footnote.
.. [cite-{k}] A citation.
.. A comment.

"""


def mixed(size):
    """A document of about `size` bytes, with all constructs in turn."""
    return numbered(max(1, size // len(MIXED)), MIXED)


def simple_table(rows, columns):
    rule = " ".join(["====="] * columns) + "\n"
    return rule + (" ".join(["cell "] * columns).rstrip() + "\n") * rows + rule


def columned_table(columns, lines):
    """A simple table of narrow columns, with these lines."""
    return "= " * columns + "=\n" + lines + "= " * columns + "=\n"


def nested_simple_tables(text):
    """Simple tables, each in the last cell of the one around it, as deep as `DEPTH`, with a line in the innermost."""
    tops = "".join("a " * depth + "= =\n" for depth in range(DEPTH))
    return tops + "a " * DEPTH + text + "\n" + "".join("  " * depth + "= =\n" for depth in reversed(range(DEPTH)))


def spanned_table(rows):
    """A simple table in which a rule under its span ends every second row."""
    return "===== =====\n" + "cell  cell\n===========\n".replace("=", "-") * rows + "cell  cell\n===== =====\n"


def grid_table(rows, columns):
    rule = "+-----" * columns + "+\n"
    return rule + ("| cel " * columns + "|\n" + rule) * rows


def nested_tables(lines):
    """Grid tables of one cell, one inside another, as deep as `DEPTH`; the innermost holds a paragraph of this many lines."""
    text = ["text"] * lines
    for _ in range(DEPTH):
        rule = "+" + "-" * len(text[0]) + "+"
        text = [rule, *(f"|{line}|" for line in text), rule]
    return "\n".join(text) + "\n"


def open_grid(rows):
    """A grid whose last cells lack a corner, so that no cells cover it."""
    return "+--+--+\n" + "|  |  |\n+--+--+\n" * (rows - 1) + "|  |  |\n+-----+\n"


def wide_open_grid(columns):
    """A grid of one row whose cells lack their lower corners."""
    return "+-" * columns + "+\n" + "| " * columns + "|\n+" + "-" * (2 * columns - 1) + "+\n"


def chained(n, deep, name, text):
    """References to the first of definitions that use one another in turn, the last of which has a text, and `|b|` a letter."""
    chain = "".join(f".. |a{k}| replace:: |a{k + 1}|\n" for k in range(deep))
    return lines(n, f"|{name}| ") + "\n" + chain + f".. |a{deep}| replace:: {text}\n.. |b| replace:: c\n"


def alone(n, used, further=""):
    """Definitions that each use one that can't be used, and further ones."""
    return numbered(n, ".. |u{k}| replace:: |w|\n") + f".. |w| replace:: {used}\n" + further


def long_alt(n, uses):
    """490 copies of an image with a long `alt` and a name without a definition, in a definition that some others use."""
    image = ".. |i| image:: x\n   :alt: " + "y" * n + "\n"
    return image + alone(uses, "|i| " * 490 + "|u|")


def doubled(name, references):
    """2,048 references to a name, through definitions that each use the next one twice, and a definition of this name in capitals."""
    twice = "".join(f".. |a{k}| replace:: |a{k + 1}|\\ |a{k + 1}|\n" for k in range(11))
    return f"{references}\n{twice}.. |a11| replace:: |{name}|\n.. |{name.upper()}| replace:: b\n"


def use_next(n, uses, first="", last="\\"):
    """Definitions in about n / 500 chains of 99, each of which uses the next one `uses` times after a text; `last` is the content of the last."""
    chain = "".join(f".. |b{{k}}-{j}| replace:: {first}" + "\\ ".join([f"|b{{k}}-{j + 1}|"] * uses) + "\n" for j in range(98))
    return numbered(max(1, n // 500), chain + f".. |b{{k}}-98| replace:: {last}\n")


# For n, a family makes a document of some multiple of n bytes; it is measured at n, 2n and 4n.
FAMILIES = {
    "paragraphs": lambda n: "some words\nin two lines\n\n" * n,
    "one paragraph": lambda n: "some words\n" * n,
    "blank lines": lambda n: "\n" * n,
    "blank lines in an item": lambda n: blank_inside(10 * n),
    "blank lines in a quote": lambda n: in_quotes(apart(10 * n)),
    "blank lines in a literal block in a quote": lambda n: in_quotes("a::\n\n" + indented(apart(n), 2)),
    "blank lines in a comment in a quote": lambda n: in_quotes("..\n" + indented(apart(n), 3)),
    "blank lines in a legend": lambda n: in_figures(apart(10 * n)),
    "lines in a legend": lambda n: in_figures("a\n" * (n // 20)),
    "sections": lambda n: numbered(n, "Title {k}\n==========\n\ntext\n\n"),
    "sections of one title": lambda n: "Title\n=====\n\ntext\n\n" * n,
    "bullet lists": lambda n: "* item\n" * n,
    "separate bullet lists": lambda n: "* item\n\n- item\n\n" * n,
    "enumerated lists": lambda n: "#. item\n" * n,
    "definition lists": lambda n: numbered(n, "term {k}\n  definition\n"),
    "field lists": lambda n: "text\n\n" + ":name: body\n" * n,
    "docinfo": lambda n: ":name: body\n" * n,
    "option lists": lambda n: "-a  description\n" * n,
    "options of one item": lambda n: ", ".join(["-a"] * n) + "\n   description\n",
    "line blocks": lambda n: "| a\n|   b\n" * n,
    "nested lists": lambda n: nested(n, "- "),
    "nested quotes": lambda n: nested(n, " "),
    "nested quotes, outwards": lambda n: outwards(n),
    "literal blocks": lambda n: "a::\n\n  b\n\n" * n,
    "comments": lambda n: ".. a comment\n\n" * n,
    "transitions": lambda n: "a\n\n----\n\n" * n + "a\n",
    "transitions alone": lambda n: "a\n\n" + "----\n\n" * n + "a\n",
    "simple table": lambda n: simple_table(n, 4),
    "simple table with spans": lambda n: spanned_table(n),
    "wide simple table": lambda n: simple_table(20, max(2, n // 20)),
    "simple table of many columns, blank lines": lambda n: columned_table(n // 8, apart(n // 2, "a\n", "")),
    "simple table of many columns, short lines": lambda n: columned_table(n // 8, "a\n" + "  b\n" * (n // 8)),
    "nested simple tables": lambda n: nested_simple_tables("a " * 10 * n),
    "grid table": lambda n: grid_table(n, 4),
    "wide grid table": lambda n: grid_table(4, n),
    "square grid table": lambda n: grid_table(*[max(2, round(n**0.5))] * 2),
    "nested grid tables": lambda n: nested_tables(max(1, n // 20)),
    "malformed grid": lambda n: open_grid(n),
    "malformed wide grid": lambda n: wide_open_grid(n),
    "references": lambda n: numbered(n, "a{k}_\n\n.. _a{k}: u\n\n"),
    "phrase references": lambda n: numbered(n, "`a phrase {k}`_\n\n.. _a phrase {k}: u\n\n"),
    "unknown references": lambda n: numbered(n, "a{k}_\n\n"),
    "anonymous references": lambda n: "a__\n\n__ u\n\n" * n,
    "indirect targets": lambda n: "".join(f".. _a{k}: a{k + 1}_\n" for k in range(n)) + f".. _a{n}: u\n",
    "targets": lambda n: numbered(n, ".. _a{k}: u\n"),
    "targets in a row": lambda n: numbered(n, ".. _a{k}:\n") + "\ntext\n",
    "duplicate targets": lambda n: ".. _a: u\n" * n,
    "duplicate targets, other URIs": lambda n: numbered(n, ".. _a: u{k}\n"),
    "footnotes": lambda n: "[#]_\n\n" * n + ".. [#] note\n" * n,
    "citations": lambda n: numbered(n, "[a{k}]_\n\n.. [a{k}] text\n\n"),
    "substitutions": lambda n: lines(n, "|a| ") + "\n.. |a| replace:: text\n",
    "substitution definitions": lambda n: numbered(n, "|a{k}|\n\n.. |a{k}| replace:: text\n\n"),
    "substitutions that are too large": lambda n: lines(n, "|a| ") + "\n.. |a| replace:: " + "b" * 10_000 + "\n",
    "deep substitutions that are too large": lambda n: chained(n, 90, "a0", "\\ ".join(["|b|"] * 5_200)),
    "deep substitutions": lambda n: chained(n, 90, "d", "c") + ".. |d| replace:: " + "\\ ".join(["|a0|"] * 100) + "\n",
    "definitions that use one that is too large": lambda n: alone(n, "*z* " * 2400),
    "definitions that use a circular one": lambda n: alone(n, "*z* " * 1900 + "|u0|"),
    "a definition that uses them all": lambda n: alone(n, "*z* " * 2400, ".. |b| replace:: " + numbered(n, "|u{k}| ") + "\n"),
    "definitions that use a long alt": lambda n: long_alt(n // 4, n // 20),
    "definitions that use a deep one": lambda n: chained(1, 90, "d", "c") + alone(n // 20, "\\ ".join(["|a0|"] * 100)),
    "definitions that each use the next one": lambda n: use_next(n, 1),
    "definitions that each use the next one twice": lambda n: use_next(n, 2),
    "definitions that use many, and one without a definition": lambda n: doubled("c", use_next(n, 1, "|a2|\\ ", "|u|")),
    "substitutions of a long name in another case": lambda n: doubled("x" * n, "|a0|\n"),
    "definitions that use a long name in another case": lambda n: doubled("x" * n, numbered(n // 500, ".. |b{k}| replace:: |a0|\n")),
    "directives": lambda n: ".. note:: text\n\n" * n,
    "unknown directives": lambda n: ".. unknown:: text\n\n" * n,
    "epigraphs": lambda n: ".. epigraph:: text\n\n" * n,
    "lines in nested epigraphs": lambda n: in_epigraphs("a\n" * (n // 20)),
    "one line in nested epigraphs": lambda n: in_epigraphs("*a* " * n + "\n"),
    "one line in epigraphs in nested lists": lambda n: in_epigraphs("*a* " * n + "\n", DEPTH * 4 // 5, "- "),
    "emphasis": lambda n: lines(n, "*a* "),
    "names": lambda n: lines(n, "a_ "),
    "URIs": lambda n: lines(n, "http://a/ "),
    "unclosed emphasis": lambda n: lines(n, "*a "),
    "unclosed strong": lambda n: lines(n, "**a "),
    "unclosed literal": lambda n: lines(n, "``a "),
    "unclosed phrase": lambda n: lines(n, "`a "),
    "unclosed target": lambda n: lines(n, "_`a "),
    "unclosed substitution": lambda n: lines(n, "|a "),
    "unclosed roles": lambda n: lines(n, ":a:`b "),
    "unclosed labels": lambda n: "[" * n + "\n",
    "unclosed of each kind": lambda n: lines(n, "*a **b ``c `d _`e |f "),
    "unclosed emphasis after dashes": lambda n: lines(n, "a-*b "),
    "words with underscores": lambda n: lines(n, "a_b_c "),
    "one long word with underscores": lambda n: "a_" * n + "a\n",
    "one long word with dashes": lambda n: "a-" * n + "\n",
    "one long word with dashes, and a colon": lambda n: "a-" * n + ":\n",
    "one long word that isn't ASCII, and a colon": lambda n: "é" * n + ":\n",
    "emphasis in text that isn't ASCII": lambda n: lines(n, "été *là* "),
    "one long URI": lambda n: "http://" + "a/" * n + "\n",
    "schemes before colons": lambda n: "http:" * n + "\n",
    "schemes after dashes, and a letter that isn't ASCII": lambda n: "go:-" * n + "é\n",
    "letters before colons": lambda n: "a:" * n + "\n",
    "one long URI that may not end": lambda n: "http:" + "-," * n + "é\n",
    "one long URI with a long query that may not end": lambda n: "http:a?" + "-" * n + "#" + "-" * n + "é\n",
    "backslashes": lambda n: "\\" * n + "\n",
}
