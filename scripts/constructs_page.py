#!/usr/bin/env python3
"""Writes docs/CONSTRUCTS.md from crates/*/specs: the table of constructs, row by row, each sentence beside its definition. With --check it only
compares."""

import pathlib
import re
import sys

TOP = pathlib.Path(__file__).resolve().parent.parent
PAGE = TOP / "docs/CONSTRUCTS.md"
OPENING = """# The table of constructs

A line begins the construct of the first row whose condition holds, a text where none does (`kind_at`). Each row has the definitions of when it holds,
of the lines that the construct has, and of what these mean, each below the sentence that it makes exact. The program is proved to follow them.
`scripts/constructs_page.py` writes this page from `crates/*/specs`, where all that these definitions use is defined too.

`X` is a block that begins with the construct, `t` the text of its first line, `B` the block that the construct is in, `c` how the blocks inside
are read.
"""
LAYERS = ["rst_markup_lines", "rst_markup_blocks", "rst_block_state"]
# each part of a row, with the crates in which its names are looked for
PARTS = [("When it begins", LAYERS), ("Its lines", LAYERS), ("What it means", LAYERS[::-1])]
# each row: what the standard calls it, the names of when it holds, of its lines, and of what it means
ROWS = [
    ("Blank lines", "is_blank_row", "blank_size", ""),
    ("Block quotes", "is_quote_row", "quote_size", "quote_nodes quotes quotes_by first_attribution attribution_in quote_after quote_node"),
    ("Bullet lists", "is_bullet_row bullet is_bullet", "bullet_size item_size least_below", "list_item item_part list_joining_after list_by"),
    ("Enumerated lists", "is_enumerator_row item_enumerator if_listed", "enumerator_size", "list_item enumerators_by is_next_after start_note"),
    ("Field lists", "is_field_row field_of", "hanging_size", "field hanging"),
    ("Option lists", "is_option_row item_option if_described", "hanging_size", "option option_group option_element"),
    ("Doctest blocks", "is_doctest_row doctest", "doctest_size", "doctest_node"),
    ("Line blocks", "is_bar_row line_bar", "indented_size", "line_nodes indented_lines indented_line indentation_of bar_lines"),
    ("Grid tables", "is_grid_row is_grid_border", "grid_size grid_bottom is_border_at", "table_nodes table_node head_nodes row_of entry_of"),
    ("Simple tables", "is_simple_row is_simple_border", "simple_size simple_bottom head_border closes_head border_below", "table_nodes"),
    ("Explicit markup", "is_explicit_row dots", "explicit_size", "explicit_of after_dots dots_alone explicit_by markup_nodes markup_by"),
    ("Anonymous targets", "is_anonymous_row underscores", "indented_size", "anonymous_of markup_by"),
    ("Titles with overlines, transitions", "is_adornment_row adornment_of", "adornment_size adorned_size",
     "adorned_form adorned_over adorned_alone adorned_below over_title adorned_by overlined_nodes transition_node"),
    ("Paragraphs, definition lists, titles", "is_text_row", "text_size form_size paragraph_size literal_size",
     "text_form underlined text_by paragraph_nodes after_paragraph literal_by definition underline_item"),
]
DEFINITION = re.compile(r"((?:^--(?! ----).*\n)*)^(?:abbrev|unfoldable) pub (\w+) :.*\n(?:.+\n)*", re.M)


def definitions():
    """Of each name: the definitions of it, each with its crate and file, its comment, and its lines."""
    found = {}
    for path in sorted(TOP.glob("crates/rst_*/specs/**/*.antt")):
        for match in DEFINITION.finditer(path.read_text()):
            comment = re.sub(r"\s+", " ", match[1].replace("--", " ")).strip()
            code = match[0][len(match[1]) :].rstrip().splitlines()
            crate = path.relative_to(TOP / "crates").parts[0]
            found.setdefault(match[2], []).append((f"{crate}::{path.stem}", comment, code))
    return found


def one_of(found, name, layers):
    """The definition of a name in the first of some crates that has one."""
    for layer in layers:
        for place, comment, code in found.get(name, []):
            if place.startswith(f"{layer}::"):
                return place, comment, code
    sys.exit(f"the table of constructs has no definition {name}")


def page():
    """The text of the page."""
    found, lines, seen = definitions(), [OPENING], {}
    for title, *parts in ROWS:
        lines += ["", f"## {title}"]
        for (heading, layers), names in zip(PARTS, parts):
            if names:
                lines += ["", f"**{heading}**"]
            for name in names.split():
                place, comment, code = one_of(found, name, layers)
                if name in seen:
                    lines += ["", f"`{name}`: under {seen[name]}."]
                    continue
                seen[name] = title
                lines += ["", f"{comment[:1].upper()}{comment[1:]} (`{place}`):", "", "```", *code, "```"]
    return re.sub(r"\n{3,}", "\n\n", "\n".join(lines)).rstrip() + "\n"


def main():
    if sys.argv[1:] == ["--check"]:
        if PAGE.read_text() != page():
            sys.exit("docs/CONSTRUCTS.md isn't what scripts/constructs_page.py writes")
    elif sys.argv[1:]:
        sys.exit("usage: scripts/constructs_page.py [--check]")
    else:
        PAGE.write_text(page())


if __name__ == "__main__":
    main()
