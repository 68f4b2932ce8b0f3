"""Worked examples of the wider profile (docs/profile/wider.md), for the tests of the library and of the Python package.

The trees and messages are those of Docutils 0.19 with `--syntax-highlight=none --no-file-insertion --halt=5`; but its messages on wrong
directives, and on a file that isn't read, have no source text on standard error. The texts of SAME are read alike by both profiles.
"""

from wider_contents import CONTENTS
from wider_directives import DIRECTIVES
from wider_fields import FIELDS
from wider_inline import INLINE
from wider_tables import TABLES
from wider_targets import TARGETS

# A name, a text, and its tree and messages under the wider profile; under the other one they differ.
WIDER = [*INLINE, *DIRECTIVES, *CONTENTS, *TABLES, *FIELDS, *TARGETS]

SAME = [
    ("a backquote after a space", "x\n\n:a `b` c: d\n"),
    ("an escaped colon", "x\n\n:a\\:`b`: d\n"),
    ("a colon inside a name", ":a:b: c\n"),
    ("a role behind a word", "a :sub:`b`: c\n"),
    ("at signs alone", "a @ b@c d@ @e\n"),
    ("numbers without a role", "PEP 8 and RFC 2822\n"),
    ("the name of a directive before a literal block", "raw::\n\n   a\n"),
    ("a keyword in a paragraph", "a $Id: b $\n"),
    ("a blank line before the content", ".. note:: a\n\n   :b: c\n"),
    ("the name of a field that is one node", ":*Date*: a\n:``b c``: d\n"),
]
