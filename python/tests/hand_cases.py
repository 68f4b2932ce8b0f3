"""Texts with directives and roles that the profile leaves out, for tests beside Docutils' own parser."""

DIRECTIVES = {
    "class": ".. class:: special\n\nA paragraph.\n\n.. class:: exceptional remarkable\n\nAn Exceptional Section\n======================\n\nText.\n",
    "class with content": ".. class:: multiple\n\n   First paragraph.\n\n   Second :strong:`paragraph`.\n",
    "class without an element": "- a\n\n  .. class:: x\n\nb\n",
    "class between lists": "* list 1, item 1\n* list 1, item 2\n\n.. class:: special\n\n* list 2, item 1\n",
    "contents": "Title\n=====\n\n.. contents:: Here's a very long Table of\n   Contents title\n   :depth: 2\n\nA\n-\n\nB\n~\n\nC\n-\n\na_\n",
    "contents of a part": "A\n=\n\n.. contents::\n   :local:\n   :backlinks: none\n   :class: x\n\nB\n-\n\nC\n=\n\nD\n-\n",
    "contents in an item": "- .. contents::\n",
    "sectnum": ".. sectnum::\n   :depth: 2\n   :prefix: 3.\n   :start: 4\n\nA\n=\n\nB\n-\n\nC\n=\n\nA_\n",
    "section-numbering": ".. section-numbering::\n\nA\n=\n\nb\n",
    "header and footer": ".. header:: This space for rent.\n\n.. footer::\n\n   *a* b_\n\nText\n\n.. _b: http://x.org\n\n.. header:: Second\n",
    "target-notes": "A `link <http://x.org>`_ and b_.\n\n.. target-notes::\n   :class: x\n\n.. _b: http://y.org\n",
    "meta": ".. meta::\n   :description: The reStructuredText plaintext markup language\n   :description lang=fr: Un langage\n   :http-equiv=Content-Type: text/html\n   :keywords: a, b\n\nText\n",
    "meta with a fault": ".. meta::\n   :description:\n   not a field\n\nText\n",
    "title": ".. title:: The title of the document\n\nAbove\n=====\n\nText\n",
    "table": ".. table:: Truth table for *not*\n   :widths: auto\n   :align: left\n   :name: here\n\n   =====  =====\n     A    not A\n   =====  =====\n   False  True\n   True   here_\n   =====  =====\n",
    "csv-table": '.. csv-table:: Frozen Delights!\n   :header: "Treat", "Quantity", "Description"\n   :widths: 15, 10, 30\n   :stub-columns: 1\n\n   "Albatross", 2.99, "On a stick!"\n   "Crunchy Frog", 1.49, "If we took the bones out, it *wouldn\'t* be\n   crunchy, now would it?"\n\nText\n',
    "list-table": ".. list-table:: Frozen Delights!\n   :widths: 15 10 30\n   :header-rows: 1\n\n   * - Treat\n     - Quantity\n     - Description\n   * - Albatross\n     - 2.99\n     - On a :strong:`stick`!\n   * - a_\n     - [#]_\n     - |s|\n\n.. _a: b\n.. [#] c\n.. |s| replace:: d\n",
    "list-table with a fault": "Text\n\n.. list-table::\n\n   - a\n   - b\n",
    "list-table without a list": "Text\n\n.. list-table::\n\n   a\n",
    "role": ".. role:: custom(emphasis)\n   :class: special\n\n.. role:: raw-role(raw)\n   :format: html latex\n\n.. role:: plain\n\nA :custom:`custom` :raw-role:`<br>` :PLAIN:`x` `y`:custom:.\n",
    "role before it is made": ":custom:`a`\n\n.. role:: custom\n\n:custom:`b`\n",
    "role of another role": ".. role:: code(code)\n   :language: text\n\nThe :code:`a = b`.\n\n.. role:: nope(nothing)\n\n:nope:`x`\n",
    "default-role": "`a` b\n\n.. default-role:: subscript\n\nH\\ `2`\\ O :title:`x` `y`_ `z`:sup:\n\n.. default-role::\n\n`c`\n",
    "date": "Made on |date|, |date| of |year|.\n\n.. |date| date::\n   %x\n.. |year| date:: %Y\n",
    "unicode": "Copyright |copy| 2003, |BogusMegaCorp (TM)|, |---| b.\n\n.. |copy| unicode:: 0xA9 .. copyright sign\n.. |BogusMegaCorp (TM)| unicode:: BogusMegaCorp U+2122\n   .. with trademark sign\n.. |---| unicode:: U+02014 .. em dash\n   :trim:\n",
    "substitution with a fault": "a |b| c |d|\n\n.. |b| unicode:: 0x110000000\n.. |d| contents::\n.. |e| date:: %Y\n\n   f\n",
    "test directive": ".. restructuredtext-test-directive:: a\n   :option: b\n\n   c\n\n.. restructuredtext-test-directive::\n",
    "a wrong option": ".. csv-table::\n   :header: a\n   :nope: b\n\n   c\n\n.. class::\n\n.. sectnum:: 1\n",
    "in quotes": "a\n\n   .. class:: x\n\n   b\n\n   .. table::\n\n      == ==\n      a  b\n      == ==\n\nc\n",
    "in cells": "+-----------------+------+\n| .. class:: x    | b    |\n|                 |      |\n| a               | `c`_ |\n+-----------------+------+\n\n===  =====================\na    .. csv-table:: t\n\n        b, c\n===  =====================\n",
    "in a note": ".. note:: a\n\n   .. class:: x\n\n   b\n\n   .. csv-table::\n      :nope:\n\n\n.. tip::\n\n   .. list-table::\n\n      a\n\n\nc\n",
    "in a figure": ".. figure:: a.png\n   :name: here\n\n   A :custom:`caption`\n\n   .. class:: x\n\n   Legend with a :custom:`b`\n\n.. role:: custom\n",
    "in a topic": "A\n=\n\n.. topic:: A :nope:`title`\n   :name: named\n\n   .. class:: x\n\n   text\n\n   .. contents::\n\nnamed_\n",
    "in a footnote": "[1]_ [C]_\n\n.. [1] .. class:: x\n\n   y\n.. [C] a\n\n   .. csv-table::\n\n      b\n",
    "ends without a blank line": "a\n\n.. class:: x\nb\n\n.. csv-table::\n\n   c\n.. list-table::\n   d\ne\n",
}
"""What directives of Docutils make, by the examples of its documentation and at each place."""

NAMES = {
    "names given before": "A\n=\n\n.. table:: x\n   :name: a\n\n   == ==\n   b  c\n   == ==\n\na_ d_ d_\n\n.. csv-table::\n   :name: d\n\n   e, _`f`\n\n.. _f: g\n\nf_\n",
    "anonymous": "`a`__ `b`__ c__\n\n.. list-table::\n\n   * - d__\n     - __ http://x.org\n\n__ http://y.org\n.. __: http://z.org\n__ a_\n\n.. _a:\n\ne\n",
    "footnotes": "[#]_ [#x]_ [*]_ [2]_\n\n.. csv-table::\n\n   [#]_, [*]_\n   [C]_, [1]_\n\n.. [#] a\n.. [#x] b\n.. [*] c\n.. [*] d\n.. [2] e\n.. [#] f\n.. [C] g\n.. [1] h\n",
    "substitutions": "|a| |b| |A| |c|_ |d|__\n\n.. |a| replace:: x |b| y\n.. |b| date:: %Y\n.. |A| image:: a.png\n   :target: c_\n.. |c| replace:: z\n.. _c: http://x.org\n__ http://y.org\n.. |a| date:: %m\n",
    "problematics": "*a :nope:`b` **c\n\n.. class:: x\n\n:nope:`d` *e `f\n\n.. csv-table::\n\n   *g, h_\n",
    "titles": "A :nope:`b` c\n===\n\n.. csv-table::\n\n   a\n\nA\n-\n\nA\n-\n\n:nope:`x`\n~~~~~~~~~~\n\n_`in` title\n===========\n\nin_\n",
    "terms and fields": "A\n\na :nope:`b`: c :nope:`d`\n  e\nf : g\n  h\n\n:i :nope:`j`: k\n:l: m\n\n| n :nope:`o`\n|   p *q\n\n   r\n\n   -- s :nope:`t`\n\n.. class:: x\n\n-a FILE  :nope:`u`\n",
    "aliases": "`a <b_>`_ `c <d_>`__ a_ `e <f_>`_ e_\n\n.. _b: http://x.org\n.. _d: b_\n.. class:: g\n\nf\n",
    "circles": "a_ |b|\n\n.. _a: c_\n.. _c: a_\n.. |b| replace:: |d|\n.. |d| replace:: |b|\n\n.. class:: e\n\nf\n",
    "the same names": ".. _a:\n\nb\n\n.. class:: x\n\n.. _a:\n\n_`a` c\n\n- _`a`\n\n.. [a] d\n.. image:: e\n   :name: a\n",
}
"""What directives and roles share with the text around them."""

EXTENSIONS = {
    "content": "A\n=\n\n.. box:: b *c* :shout:`d`\n   :titles:\n\n   e [#]_\n\n   F\n   -\n\n   g\n\nH\n-\n\n.. [#] i\n\nF_\n",
    "at each place": "- .. box:: a\n\n     b\n\n- .. Box::\n\n   c\n\nd\n  .. box::\n\n     e\n\n.. note:: f\n\n   .. box:: g\n\n:h: .. box::\n\n    > .. box:: i\n\n.. |j| box:: k\n\n|j|\n",
    "a target": "See here_.\n\n.. x:here:: here A\n\nA\n=\n\nb\n\n.. x:here:: c here\n.. x:here:: c nope\n",
    "a transform": "a\n\n.. count:: all\n\n- b\n\n  .. count:: of\n\nc\n",
    "refusals": ".. refuse::\n\n.. refuse::\n\n   a\n\n\nb\n\n- .. refuse::\n\n     a\n\n\n- c\n\n.. box:: a\n   :nope:\n\n.. note::\n\n   .. refuse::\n\n\nb\n",
    "roles": "a :shout:`b` `c`:shout: :Shout:`d\\ e\\*` :shout:`f\ng` :shout:`wrong` *h :shout:`said`\n\n- :shout:`wrong`:\n\nA :shout:`said` :shout:`wrong`\n==============================\n\ni :shout:`said`\n  j\n",
    "roles that are made": ".. role:: big(shout)\n   :size: 7\n\n:big:`a` |b|\n\n.. |b| replace:: :big:`c` :shout:`said` d\n",
    "lines that are added": "a\n\n.. inserted::\n\n   b\n\n   C\n   =\n\n   d\n\n   E\n   -\n\n   f :nope:`g`\n\nh\n\nI\n=\n\n.. inserted::\n\n   J\n   =\n\n   k\n\nl\n\nM\n-\n\n- .. inserted::\n\n     n\n\n  o\n\n.. _p:\n\nq\n",
    "titles": "A\n=\n\nB\n-\n\n.. box::\n   :titles:\n\n   C\n   ~\n\n   d\n\n   E\n   ~\n\nF\n~\n\nG\n-\n\n====\nH\n====\n\n.. box::\n\nI\n====\nJ\n-\n\n.. box::\n",
    "a default role in the middle": "`a` `b`_\n\n.. role:: own(shout)\n   :size: 7\n\n.. default-role:: own\n\n`c` `d\\ e\\*` :title:`f`\n\n.. default-role::\n\n`g`\n\n.. _b: h\n",
    "a default role at each place": "`a`\n\n.. default-role:: shout\n\nA `title`\n=========\n\n- `b` *c `said`\n\nd\n  `h`\n\n:i `j`: `wrong`\n\n.. note:: `m`\n\n   .. box:: `n`\n\n      `o` |p|\n\n   `q`__\n\n.. |p| replace:: `r`\n__ s\n",
    "a default role in terms and cells": "`a`\n\n.. default-role:: sub\n\nb `c` : `d`\n  e\n\n+-----+----------------+\n| `f` | .. class:: g   |\n|     |                |\n|     |    `h`         |\n+-----+----------------+\n\n===  ===\n`i`  j\n===  ===\n",
    "a default role that is set inside": "`a`\n\n.. box::\n\n   `b`\n\n   .. default-role:: shout\n\n   `c`\n\n`d`\n\n.. note::\n\n   .. default-role::\n\n   `e`\n\n.. default-role:: nope\n\n`f`\n\n- .. default-role:: math\n\nA `b`\n=====\n",
    "the same names": "A\n=\n\n.. box::\n\n   _`a` b\n\n.. x:here:: a a\n\nA\n=\n\n_`a`\n\na_\n",
}
"""Texts with the directives and the role of the extension in test_hand.py."""

QUOTES = """.. class:: x

"a" 'b' *c*\\'s :sub:`d`\\ 's \\"e\\" ``f\\'``\\'s f\\\\'s "g\\
h" i\\*'s

- "j" \\'k\\' `l`\\'s -- m\\--n

  *o*\\ 's
"""
"""Quotation marks after backslashes."""

SOURCES = """A *title*
=========

=====
 B b
=====

- a `b`_
  c
- d

  *e*
- - f
    g
  - h

1. *f* g::

     h

#. i
#. j
   k

(l) m
    n

o *p* : q
  r
  *s*

t
  u

:p `q`\\: a: *r*
  s

    t
  u
:v: w
:x: *y*

-a FILE, --b=FILE  *z*
                   a
--c  d

.. note:: d *e*
   f

   - g
     h
   - i

.. [1] j
   k
.. class:: l

.. admonition:: M *n*

   o

   p
     q

.. topic:: R

   s
   t

| *u*
|   v
  w
| x

- | u
    v
- w

:x:
  *y*
  z
:a: b

.. rubric:: Y *z*
   a
   :class: b

c

.. rubric:: D
e

.. _b: c
"""
"""Elements whose source texts count."""
