"""Worked examples of the wider profile: tables. scripts/wider.py joins them."""

# A name, a text, and its tree and messages.
TABLES = [
    (
        "a table of a list of lists",
        ".. list-table:: The *title*\n   :header-rows: 1\n   :stub-columns: 1\n   :widths: 10 20\n\n   * - a\n     - b\n   * - c\n     - d\n",
        """\
<document source="<stdin>">
    <table classes="colwidths-given">
        <title>
            The 
            <emphasis>
                title
        <tgroup cols="2">
            <colspec colwidth="10" stub="1">
            <colspec colwidth="20">
            <thead>
                <row>
                    <entry>
                        <paragraph>
                            a
                    <entry>
                        <paragraph>
                            b
            <tbody>
                <row>
                    <entry>
                        <paragraph>
                            c
                    <entry>
                        <paragraph>
                            d
""",
        "",
    ),
    (
        "the attributes of a table",
        ".. list-table::\n   :widths: auto\n   :align: center\n   :width: 50%\n   :class: c\n   :name: n\n\n   * - a\n     - b\n   * - c\n     - d\n",
        """\
<document source="<stdin>">
    <table align="center" classes="colwidths-auto c" ids="n" names="n" width="50%">
        <tgroup cols="2">
            <colspec colwidth="50">
            <colspec colwidth="50">
            <tbody>
                <row>
                    <entry>
                        <paragraph>
                            a
                    <entry>
                        <paragraph>
                            b
                <row>
                    <entry>
                        <paragraph>
                            c
                    <entry>
                        <paragraph>
                            d
""",
        "",
    ),
    (
        "empty and rich cells of a table",
        ".. list-table::\n\n   * - a\n     -\n   * - - n\n     - c\n\n       d\n",
        """\
<document source="<stdin>">
    <table>
        <tgroup cols="2">
            <colspec colwidth="50">
            <colspec colwidth="50">
            <tbody>
                <row>
                    <entry>
                        <paragraph>
                            a
                    <entry>
                <row>
                    <entry>
                        <bullet_list bullet="-">
                            <list_item>
                                <paragraph>
                                    n
                    <entry>
                        <paragraph>
                            c
                        <paragraph>
                            d
""",
        "",
    ),
    (
        "a message on the title of a table",
        ".. list-table:: a *b\n\n   * - a\n     - b\n   * - c\n     - d\n",
        """\
<document source="<stdin>">
    <table>
        <title>
            a 
            <problematic ids="problematic-1" refid="system-message-1">
                *
            b
        <tgroup cols="2">
            <colspec colwidth="50">
            <colspec colwidth="50">
            <tbody>
                <row>
                    <entry>
                        <paragraph>
                            a
                    <entry>
                        <paragraph>
                            b
                <row>
                    <entry>
                        <paragraph>
                            c
                    <entry>
                        <paragraph>
                            d
    <system_message backrefs="problematic-1" ids="system-message-1" level="2" line="1" source="<stdin>" type="WARNING">
        <paragraph>
            Inline emphasis start-string without end-string.
""",
        """\
<stdin>:1: (WARNING/2) Inline emphasis start-string without end-string.
""",
    ),
    (
        "a table in an item",
        "- .. list-table:: t\n\n     * - x *y\n       - [1]_\n\n  .. [1] f\n",
        """\
<document source="<stdin>">
    <bullet_list bullet="-">
        <list_item>
            <table>
                <title>
                    t
                <tgroup cols="2">
                    <colspec colwidth="50">
                    <colspec colwidth="50">
                    <tbody>
                        <row>
                            <entry>
                                <paragraph>
                                    x 
                                    <problematic ids="problematic-1" refid="system-message-1">
                                        *
                                    y
                                <system_message backrefs="problematic-1" ids="system-message-1" level="2" line="3" source="<stdin>" type="WARNING">
                                    <paragraph>
                                        Inline emphasis start-string without end-string.
                            <entry>
                                <paragraph>
                                    <footnote_reference ids="footnote-reference-1" refid="footnote-1">
                                        1
            <footnote backrefs="footnote-reference-1" ids="footnote-1" names="1">
                <label>
                    1
                <paragraph>
                    f
""",
        """\
<stdin>:3: (WARNING/2) Inline emphasis start-string without end-string.
""",
    ),
    (
        "rows of different lengths",
        ".. list-table::\n\n   * - a\n     - b\n   * - c\n",
        """\
<document source="<stdin>">
    <system_message level="3" line="1" source="<stdin>" type="ERROR">
        <paragraph>
            Error parsing content block for the "list-table" directive: uniform two-level bullet list expected, but row 2 does not contain the same number of items as row 1 (1 vs 2).
        <literal_block xml:space="preserve">
            .. list-table::
            
               * - a
                 - b
               * - c
""",
        """\
<stdin>:1: (ERROR/3) Error parsing content block for the "list-table" directive: uniform two-level bullet list expected, but row 2 does not contain the same number of items as row 1 (1 vs 2).

.. list-table::

   * - a
     - b
   * - c
""",
    ),
    (
        "a table of stubs alone",
        ".. list-table::\n   :stub-columns: 2\n\n   * - a\n     - b\n   * - c\n     - d\n",
        """\
<document source="<stdin>">
    <system_message level="3" line="1" source="<stdin>" type="ERROR">
        <paragraph>
            Insufficient data supplied (2 columns(s)); no data remaining for table body, required by "list-table" directive.
        <literal_block xml:space="preserve">
            .. list-table::
               :stub-columns: 2
            
               * - a
                 - b
               * - c
                 - d
""",
        """\
<stdin>:1: (ERROR/3) Insufficient data supplied (2 columns(s)); no data remaining for table body, required by "list-table" directive.

.. list-table::
   :stub-columns: 2

   * - a
     - b
   * - c
     - d
""",
    ),
    (
        "a table without rows",
        ".. list-table::\n\nText.\n",
        """\
<document source="<stdin>">
    <system_message level="3" line="1" source="<stdin>" type="ERROR">
        <paragraph>
            The "list-table" directive is empty; content required.
        <literal_block xml:space="preserve">
            .. list-table::
    <paragraph>
        Text.
""",
        """\
<stdin>:1: (ERROR/3) The "list-table" directive is empty; content required.

.. list-table::
""",
    ),
    (
        "rows of a simple table with a blank first column",
        "== ==\n   b\na  c\n-- --\n   d\n-- --\n   e\ng  h\n== ==\n",
        """\
<document source="<stdin>">
    <table>
        <tgroup cols="2">
            <colspec colwidth="2">
            <colspec colwidth="2">
            <tbody>
                <row>
                    <entry>
                        <paragraph>
                            a
                    <entry>
                        <paragraph>
                            c
                <row>
                    <entry>
                    <entry>
                <row>
                    <entry>
                        <paragraph>
                            g
                    <entry>
                        <paragraph>
                            h
""",
        "",
    ),
    (
        "a title and options for a table",
        ".. table:: The *title*\n   :align: left\n   :width: 10em\n   :class: c\n   :name: n\n   :widths: 10, 20\n\n   +---+---+\n   | a | b |\n   +---+---+\n\nn_\n",
        """\
<document source="<stdin>">
    <table align="left" classes="c colwidths-given" ids="n" names="n" width="10em">
        <title>
            The 
            <emphasis>
                title
        <tgroup cols="2">
            <colspec colwidth="10">
            <colspec colwidth="20">
            <tbody>
                <row>
                    <entry>
                        <paragraph>
                            a
                    <entry>
                        <paragraph>
                            b
    <paragraph>
        <reference name="n" refid="n">
            n
""",
        "",
    ),
    (
        "a title for a table of lists",
        ".. table:: a *b\n   :widths: auto\n   :class: c\n\n   .. list-table::\n      :widths: 1 2\n      :class: d\n\n      * - e\n        - f\n",
        """\
<document source="<stdin>">
    <table classes="colwidths-given d c colwidths-auto">
        <title>
            a 
            <problematic ids="problematic-1" refid="system-message-1">
                *
            b
        <tgroup cols="2">
            <colspec colwidth="1">
            <colspec colwidth="2">
            <tbody>
                <row>
                    <entry>
                        <paragraph>
                            e
                    <entry>
                        <paragraph>
                            f
    <system_message backrefs="problematic-1" ids="system-message-1" level="2" line="1" source="<stdin>" type="WARNING">
        <paragraph>
            Inline emphasis start-string without end-string.
""",
        """\
<stdin>:1: (WARNING/2) Inline emphasis start-string without end-string.
""",
    ),
    (
        "tables with the widths that are drawn",
        "- .. table::\n     :widths: grid\n\n     == ===\n     a  b\n     == ===\n",
        """\
<document source="<stdin>">
    <bullet_list bullet="-">
        <list_item>
            <table classes="colwidths-given">
                <tgroup cols="2">
                    <colspec colwidth="2">
                    <colspec colwidth="3">
                    <tbody>
                        <row>
                            <entry>
                                <paragraph>
                                    a
                            <entry>
                                <paragraph>
                                    b
""",
        "",
    ),
    (
        "something else than a table",
        ".. table:: t\n\n   == ==\n   a  b\n   == ==\n\n   Text.\n",
        """\
<document source="<stdin>">
    <system_message level="3" line="1" source="<stdin>" type="ERROR">
        <paragraph>
            Error parsing content block for the "table" directive: exactly one table expected.
        <literal_block xml:space="preserve">
            .. table:: t
            
               == ==
               a  b
               == ==
            
               Text.
""",
        """\
<stdin>:1: (ERROR/3) Error parsing content block for the "table" directive: exactly one table expected.

.. table:: t

   == ==
   a  b
   == ==

   Text.
""",
    ),
    (
        "widths for another table",
        ".. table::\n   :widths: 1\n\n   == ==\n   a  b\n   == ==\n",
        """\
<document source="<stdin>">
    <system_message level="3" line="1" source="<stdin>" type="ERROR">
        <paragraph>
            "table" widths do not match the number of columns in table (2).
        <literal_block xml:space="preserve">
            .. table::
               :widths: 1
            
               == ==
               a  b
               == ==
""",
        """\
<stdin>:1: (ERROR/3) "table" widths do not match the number of columns in table (2).

.. table::
   :widths: 1

   == ==
   a  b
   == ==
""",
    ),
    (
        "a title without a table",
        ".. table:: t\n\n.. note:: a\n",
        """\
<document source="<stdin>">
    <system_message level="2" line="1" source="<stdin>" type="WARNING">
        <paragraph>
            Content block expected for the "table" directive; none found.
        <literal_block xml:space="preserve">
            .. table:: t
    <note>
        <paragraph>
            a
""",
        """\
<stdin>:1: (WARNING/2) Content block expected for the "table" directive; none found.

.. table:: t
""",
    ),
]
