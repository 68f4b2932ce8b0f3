"""Worked examples of the wider profile: directives. scripts/wider.py joins them."""

# A name, a text, and its tree and messages.
DIRECTIVES = [
    (
        "a rubric",
        ".. rubric:: Small\n   :class: c\n   :name: My Name\n\nSee `my name`_.\n",
        """\
<document source="<stdin>">
    <rubric classes="c" ids="my-name" names="my\\ name">
        Small
    <paragraph>
        See 
        <reference name="my name" refid="my-name">
            my name
        .
""",
        "",
    ),
    (
        "a message of a rubric",
        ".. rubric:: a *b\n\nText.\n",
        """\
<document source="<stdin>">
    <rubric>
        a 
        <problematic ids="problematic-1" refid="system-message-1">
            *
        b
    <system_message backrefs="problematic-1" ids="system-message-1" level="2" line="1" source="<stdin>" type="WARNING">
        <paragraph>
            Inline emphasis start-string without end-string.
    <paragraph>
        Text.
""",
        """\
<stdin>:1: (WARNING/2) Inline emphasis start-string without end-string.
""",
    ),
    (
        "raw data",
        ".. raw:: HTML  latex\n   :class: c\n\n   x\n",
        """\
<document source="<stdin>">
    <raw classes="c" format="html latex" xml:space="preserve">
        x
""",
        "",
    ),
    (
        "raw data in a substitution",
        ".. |br| raw:: html\n\n   <br>\n\na |br| b\n",
        """\
<document source="<stdin>">
    <substitution_definition names="br">
        <raw format="html" xml:space="preserve">
            <br>
    <paragraph>
        a 
        <raw format="html" xml:space="preserve">
            <br>
         b
""",
        "",
    ),
    (
        "a parsed literal",
        ".. parsed-literal::\n\n   a *b* c_\n     ``d``\n\n   e\n\n.. _c: u\n",
        """\
<document source="<stdin>">
    <literal_block xml:space="preserve">
        a 
        <emphasis>
            b
         
        <reference name="c" refuri="u">
            c
        
          
        <literal>
            d
        
        
        e
    <target ids="c" names="c" refuri="u">
""",
        "",
    ),
    (
        "a parsed literal with text beside its mark",
        ".. parsed-literal:: a\n   b\n",
        """\
<document source="<stdin>">
    <literal_block xml:space="preserve">
        a
        b
""",
        "",
    ),
    (
        "a file that isn't read",
        ".. include:: a.txt\n   :start-line: 1\n",
        """\
<document source="<stdin>">
    <system_message level="2" line="1" source="<stdin>" type="WARNING">
        <paragraph>
            "include" directive disabled.
        <literal_block xml:space="preserve">
            .. include:: a.txt
               :start-line: 1
""",
        """\
<stdin>:1: (WARNING/2) "include" directive disabled.

.. include:: a.txt
   :start-line: 1
""",
    ),
    (
        "compound and container",
        ".. container:: a b\n   :name: n\n\n   x\n\n.. compound::\n   :class: c\n\n   y\n",
        """\
<document source="<stdin>">
    <container classes="a b" ids="n" names="n">
        <paragraph>
            x
    <compound classes="c">
        <paragraph>
            y
""",
        "",
    ),
    (
        "sidebars",
        ".. sidebar:: *a\n   :subtitle: b `c\n   :class: d\n   :name: N\n\n   x\n\n.. sidebar::\n\n   y\n",
        """\
<document source="<stdin>">
    <sidebar classes="d" ids="n" names="n">
        <title>
            <problematic ids="problematic-1" refid="system-message-1">
                *
            a
        <subtitle>
            b 
            <problematic ids="problematic-2" refid="system-message-2">
                `
            c
        <system_message backrefs="problematic-1" ids="system-message-1" level="2" line="1" source="<stdin>" type="WARNING">
            <paragraph>
                Inline emphasis start-string without end-string.
        <system_message backrefs="problematic-2" ids="system-message-2" level="2" line="1" source="<stdin>" type="WARNING">
            <paragraph>
                Inline interpreted text or phrase reference start-string without end-string.
        <paragraph>
            x
    <sidebar>
        <paragraph>
            y
""",
        """\
<stdin>:1: (WARNING/2) Inline emphasis start-string without end-string.
<stdin>:1: (WARNING/2) Inline interpreted text or phrase reference start-string without end-string.
""",
    ),
    (
        "sidebars where none may be",
        "- .. Sidebar:: a\n\n     b\n\n.. sidebar::\n   :subtitle: c\n\n   d\n",
        """\
<document source="<stdin>">
    <bullet_list bullet="-">
        <list_item>
            <system_message level="3" line="1" source="<stdin>" type="ERROR">
                <paragraph>
                    The "Sidebar" directive may not be used within topics or body elements.
                <literal_block xml:space="preserve">
                    .. Sidebar:: a
                    
                       b
    <system_message level="3" line="5" source="<stdin>" type="ERROR">
        <paragraph>
            The "subtitle" option may not be used without a title.
        <literal_block xml:space="preserve">
            .. sidebar::
               :subtitle: c
            
               d
""",
        """\
<stdin>:1: (ERROR/3) The "Sidebar" directive may not be used within topics or body elements.

.. Sidebar:: a

   b
<stdin>:5: (ERROR/3) The "subtitle" option may not be used without a title.

.. sidebar::
   :subtitle: c

   d
""",
    ),
    (
        "classes of a content, and of what follows",
        ".. class:: special\n   :name: x\n\n   .. a comment\n\n   *b\n\n   .. class:: inner\n\n      - c\n\n   .. class:: next\n\nd\n",
        """\
<document source="<stdin>">
    <comment classes="special name x" xml:space="preserve">
        a comment
    <paragraph classes="special name x">
        <problematic ids="problematic-1" refid="system-message-1">
            *
        b
    <system_message backrefs="problematic-1" classes="special name x" ids="system-message-1" level="2" line="6" source="<stdin>" type="WARNING">
        <paragraph>
            Inline emphasis start-string without end-string.
    <bullet_list bullet="-" classes="inner special name x">
        <list_item>
            <paragraph>
                c
    <paragraph classes="next">
        d
""",
        """\
<stdin>:6: (WARNING/2) Inline emphasis start-string without end-string.
""",
    ),
    (
        "block quotes of a class",
        ".. epigraph::\n\n   A *b*\n\n   -- c `d\n\n   - e\n\n   -- f\n\n.. Highlights:: g\n   h\n\n.. pull-quote::\n   :class: i\n\nend\n\n.. epigraph::\n",
        """\
<document source="<stdin>">
    <block_quote classes="epigraph">
        <paragraph>
            A 
            <emphasis>
                b
        <attribution>
            c 
            <problematic ids="problematic-1" refid="system-message-1">
                `
            d
    <system_message backrefs="problematic-1" ids="system-message-1" level="2" line="5" source="<stdin>" type="WARNING">
        <paragraph>
            Inline interpreted text or phrase reference start-string without end-string.
    <block_quote classes="epigraph">
        <bullet_list bullet="-">
            <list_item>
                <paragraph>
                    e
        <attribution>
            f
    <block_quote classes="highlights">
        <paragraph>
            g
            h
    <block_quote classes="pull-quote">
        <field_list>
            <field>
                <field_name>
                    class
                <field_body>
                    <paragraph>
                        i
    <paragraph>
        end
    <system_message level="3" line="19" source="<stdin>" type="ERROR">
        <paragraph>
            Content block expected for the "epigraph" directive; none found.
        <literal_block xml:space="preserve">
            .. epigraph::
""",
        """\
<stdin>:5: (WARNING/2) Inline interpreted text or phrase reference start-string without end-string.
<stdin>:19: (ERROR/3) Content block expected for the "epigraph" directive; none found.

.. epigraph::
""",
    ),
    (
        "a line block by its directive",
        ".. line-block:: a\n   :class: verse\n   :name: Here\n\n     b *c*\n\n   `d`\n",
        """\
<document source="<stdin>">
    <line_block classes="verse" ids="here" names="here">
        <line>
            a
        <line>
        <line_block>
            <line>
                b 
                <emphasis>
                    c
            <line>
        <line>
            <title_reference>
                d
""",
        "",
    ),
    (
        "a message in a line block",
        ".. line-block::\n   *a\n",
        """\
<document source="<stdin>">
    <line_block>
        <line>
            <problematic ids="problematic-1" refid="system-message-1">
                *
            a
    <system_message backrefs="problematic-1" ids="system-message-1" level="2" line="2" source="<stdin>" type="WARNING">
        <paragraph>
            Inline emphasis start-string without end-string.
""",
        """\
<stdin>:2: (WARNING/2) Inline emphasis start-string without end-string.
""",
    ),
    (
        "formulas",
        ".. math:: a\n   :class: k\n   :name: Here\n\n   b &= \\alpha \\\\\n   c *d*\n\n   e\n",
        """\
<document source="<stdin>">
    <math_block classes="k" ids="here" names="here" xml:space="preserve">
        a
    <math_block classes="k" xml:space="preserve">
        b &= \\alpha \\\\
        c *d*
    <math_block classes="k" xml:space="preserve">
        e
""",
        "",
    ),
    (
        "a blank line after a directive's first",
        ".. note::\n\n   :class: x\n\n   t\n",
        """\
<document source="<stdin>">
    <note>
        <field_list>
            <field>
                <field_name>
                    class
                <field_body>
                    <paragraph>
                        x
        <paragraph>
            t
""",
        "",
    ),
    (
        "raw data before a title",
        ".. raw:: html\n\n   <hr>\n\nA\n=\n\n:Date: b\n",
        """\
<document ids="a" names="a" source="<stdin>" title="A">
    <title>
        A
    <docinfo>
        <date>
            b
    <raw format="html" xml:space="preserve">
        <hr>
""",
        "",
    ),
]
