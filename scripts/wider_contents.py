"""Worked examples of the wider profile: tables of contents. scripts/wider.py joins them."""

# A name, a text, and its tree and messages.
CONTENTS = [
    (
        "tables of contents",
        ".. contents:: All *of it*\n   :depth: 2\n   :class: c\n\nA [1]_ |i|\n==========\n\n.. contents::\n   :local:\n   :backlinks: top\n\nB\n-\n\nC\n~\n\nSee contents_ and `all of it`_.\n\nA\n=\n\n.. [1] n\n.. |i| image:: u\n   :alt: pic\n\n.. contents:: A\n",
        """\
<document source="<stdin>">
    <topic classes="contents c" ids="all-of-it" names="all\\ of\\ it">
        <title>
            All 
            <emphasis>
                of it
        <bullet_list>
            <list_item>
                <paragraph>
                    <reference ids="toc-entry-1" refid="a-1-i">
                        A 
                         
                        pic
                <bullet_list>
                    <list_item>
                        <paragraph>
                            <reference ids="toc-entry-2" refid="b">
                                B
            <list_item>
                <paragraph>
                    <reference ids="toc-entry-3" refid="a">
                        A
    <section ids="a-1-i" names="a\\ 1\\ i">
        <title refid="toc-entry-6">
            A 
            <footnote_reference ids="footnote-reference-1" refid="footnote-1">
                1
             
            <image alt="pic" uri="u">
        <topic classes="contents local" ids="contents" names="contents">
            <bullet_list>
                <list_item>
                    <paragraph>
                        <reference ids="toc-entry-4" refid="b">
                            B
                    <bullet_list>
                        <list_item>
                            <paragraph>
                                <reference ids="toc-entry-5" refid="c">
                                    C
        <section ids="b" names="b">
            <title refid="toc-entry-7">
                B
            <section ids="c" names="c">
                <title refid="toc-entry-8">
                    C
                <paragraph>
                    See 
                    <reference name="contents" refid="contents">
                        contents
                     and 
                    <reference name="all of it" refid="all-of-it">
                        all of it
                    .
    <section ids="a" names="a">
        <title refid="toc-entry-9">
            A
        <footnote backrefs="footnote-reference-1" ids="footnote-1" names="1">
            <label>
                1
            <paragraph>
                n
        <substitution_definition names="i">
            <image alt="pic" uri="u">
        <topic classes="contents" ids="topic-1">
            <title>
                A
            <bullet_list>
                <list_item>
                    <paragraph>
                        <reference ids="toc-entry-6" refid="a-1-i">
                            A 
                             
                            pic
                    <bullet_list>
                        <list_item>
                            <paragraph>
                                <reference ids="toc-entry-7" refid="b">
                                    B
                            <bullet_list>
                                <list_item>
                                    <paragraph>
                                        <reference ids="toc-entry-8" refid="c">
                                            C
                <list_item>
                    <paragraph>
                        <reference ids="toc-entry-9" refid="a">
                            A
""",
        "",
    ),
    (
        "tables of contents without entries, and where none may be",
        ".. contents:: *a\n\nSee `*a`_.\n\n- .. Contents::\n\n.. contents::\n\n   b\n",
        """\
<document source="<stdin>">
    <system_message backrefs="problematic-1" ids="system-message-1" level="2" line="1" source="<stdin>" type="WARNING">
        <paragraph>
            Inline emphasis start-string without end-string.
    <paragraph>
        See 
        <reference name="*a" refid="a">
            *a
        .
    <bullet_list bullet="-">
        <list_item>
            <system_message level="3" line="5" source="<stdin>" type="ERROR">
                <paragraph>
                    The "Contents" directive may not be used within topics or body elements.
                <literal_block xml:space="preserve">
                    .. Contents::
    <system_message level="3" line="7" source="<stdin>" type="ERROR">
        <paragraph>
            Error in "contents" directive:
            no content permitted.
        <literal_block xml:space="preserve">
            .. contents::
            
               b
""",
        """\
<stdin>:1: (WARNING/2) Inline emphasis start-string without end-string.
<stdin>:5: (ERROR/3) The "Contents" directive may not be used within topics or body elements.

.. Contents::
<stdin>:7: (ERROR/3) Error in "contents" directive:
no content permitted.

.. contents::

   b
""",
    ),
]
