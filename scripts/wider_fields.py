"""Worked examples of the wider profile: bibliographic fields, with their names, authors and keywords. scripts/wider.py joins them."""

# A name, a text, and its tree and messages.
FIELDS = [
    (
        "markup in the name of a field",
        ":a *b*: c\n",
        """\
<document source="<stdin>">
    <docinfo>
        <field classes="a">
            <field_name>
                a 
                <emphasis>
                    b
            <field_body>
                <paragraph>
                    c
""",
        "",
    ),
    (
        "authors with markup",
        ":Authors: Ann <ann@x.org>, *Bob*\n",
        """\
<document source="<stdin>">
    <docinfo>
        <authors>
            <author>
                Ann <ann@x.org>
            <author>
                Bob
""",
        "",
    ),
    (
        "markup in the name of a bibliographic field",
        ":Date *of print*: today\n:*Author* `and`_ more: Ann\n\n.. _and: x\n",
        """\
<document source="<stdin>">
    <docinfo>
        <date>
            today
        <author>
            Ann
    <target ids="and" names="and" refuri="x">
""",
        "",
    ),
    (
        "keywords of RCS",
        ":Date: $Date: 2005/12/30 10:11:12 $\n:Revision: $Revision: 4231 $\n:Version: $RCSfile: a.txt,v $\n",
        """\
<document source="<stdin>">
    <docinfo>
        <date>
            2005-12-30
        <revision>
            4231
        <version>
            a.txt
""",
        "",
    ),
    (
        "keywords in other fields",
        ":Date: x $Date: 2005-12-30T10:11:12Z (Fri) $ y $Id: z $\n:Other: $Id: a b $ c\n:More: *x* $Id: a $\n:Copyright: $Date$ $id: q $\n",
        """\
<document source="<stdin>">
    <docinfo>
        <date>
            x 2005-12-30 y $Id: z $
        <field classes="other">
            <field_name>
                Other
            <field_body>
                <paragraph>
                    a b c
        <field classes="more">
            <field_name>
                More
            <field_body>
                <paragraph>
                    <emphasis>
                        x
                     $Id: a $
        <copyright>
            $Date$ q
""",
        "",
    ),
]
