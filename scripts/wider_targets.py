"""Worked examples of the wider profile: targets. scripts/wider.py joins them."""

# A name, a text, and its tree and messages.
TARGETS = [
    (
        "a target before a message",
        "See here_.\n\n.. _here:\n\n.. foo:: x\n\nText.\n",
        """\
<document source="<stdin>">
    <paragraph>
        See 
        <reference name="here" refid="here">
            here
        .
    <target refid="here">
    <system_message level="3" line="5" source="<stdin>" type="ERROR">
        <paragraph>
            Unknown directive type "foo".
        <literal_block xml:space="preserve">
            .. foo:: x
    <paragraph ids="here" names="here">
        Text.
""",
        """\
<stdin>:5: (ERROR/3) Unknown directive type "foo".

.. foo:: x
""",
    ),
    (
        "targets before messages and what keeps them out",
        "- a\n\n  .. _one:\n\n  .. foo:: x\n\n- b\n\n.. _two:\n\n----\n\n.. _three:\n\n.. [1] c\n\none_ two_ three_\n",
        """\
<document source="<stdin>">
    <bullet_list bullet="-">
        <list_item>
            <paragraph>
                a
            <target refid="one">
            <system_message level="3" line="5" source="<stdin>" type="ERROR">
                <paragraph>
                    Unknown directive type "foo".
                <literal_block xml:space="preserve">
                    .. foo:: x
        <list_item ids="one" names="one">
            <paragraph>
                b
    <target refid="two">
    <transition ids="two" names="two">
    <target ids="three" names="three">
    <footnote ids="footnote-1" names="1">
        <label>
            1
        <paragraph>
            c
    <paragraph>
        <reference name="one" refid="one">
            one
         
        <reference name="two" refid="two">
            two
         
        <reference name="three" refid="three">
            three
""",
        """\
<stdin>:5: (ERROR/3) Unknown directive type "foo".

.. foo:: x
""",
    ),
    (
        "targets of aliases",
        "`A <b_>`_ a_ `a <c_>`_ `<b_>`_ `d <b_>`__ c_\n\n.. _b: u\n.. _c:\n\nText.\n\n.. _a: v\n",
        """\
<document source="<stdin>">
    <paragraph>
        <reference name="A" refuri="u">
            A
        <target names="a" refuri="u">
         
        <reference name="a" refuri="u">
            a
         
        <reference name="a" refid="c">
            a
        <target names="a" refid="c">
         
        <reference name="b" refuri="u">
            b
        <target names="b" refuri="u">
         
        <reference name="d" refuri="u">
            d
         
        <reference name="c" refid="c">
            c
    <target ids="b" names="b" refuri="u">
    <target refid="c">
    <paragraph ids="c" names="c">
        Text.
    <target ids="a" names="a" refuri="v">
""",
        "",
    ),
    (
        "a name that two targets have",
        "One.\n\n.. _t:\n\nTwo.\n\n.. _t:\n\nThree.\n",
        """\
<document source="<stdin>">
    <paragraph>
        One.
    <target dupnames="t" refid="t">
    <paragraph ids="t">
        Two.
    <system_message backrefs="t-1" level="2" line="7" source="<stdin>" type="WARNING">
        <paragraph>
            Duplicate explicit target name: "t".
    <target dupnames="t" refid="t-1">
    <paragraph ids="t-1">
        Three.
""",
        """\
<stdin>:7: (WARNING/2) Duplicate explicit target name: "t".
""",
    ),
]
