"""Worked examples of the wider profile: roles, URIs, e-mail addresses, and roles at the beginning of a line. scripts/wider.py joins them."""

# A name, a text, and its tree and messages.
INLINE = [
    (
        "a role of the profile",
        ":sub:`2` and more: text\n",
        """\
<document source="<stdin>">
    <paragraph>
        <subscript>
            2
         and more: text
""",
        "",
    ),
    (
        "a role at the beginning of a line",
        ":mod:`email`: mail\n",
        """\
<document source="<stdin>">
    <paragraph>
        <problematic ids="problematic-1" refid="system-message-1">
            :mod:`email`
        : mail
    <system_message backrefs="problematic-1" ids="system-message-1" level="3" line="1" source="<stdin>" type="ERROR">
        <paragraph>
            Unknown interpreted text role "mod".
""",
        """\
<stdin>:1: (ERROR/3) Unknown interpreted text role "mod".
""",
    ),
    (
        "a title that begins with a role",
        ":mod:`email`: mail\n==================\n\nText.\n",
        """\
<document ids="mod-email-mail" names=":mod:`email`:\\ mail" source="<stdin>" title=":mod:`email`: mail">
    <title>
        <problematic ids="problematic-1" refid="system-message-1">
            :mod:`email`
        : mail
    <system_message backrefs="problematic-1" ids="system-message-1" level="3" line="1" source="<stdin>" type="ERROR">
        <paragraph>
            Unknown interpreted text role "mod".
    <paragraph>
        Text.
""",
        """\
<stdin>:1: (ERROR/3) Unknown interpreted text role "mod".
""",
    ),
    (
        "a colon further on",
        ":a:`b` c: d\n",
        """\
<document source="<stdin>">
    <paragraph>
        <problematic ids="problematic-1" refid="system-message-1">
            :a:`b`
         c: d
    <system_message backrefs="problematic-1" ids="system-message-1" level="3" line="1" source="<stdin>" type="ERROR">
        <paragraph>
            Unknown interpreted text role "a".
""",
        """\
<stdin>:1: (ERROR/3) Unknown interpreted text role "a".
""",
    ),
    (
        "a line behind a field",
        ":a: b\n:c:`d`: e\n",
        """\
<document source="<stdin>">
    <docinfo>
        <field classes="a">
            <field_name>
                a
            <field_body>
                <paragraph>
                    b
    <system_message level="2" line="2" source="<stdin>" type="WARNING">
        <paragraph>
            Field list ends without a blank line; unexpected unindent.
    <paragraph>
        <problematic ids="problematic-1" refid="system-message-1">
            :c:`d`
        : e
    <system_message backrefs="problematic-1" ids="system-message-1" level="3" line="2" source="<stdin>" type="ERROR">
        <paragraph>
            Unknown interpreted text role "c".
""",
        """\
<stdin>:2: (WARNING/2) Field list ends without a blank line; unexpected unindent.
<stdin>:2: (ERROR/3) Unknown interpreted text role "c".
""",
    ),
    (
        "the first line of a directive",
        ".. note::\n   :ref:`x`: y\n",
        """\
<document source="<stdin>">
    <note>
        <paragraph>
            <problematic ids="problematic-1" refid="system-message-1">
                :ref:`x`
            : y
        <system_message backrefs="problematic-1" ids="system-message-1" level="3" line="2" source="<stdin>" type="ERROR">
            <paragraph>
                Unknown interpreted text role "ref".
""",
        """\
<stdin>:2: (ERROR/3) Unknown interpreted text role "ref".
""",
    ),
    (
        "an e-mail address",
        "Write to me@example.org.\n",
        """\
<document source="<stdin>">
    <paragraph>
        Write to 
        <reference refuri="mailto:me@example.org">
            me@example.org
        .
""",
        "",
    ),
    (
        "URIs of registered schemes",
        "ssh://x.org, (urn:isbn:0451450523) and http:a.\n",
        """\
<document source="<stdin>">
    <paragraph>
        <reference refuri="ssh://x.org">
            ssh://x.org
        , (
        <reference refuri="urn:isbn:0451450523">
            urn:isbn:0451450523
        ) and 
        <reference refuri="http:a">
            http:a
        .
""",
        "",
    ),
    (
        "where a URI ends",
        "http://a.b/c- <http://a.b/c.> http://a.b/c<d> http://a.b/c?d=e#f and http://a.b/\\*x\n",
        """\
<document source="<stdin>">
    <paragraph>
        <reference refuri="http://a.b/c">
            http://a.b/c
        - <
        <reference refuri="http://a.b/c.">
            http://a.b/c.
        > 
        <reference refuri="http://a.b">
            http://a.b
        /c<d> 
        <reference refuri="http://a.b/c?d=e#f">
            http://a.b/c?d=e#f
         and 
        <reference refuri="http://a.b/*x">
            http://a.b/*x
""",
        "",
    ),
    (
        "a target that is an address",
        ".. _me: me@example.org\n\nAsk me_.\n",
        """\
<document source="<stdin>">
    <target ids="me" names="me" refuri="mailto:me@example.org">
    <paragraph>
        Ask 
        <reference name="me" refuri="mailto:me@example.org">
            me
        .
""",
        "",
    ),
    (
        "an escaped at sign",
        "me\\@example.org and m\\e@example.org\n",
        """\
<document source="<stdin>">
    <paragraph>
        me@example.org and 
        <reference refuri="mailto:me@example.org">
            me@example.org
""",
        "",
    ),
    (
        "an empty phrase",
        "`<me@example.org>`_ and `<me@example.org>`__\n",
        """\
<document source="<stdin>">
    <paragraph>
        <reference name="mailto:me@example.org" refuri="mailto:me@example.org">
            mailto:me@example.org
        <target ids="mailto-me-example-org" names="mailto:me@example.org" refuri="mailto:me@example.org">
         and 
        <reference name="mailto:me@example.org" refuri="mailto:me@example.org">
            mailto:me@example.org
""",
        "",
    ),
    (
        "numbers of documents",
        "See :pep:`8` and :PEP:`0257`.\n",
        """\
<document source="<stdin>">
    <paragraph>
        See 
        <reference refuri="https://peps.python.org/pep-0008">
            PEP 8
         and 
        <reference refuri="https://peps.python.org/pep-0257">
            PEP 0257
        .
""",
        "",
    ),
    (
        "wrong numbers",
        ":pep:`x` and :pep:`10000`\n",
        """\
<document source="<stdin>">
    <paragraph>
        <problematic ids="problematic-1" refid="system-message-1">
            :pep:`x`
         and 
        <problematic ids="problematic-2" refid="system-message-2">
            :pep:`10000`
    <system_message backrefs="problematic-1" ids="system-message-1" level="3" line="1" source="<stdin>" type="ERROR">
        <paragraph>
            PEP number must be a number from 0 to 9999; "x" is invalid.
    <system_message backrefs="problematic-2" ids="system-message-2" level="3" line="1" source="<stdin>" type="ERROR">
        <paragraph>
            PEP number must be a number from 0 to 9999; "10000" is invalid.
""",
        """\
<stdin>:1: (ERROR/3) PEP number must be a number from 0 to 9999; "x" is invalid.
<stdin>:1: (ERROR/3) PEP number must be a number from 0 to 9999; "10000" is invalid.
""",
    ),
    (
        "a number with a fragment",
        "See :rfc:`2822` and :rfc:`2822#section-3`.\n",
        """\
<document source="<stdin>">
    <paragraph>
        See 
        <reference refuri="https://tools.ietf.org/html/rfc2822.html">
            RFC 2822
         and 
        <reference refuri="https://tools.ietf.org/html/rfc2822.html#section-3">
            RFC 2822
        .
""",
        "",
    ),
    (
        "roles of elements",
        ":ac:`XML` :abbreviation:`ca.` :math:`\\alpha` :code:`a\\*b` :Sub:`2`\n",
        """\
<document source="<stdin>">
    <paragraph>
        <acronym>
            XML
         
        <abbreviation>
            ca.
         
        <math>
            \\alpha
         
        <literal classes="code">
            a\\*b
         
        <subscript>
            2
""",
        "",
    ),
    (
        "roles that make nothing",
        ":raw:`<b>` `a`:index:\n",
        """\
<document source="<stdin>">
    <paragraph>
        <problematic ids="problematic-1" refid="system-message-1">
            :raw:`<b>`
         
        <problematic ids="problematic-2" refid="system-message-2">
            `a`:index:
    <system_message backrefs="problematic-1" ids="system-message-1" level="3" line="1" source="<stdin>" type="ERROR">
        <paragraph>
            No format (Writer name) is associated with this role: "raw".
            The "raw" role cannot be used directly.
            Instead, use the "role" directive to create a new role with an associated format.
    <system_message backrefs="problematic-2" ids="system-message-2" level="3" line="1" source="<stdin>" type="ERROR">
        <paragraph>
            Interpreted text role "index" not implemented.
""",
        """\
<stdin>:1: (ERROR/3) No format (Writer name) is associated with this role: "raw".
The "raw" role cannot be used directly.
Instead, use the "role" directive to create a new role with an associated format.
<stdin>:1: (ERROR/3) Interpreted text role "index" not implemented.
""",
    ),
]
