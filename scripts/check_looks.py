#!/usr/bin/env python3
"""Fails if lines can be read without a look that is counted, or their texts be kept from call to call.

    scripts/check_looks.py [--self-test]

Rules for the code of the crates that read blocks, tests apart:

- A count of looks begins once, in rst_block, where a document is read.
- A line is read by the method of a view, with the count. rst_block reads none itself.
- A type has one name: no import renames it or takes all that there is, and the only alias is `Result`.
- What a struct or an enum holds, and what a function takes over or may change, is a number, an element, a view, or of a type that these
  crates declare. HOLD lists what else may be held, which may be a text, and each type that holds one that is listed.
- rst_block, whose loop reads the document, names none of these types but those that are listed for it.
- rst_text gives nothing of a view or of lines without a count but what FREE lists.

--self-test breaks the rules in a copy of the sources, one at a time, and fails if a breach isn't found.
"""

import pathlib
import re
import sys

TOP = pathlib.Path(__file__).resolve().parent.parent
MACHINE = "rst_block"
BELOW = "rst_markup_lines rst_markup_blocks rst_markup_directives rst_markup_tables rst_block_nodes rst_block_state rst_block_body rst_block_markup"
HARMLESS = set(
    "Self usize u64 u128 bool Option Result Ok Err Some None Vec Box ArrayVec Global Model Drop"  # numbers, lists, what is free
    " Attrs Key Level Marked MarkedIter MarkedNodes Node Note Parsed Tag Value"  # elements
    " Parts"  # Booleans
    " Workspace"  # lists that only rst_inline can read, which sees no lines
    " View Placement Looks AllocError AllocFailed TextFault".split()  # each line of a view costs a look
)
SMALL = "char u8 u16 u32"  # one of them is harmless, a list of them may be a text
RENAMED = {"Level as Gravity"}

# What is held, and for how long: the lines of a table while it is read, and its cells while it is open; the lines, options and texts of a
# directive in the call that reads it; a title and marks of lines; the name and the lines of a replacement; and the texts of a line block until
# it ends, since it isn't known sooner which lines nest. They are then gone over once for each line block, which needs no look at the document.
HOLD = {
    # marks
    "Adornment": "char", "Begun": "Adornment char", "Class": "char", "Item": "char", "LineTest": "char", "Letter": "char", "ListKind": "char",
    "Style": "char",
    # tables
    "Cell": "CellLines", "CellLines": "CellTexts", "CellTexts": "String", "GridLines": "TableLine", "Place": "char", "Ranks": "Tiling",
    "Rows": "Cell", "Runs": "TableLine", "SimpleLines": "TableLine", "TableLine": "Place", "TableResult": "Rows", "Tiling": "TableLine",
    # directives
    "Argument": "String", "Detail": "String", "Directive": "Argument DirectiveFault Setting", "DirectiveFault": "Detail String", "Field": "char",
    "Found": "Argument Setting", "OptionMark": "Argument", "OptionValue": "String Target", "Reading": "Argument Setting", "Setting": "OptionValue",
    "Target": "String",
    # blocks
    "BarText": "String", "Ended": "Frame Step", "Frame": "OpenBlock Waits", "Frames": "Frame", "Heading": "String Style", "IndentedText": "String",
    "OpenBlock": "Heading Run", "OpenList": "ListKind", "OpenReplacement": "String", "Run": "BarText OpenList", "Sections": "Style",
    "Step": "TableResult Waits", "Waits": "OpenReplacement", "WrongForm": "str",
    # functions
    "add_line": "char", "alone": "N", "definition_of": "String", "definition_or_error": "String", "from": "E", "heading_of": "String",
    "joined_nonempty": "char", "kept": "String", "mailed": "String", "option": "str", "push": "N", "push_count": "String", "replacement": "String",
    "shortened": "String",
    MACHINE: "Begun Cell Ended Frame Frames LineTest Lines OpenBlock Rows Step TableResult Waits",
}
# How many lines there are, their numbers, where they are, and which parts of the wider profile hold in them; how views and lines are made.
FREE = {
    "View": "Clone Copy whole placement at len number part parts",
    "Lines": "Debug Drop Model of within numbered count line",
}

BREACHES = [
    ("a struct that keeps lines", "rst_block_state/texts.rt", "pub struct Pass {", "pub struct Pass {\n    pub seen: Lines,"),
    ("a struct of one text", "rst_block_state/texts.rt", "pub struct Pass {", "pub struct Seen(String);\npub struct Pass {"),
    ("lines joined in a text", "rst_block_state/open_block.rt", "pub struct OpenBlock {", "pub struct OpenBlock {\n    pub seen: String,"),
    ("an array of texts", "rst_block_state/texts.rt", "pub struct Pass {", "pub struct Pass {\n    pub seen: [Option<String>; 9],"),
    ("texts of elements", "rst_block/machine.rt", "    let whole", "    let seen = rst_tree::Texts::none(alloc);\n    let whole"),
    ("texts that are lent", "rst_block_body/quote.rt", "fn first_attribution(", "fn first_attribution(seen: &mut Texts, "),
    ("a type with two names", "rst_block_body/quote.rt", "use rst_text::{Looks, View};", "use rst_text::{Looks as L, View};"),
    ("a call of views without a count", "rst_text/view.rt", "    fn text(&self", "    pub fn text(&self"),
    ("a second count", "rst_markup_tables/table.rt", "grid_lines(alloc, view, i, looks)", "grid_lines(alloc, view, i, &mut Looks::none())"),
    ("a line without the count", "rst_markup_tables/simple_lines.rt", "view.line(k, looks)", "lines.line(k)"),
    ("a line read by the machine", "rst_block/machine.rt", "    let whole", "    let seen = view.line(0, looks);\n    let whole"),
    ("kept lines of a table", "rst_block_state/texts.rt", "pub struct Pass {", "pub struct Pass {\n    pub seen: Vec<CellLines>,"),
]


def sources():
    """The files of these crates and of rst_text, without tests, by their paths without crates/ and src/."""
    texts = {}
    for crate in ["rst_text", MACHINE, *BELOW.split()]:
        for path in sorted((TOP / "crates" / crate / "src").rglob("*.rt")):
            if "tests" not in path.name:
                texts[str(path.relative_to(TOP / "crates")).replace("/src/", "/")] = path.read_text(encoding="utf-8")
    return texts


def clause_end(text, place):
    """The place after a clause or a ghost item: after its braces, or after its semicolon."""
    depth = 0
    for end in range(place, len(text)):
        depth += (text[end] == "{") - (text[end] == "}")
        if depth == 0 and text[end] in "};":
            return end + 1
    return len(text)


def code(text):
    """A file without comments, texts, attributes of the prover, clauses and ghost items."""
    text = re.sub(r"//.*|\"(?:\\.|[^\"\\])*\"|'(?:\\.[^']*|[^'\\])'|#!?\[tactic[^\]]*\]", "", text)
    parts, end = [], 0
    for found in re.finditer(r"\b(?:ensures|requires|ghost)\b", text):
        if found.start() >= end:
            parts.append(text[end : found.start()])
            end = clause_end(text, found.end())
    return "".join([*parts, text[end:]])


def parameters(text):
    """The parameters of a list."""
    parts, depth = [""], 0
    for c in text:
        depth += (c in "(<[") - (c in ")>]")
        if c == "," and depth == 0:
            parts.append("")
        else:
            parts[-1] += c
    return [" ".join(part.split()) for part in parts]


def types(text):
    """The types that code names, without what follows them, as a variant of an enum."""
    names = re.findall(r"\b(?:[A-Z]|[A-Z]\w*[a-z]\w*|str)\b", re.sub(r"\b([A-Z]\w*)(?:::\w+)+", r"\1", text))
    small = re.findall(rf"\b(?:{SMALL.replace(' ', '|')})\b", text) if re.search(r"Vec|\[", text) else []
    return {*names, *small}


def structs(text):
    """What structs and enums hold: their names, each with the types of one line."""
    form = r"^( *)(?:pub(?:\(\w+\))? )?(?:struct|enum) (\w+)[^{;(]*(?:\{(.*?)^\1\}|\(([^;]*)\);)"
    for _, name, fields, row in re.findall(form, text, re.MULTILINE | re.DOTALL):
        for line in [*fields.splitlines(), row]:
            yield name, types(re.sub(r"^ +[A-Z]\w*", "", line)) | set(re.findall(r"\bchar\b", line))


def functions(text):
    """What functions take over or may change: their names, each with the types of one parameter."""
    for name, row in re.findall(r"\bfn (\w+)(?:<.*?>)?\((.*?)\)\s*(?:->|\{|;|where)", text, re.DOTALL):
        for parameter in parameters(row):
            if not re.search(r": (?:Option<)?&(?:'\w+ )?(?!mut\b|')", parameter):
                yield name, types(parameter)


def free(text):
    """What a file of rst_text gives of a view or of lines without a count."""
    for traits, name in re.findall(r"derive\(([^)]*)\)\]\s*pub struct (View|Lines)\b", text):
        yield name, set(traits.split(", "))
    for name, body in re.findall(r"^pub struct (View|Lines)\b(.*?)^\}", text, re.MULTILINE | re.DOTALL):
        yield name, set(re.findall(r"^    pub (\w+)", body, re.MULTILINE))
    for trait, name, body in re.findall(r"^impl(?:<[^{]*?>)? (?:(\w+).* for )?(View|Lines)\b[^{]*\{(.*?)^\}", text, re.MULTILINE | re.DOTALL):
        calls = re.findall(r"^    pub fn (\w+)(?:<.*?>)?\((.*?)\)\s*(?:->|\{)", body, re.MULTILINE | re.DOTALL)
        yield name, {call for call, row in calls if "looks: &mut Looks" not in row} | {trait} - {""}
    calls = re.findall(r"^pub fn (\w+)(?:<.*?>)?\((.*?)\)\s*(?:->|\{)", text, re.MULTILINE | re.DOTALL)
    yield from ((call, {"View"}) for call, row in calls if re.search(r"\b(?:View|Lines)\b", row))


def compared(verb, found, rows):
    """What was found and isn't in a list, and what is in the list in vain."""
    places = {(name, word): path for path, name, words in found for word in words}
    rows = {(name, word) for name, words in rows.items() for word in words.split()}
    yield from (f"{places[name, word]}: {name} {verb} {word}" for name, word in sorted(places.keys() - rows))
    yield from (f"{name} no longer {verb} {word}" for name, word in sorted(rows - places.keys()))


def breaches(texts):
    """What breaks the rules, a line for each."""
    texts = {path: code(text) for path, text in texts.items()}
    below = {path: text for path, text in texts.items() if not path.startswith("rst_text/")}
    machine = {path: text for path, text in below.items() if path.startswith(f"{MACHINE}/")}
    begun = [path for path, text in below.items() for _ in re.findall(r"\bLooks\s*>?\s*::", text)]
    if begun != [f"{MACHINE}/parsing.rt"]:
        yield f"counts of looks begin in {begun}"
    for path, text in below.items():
        calls = re.findall(r"::line\b(?!::)|\.line\((?!\))[^)]*", text)
        calls = [call for call in calls if path in machine or "looks" not in call]
        yield from (f"{path}: a line is read where none may be, or without the count: {call}" for call in calls)
        names = [name for row in re.findall(r"\buse [^;]*;", text) for name in re.findall(r"\w+ as [A-Z]\w*|\*", row)]
        names += re.findall(r"\btype (?!Result\b)\w+", text)
        yield from (f"{path}: {name} is a second name" for name in names if name not in RENAMED)
    known = HARMLESS | set(re.findall(r"\b(?:struct|enum|trait) (\w+)", "\n".join(below.values())))
    holders, held = {""}, []
    while holders != {name for _, name, _ in held}:
        holders = {name for _, name, _ in held}
        held = [(path, name, words - (known - holders)) for path, text in below.items() for name, words in structs(text) if words - (known - holders)]
    held += [(path, name, words - known) for path, text in below.items() for name, words in functions(text)]
    held += [(path, MACHINE, types(text) - (known - holders)) for path, text in machine.items()]
    yield from compared("holds", held, HOLD)
    yield from compared("gives", [(path, *one) for path, text in texts.items() if path.startswith("rst_text/") for one in free(text)], FREE)


def self_test(texts):
    """Whether each breach is found."""
    missed = []
    for name, path, old, new in BREACHES:
        broken = texts[path].replace(old, new, 1)
        if broken == texts[path] or not any(breaches({**texts, path: broken})):
            missed.append(name)
    for name in missed:
        print(f"not found: {name}")
    print(f"{len(BREACHES) - len(missed)} of {len(BREACHES)} breaches are found")
    return not missed


def main():
    if sys.argv[1:] not in ([], ["--self-test"]):
        print("check_looks.py: it takes --self-test or nothing", file=sys.stderr)
        return 2
    texts = sources()
    if sys.argv[1:]:
        return int(not self_test(texts))
    wrong = [*breaches(texts)]
    print("\n".join(wrong) if wrong else "every function that looks at lines counts its looks")
    return int(wrong != [])


if __name__ == "__main__":
    sys.exit(main())
