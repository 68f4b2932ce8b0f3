#!/usr/bin/env python3
"""Runs every example of the pages (*.md at the top and in docs/) and compares what it does with what the page shows.

    scripts/examples.py [PROGRAM]
    scripts/examples.py --self-test

An example is a fenced block marked `console`. A line that begins with `$ ` is a command for bash, run at the top of the
repository; lines directly below it that begin with `> ` (or are `>` alone) are further lines of the command. The lines below
these, up to the next command, are what it prints. The commands of a block share one shell, in which `./rst2pseudoxml` is PROGRAM,
by default the one that scripts/program.sh finds.

A command passes if

- it prints to standard output exactly what the page shows;
- it prints nothing to standard error, so where something is expected there, the command on the page has `2>&1` or `2>/dev/null`;
- every part of its last pipe ends with status 0. If the first line of the command ends in `; echo "status $?"`, the pipe before
  that is meant, and its last part may end with any status: the page shows which.

--self-test runs examples that are right and examples that are wrong in each of these ways.
"""

import pathlib
import re
import shlex
import shutil
import subprocess
import sys
import tempfile

from program import TOP, program

SHOWS_STATUS = '; echo "status $?"'

# Examples with the first line of the fault that has to be found, or with none. There, ./rst2pseudoxml is `cat`.
SELF_TEST = (
    ("```console\n$ printf 'a\\nb\\n' | ./rst2pseudoxml\na\nb\n```\n", None),
    ("```console\n$ ./rst2pseudoxml <<'END'\n> a\n>\n> b\n> END\na\n\nb\n```\n", None),
    ("```console\n$ word=a\n$ echo $word\na\n```\n", None),
    ("```console\n$ echo a >&2\n```\n", "prints to standard error"),
    ("```console\n$ { echo a >&2; } 2>&1\na\n```\n", None),
    ("```console\n$ { echo a >&2; } 2>/dev/null\n```\n", None),
    ("```console\n$ echo a\nb\n```\n", "prints"),
    ("```console\n$ echo a\n```\n", "prints"),
    ("```console\n$ true\na\n```\n", "prints"),
    ("```console\n$ printf a\na\n```\n", "prints"),
    ("```console\n$ echo a\na\n$ echo b\nc\n```\n", "prints"),
    ("```console\n$ printf -- '- a\\n' | ./rst2pseudoxml\n- a\n```\n", None),
    ("```console\n$ printf '- a\\n' | ./rst2pseudoxml\n```\n", "ends with 2 0"),
    ("```console\n$ false\n```\n", "ends with 1"),
    ("```console\n$ false | ./rst2pseudoxml\n```\n", "ends with 1 0"),
    ("```console\n$ false; echo \"status $?\"\nstatus 1\n```\n", None),
    ("```console\n$ false; echo \"status $?\"\nstatus 0\n```\n", "prints"),
    ("```console\n$ (exit 2) <<'END'; echo \"status $?\"\n> END\nstatus 2\n```\n", None),
    ("```console\n$ false | ./rst2pseudoxml; echo \"status $?\"\nstatus 0\n```\n", "ends with 1 0"),
    ("```console\n$ exit 0\n```\n", "doesn't come to its end"),
    ("```console\n$ echo 'a\n```\n", "doesn't come to its end"),
    ("```console\n$ echo $1 $@ ${__anything-}\n\n```\n", None),
    ("```console\na\n```\n", "line 2: an example begins with a command"),
    ("```console\n```\n", "line 1: an example without a command"),
    ("```console\n$ true\n", "line 1: an example without an end"),
    ("``` console\n$ false\n```\n", "line 1: an example begins with ```console"),
    ("```console \n$ false\n```\n", "line 1: an example begins with ```console"),
    ("~~~console\n$ false\n~~~\n", "line 1: an example begins with ```console"),
    ("```console\n$ printf 'a\\r\\n'\na\n```\n", "prints"),
    ("```sh\n$ false\n```\n", None),
)


def blocks(text):
    """The examples of a page: for each its line and its (command, output) pairs."""
    start, pairs = None, []
    for number, line in enumerate(text.split("\n"), 1):
        if start is None:
            if line == "```console":
                start, pairs = number, []
            elif re.match(r"\s*(```+|~~~+)\s*console\b", line):
                raise ValueError(f"line {number}: an example begins with ```console")
        elif line == "```":
            if not pairs:
                raise ValueError(f"line {start}: an example without a command")
            yield start, pairs
            start = None
        elif line.startswith("$ "):
            pairs.append((line[2:], []))
        elif pairs and not pairs[-1][1] and (line + " ").startswith("> "):
            pairs[-1] = (pairs[-1][0] + "\n" + line[2:], [])
        elif pairs:
            pairs[-1][1].append(line)
        else:
            raise ValueError(f"line {number}: an example begins with a command")
    if start is not None:
        raise ValueError(f"line {start}: an example without an end")


def script_of(commands, path, folder):
    """A script that runs the commands, and writes what each prints, and the statuses of its last pipe, to files in the folder."""
    lines = [f'./rst2pseudoxml() {{ {shlex.quote(path)} "$@"; }}']
    for number, command in enumerate(commands):
        first, line_end, rest = command.partition("\n")
        shows = first.endswith(SHOWS_STATUS)
        files = shlex.quote(f"{folder}/{number}")
        lines += [f"exec >{files}.out 2>{files}.err", first.removesuffix(SHOWS_STATUS) + line_end + rest, '__ends=("${PIPESTATUS[@]}")']
        if shows:
            lines += ['(exit "${__ends[-1]}")', SHOWS_STATUS.removeprefix("; "), "__ends[-1]=0"]
        lines.append(f'echo "${{__ends[*]}}" >{files}.ends')
    return "\n".join(lines)


def results(commands, path):
    """For each command what it prints to standard output and to standard error, and the statuses, or None if it has no end."""
    with tempfile.TemporaryDirectory() as folder:
        subprocess.run(["bash", "-c", script_of(commands, path, folder)], cwd=TOP, stdin=subprocess.DEVNULL, check=False)
        for number in range(len(commands)):
            files = [pathlib.Path(folder, f"{number}.{kind}") for kind in ("out", "err", "ends")]
            out, err, ends = (file.read_bytes().decode("utf-8", "replace") if file.exists() else None for file in files)
            yield out or "", err or "", ends and ends.split()


def faults_of(wanted, out, err, ends):
    """What is wrong with a command."""
    if ends is None:
        yield f"doesn't come to its end\n{err}"
    elif set(ends) != {"0"}:
        yield f"ends with {' '.join(ends)}\n{err}"
    elif err:
        yield f"prints to standard error\n{err}"
    if out != wanted:
        yield f"prints\n{out}instead of\n{wanted}"


def faults(text, path):
    """For each command of a page its line, its text and the list of what is wrong with it."""
    for line, pairs in blocks(text):
        found = results([command for command, _ in pairs], path)
        for (command, wanted), result in zip(pairs, found):
            yield line, command, list(faults_of("".join(part + "\n" for part in wanted), *result))


def first_fault(text, path):
    """The first line of the first fault of a page, if it has any."""
    try:
        found = [fault for _, _, these in faults(text, path) for fault in these]
    except ValueError as error:
        return str(error)
    return found[0].split("\n")[0] if found else None


def self_test():
    failed = 0
    for text, wanted in SELF_TEST:
        got = first_fault(text, shutil.which("cat"))
        if got != wanted:
            failed += 1
            print(f"{text}has the fault: {got}\ninstead of: {wanted}")
    print(f"self-tests of examples.py: {len(SELF_TEST) - failed} passed, {failed} failed")
    return failed > 0


def main():
    if sys.argv[1:] == ["--self-test"]:
        return self_test()
    path = program(sys.argv[1:])
    passed = failed = 0
    for page in [*sorted(TOP.glob("*.md")), *sorted(TOP.glob("docs/**/*.md"))]:
        name = page.relative_to(TOP)
        try:
            for line, command, these in faults(page.read_text(encoding="utf-8"), path):
                passed, failed = passed + (not these), failed + bool(these)
                for fault in these:
                    print(f"{name}:{line}: $ {command}\n{fault}", end="" if fault.endswith("\n") else "\n")
        except ValueError as error:
            failed += 1
            print(f"{name}: {error}")
    print(f"examples: {passed} passed, {failed} failed")
    return failed > 0 or passed == 0


if __name__ == "__main__":
    sys.exit(main())
