#!/usr/bin/env python3
"""Measures what a call costs, in CPU time of the system and the user, with that of starting it: of the programs in dist/, of
./rst2pseudoxml, and of check-pages.sh for each of 200 pages.

All read the same short page, and take turns. ./rst2pseudoxml runs in copies of a fresh checkout, without and with a program that was
built there, and also after a pause, as a lone call does. Fails if it costs more than 2 times the program where nothing was built.
"""

import resource
import shutil
import subprocess
import sys
import tempfile
import time
from pathlib import Path

TOP = Path(__file__).resolve().parent.parent
ROUNDS = 10
PAGES = 20
PAUSE = 0.05
TEXT = "A *word*.\n"
PROGRAM = "dist/rst2pseudoxml"
SCRIPT = "./rst2pseudoxml"
ALONE = ", after a pause"


def spent() -> float:
    """The CPU seconds of this process and all its children so far."""
    usages = [resource.getrusage(who) for who in (resource.RUSAGE_SELF, resource.RUSAGE_CHILDREN)]
    return sum(usage.ru_utime + usage.ru_stime for usage in usages)


def copied(folder: Path, built: bool) -> Path:
    """A copy of what ./rst2pseudoxml reads of this checkout, in a new folder, with the programs written last."""
    sources = [path.relative_to(TOP) for path in TOP.glob("crates/*/src")]
    for part in [Path("scripts"), *sources, Path("dist")]:
        shutil.copytree(TOP / part, folder / part)
    for name in ("crates.txt", "rst2pseudoxml"):
        shutil.copy(TOP / name, folder)
    for program in folder.glob("dist/rst2pseudoxml*"):
        program.touch()
    if built:
        out = folder / "crates/rst2pseudoxml/out"
        out.mkdir()
        shutil.copy(TOP / PROGRAM, out)
    return folder


def call(program: Path, pause: float = 0):
    """A call of a program, as a function."""

    def run():
        time.sleep(pause)
        subprocess.run([program], input=TEXT.encode(), stdout=subprocess.PIPE, stderr=subprocess.PIPE, check=True)

    return run


def milliseconds(calls: dict) -> dict:
    """Milliseconds of CPU for each call; the calls take turns."""
    costs = dict.fromkeys(calls, 0.0)
    for _ in range(ROUNDS):
        for name, one in calls.items():
            before = spent()
            for _ in range(PAGES):
                one()
            costs[name] += spent() - before
    return {name: 1000 * cost / (ROUNDS * PAGES) for name, cost in costs.items()}


def main() -> int:
    with tempfile.TemporaryDirectory() as temporary:
        fresh, developers = (copied(Path(temporary, name), name == "built") for name in ("fresh", "built"))
        calls = {name: call(fresh / name) for name in (PROGRAM, "dist/rst2pseudoxml-static", SCRIPT)}
        calls[SCRIPT + ", where a program was built"] = call(developers / SCRIPT)
        calls.update({name + ALONE: call(fresh / name, PAUSE) for name in (PROGRAM, SCRIPT)})
        costs = milliseconds(calls)
        pages = Path(temporary, "pages")
        pages.mkdir()
        for number in range(PAGES * ROUNDS):
            Path(pages, f"{number}.rst").write_text(TEXT)
        before = spent()
        subprocess.run([TOP / "integrations/check-pages.sh", pages], check=True)
        costs["integrations/check-pages.sh, for a page"] = 1000 * (spent() - before) / (PAGES * ROUNDS)
    times = {name: cost / costs[PROGRAM + ALONE if name.endswith(ALONE) else PROGRAM] for name, cost in costs.items()}
    for name, cost in costs.items():
        print(f"{cost:6.2f} ms, {times[name]:.2f} times the program  {name}")
    return int(max(times[SCRIPT], times[SCRIPT + ALONE]) > 2)


if __name__ == "__main__":
    sys.exit(main())
