#!/usr/bin/env python3
"""Counts how many real pages pass check-pages.sh at level warning, without known names and with the lists that are shipped.

    bench/known.py [FOLDER]

The pages are those of bench/real.py, whose help describes FOLDER. It prints a table in Markdown: pages of each package, and how many
of them pass without --known, with @docutils-names.txt, with @sphinx-names.txt, and with the names that the last run proposed as well.
All packages take a CPU minute.
"""

import collections
import json
import pathlib
import subprocess
import sys
import tempfile

from documents import PACKAGES, fetch, laid_out

CHECK = pathlib.Path(__file__).resolve().parent.parent / "integrations/check-pages.sh"
PASS = " with --known="


def checked(work: pathlib.Path, *known: str) -> tuple[dict, set]:
    """How many pages of each package fail, and the names that the script proposes."""
    command = [CHECK, "--level=warning", "--format=json", *(f"--known={names}" for names in known), "."]
    done = subprocess.run(command, cwd=work, stdout=subprocess.PIPE, stderr=subprocess.PIPE, check=False)
    if done.returncode > 1:
        sys.exit(done.stderr.decode("utf-8", "replace"))
    pages = {json.loads(line)["file"] for line in done.stdout.decode("utf-8", "replace").splitlines()}
    proposed = (line.partition(PASS)[2] for line in done.stderr.decode("utf-8", "replace").splitlines())
    return collections.Counter(page.split("/")[1] for page in pages), {name for names in proposed for name in names.split(",") if name}


def main() -> int:
    with tempfile.TemporaryDirectory() as made:
        folder, work = pathlib.Path(sys.argv[1] if sys.argv[1:] else f"{made}/packages"), pathlib.Path(made, "documents")
        folder.mkdir(parents=True, exist_ok=True)
        work.mkdir()
        names = [name for name in PACKAGES if (folder / name).is_dir() or fetch(name, folder)]
        names += sorted(path.name for path in folder.iterdir() if path.is_dir() and path.name not in PACKAGES)
        pages = {name: len(laid_out(name, folder, work)) for name in names}
        runs = [checked(work, *known) for known in ((), ("@docutils-names.txt",), ("@sphinx-names.txt",))]
        own = runs[-1][1]
        runs.append(checked(work, "@sphinx-names.txt", ",".join(own)))
    print(f"| package | pages | without `--known` | `@docutils-names.txt` | `@sphinx-names.txt` | and {len(own)} names of projects |")
    print("|" + "---|" * 6)
    for name, count in pages.items():
        print("|", name, "|", count, "|", " | ".join(str(count - failed[name]) for failed, _ in runs), "|")
    print("| all |", sum(pages.values()), "|", " | ".join(str(sum(pages.values()) - sum(failed.values())) for failed, _ in runs), "|")
    return 0


if __name__ == "__main__":
    sys.exit(main())
