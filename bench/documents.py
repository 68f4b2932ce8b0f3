"""The reStructuredText documents that Debian's packages ship: fetching them, and laying them out for the comparison."""

import gzip
import hashlib
import pathlib
import subprocess
import sys
import tempfile
from dataclasses import dataclass

# The packages, each with the endings of its documents' names. What a package ships as generated pages is left out.
USUAL = (".rst", ".rst.gz", ".rst.txt")
PACKAGES = {
    "linux-doc-6.1": USUAL,
    "python3.11-doc": USUAL,
    "cmake-doc": USUAL,
    "llvm-14-doc": USUAL,
    "clang-14-doc": USUAL,
    "sphinx-doc": USUAL,
    "docutils-doc": (".txt",),
    "python-flask-doc": USUAL,
    "python-requests-doc": USUAL,
}


@dataclass
class Document:
    """A document: the package that it is from, and its path below the folder that it was laid out in."""

    package: str
    path: str
    size: int


def called(words: list[str], folder: pathlib.Path) -> str:
    """What a command prints; where it fails, that is a RuntimeError with the last line that it printed."""
    try:
        run = subprocess.run(words, cwd=folder, stdout=subprocess.PIPE, stderr=subprocess.PIPE, text=True)
    except OSError as fault:
        raise RuntimeError(f"{words[0]}: {fault.strerror}") from fault
    if run.returncode != 0:
        raise RuntimeError(f"{words[0]}: {(run.stderr.strip() or str(run.returncode)).splitlines()[-1]}")
    return run.stdout.strip()


def fetch(package: str, folder: pathlib.Path) -> bool:
    """Unpacks a package into a folder of its name, beside a file with its version. Nothing is installed."""
    try:
        with tempfile.TemporaryDirectory(dir=folder) as made:
            called(["apt-get", "download", package], pathlib.Path(made))
            archive = str(next(pathlib.Path(made).glob("*.deb")))
            version = called(["dpkg-deb", "-f", archive, "Version"], folder)
            called(["dpkg-deb", "-x", archive, f"{made}/unpacked"], folder)
            (folder / f"{package}.version").write_text(version + "\n", encoding="utf-8")
            pathlib.Path(made, "unpacked").rename(folder / package)
    except RuntimeError as fault:
        print(f"{package}: can't be fetched: {fault}", file=sys.stderr)
        return False
    return True


def version(package: str, folder: pathlib.Path) -> str:
    """The version of a package that was fetched; of another folder nothing is known."""
    path = folder / f"{package}.version"
    return path.read_text(encoding="utf-8").strip() if path.exists() else ""


def laid_out(package: str, folder: pathlib.Path, work: pathlib.Path) -> list[Document]:
    """The documents of a package, each content once, as plain files below the folder `work`."""
    seen, documents = set(), []
    for path in sorted((folder / package).rglob("*")):
        if path.is_symlink() or not path.is_file() or not path.name.endswith(PACKAGES.get(package, USUAL)):
            continue
        content = path.read_bytes()
        if path.suffix == ".gz":
            content = gzip.decompress(content)
        digest = hashlib.sha256(content).digest()
        if digest in seen:
            continue
        seen.add(digest)
        target = pathlib.Path(package) / path.relative_to(folder / package)
        if path.suffix == ".gz":
            target = target.with_suffix("")
        (work / target).parent.mkdir(parents=True, exist_ok=True)
        (work / target).write_bytes(content)
        documents.append(Document(package, str(target), len(content)))
    return documents
