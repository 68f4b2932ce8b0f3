"""Builds the package with the standard library alone: the hooks that pip calls, and `python3 backend.py FOLDER`, which makes the wheel.

The same sources, library and module in C give the same bytes on every machine: times are fixed, names are sorted, and the wheel isn't
compressed, since versions of zlib differ. The module in C (scripts/extension.sh) is left out where it wasn't built, and by a Python that can't
load it.
"""

from __future__ import annotations

import gzip
import io
import sys
import sysconfig
import tarfile
import zipfile
from base64 import urlsafe_b64encode
from hashlib import sha256
from pathlib import Path

HERE = Path(__file__).resolve().parent
SOURCES = HERE / "src"
PACKAGE = SOURCES / "rst2pseudoxml"
KINDS = {".py", ".pyi", ".typed", ".txt", ".html", ".css", ".js"}
METADATA = (HERE / "METADATA").read_text("utf-8")
NAME, VERSION = (METADATA.split(f"\n{field}: ")[1].partition("\n")[0] for field in ("Name", "Version"))
INFO = f"{NAME}-{VERSION}.dist-info"
LIBRARY, MODULE = "librst2pseudoxml.so", "_records.abi3.so"
SYSTEM = "manylinux2014_x86_64"  # glibc 2.17
LOADS_MODULE = sys.implementation.name == "cpython" and not sysconfig.get_config_var("Py_GIL_DISABLED")
COMMANDS = """\
[console_scripts]
rst-check = rst2pseudoxml.check:main
rst-lsp = rst2pseudoxml.lsp:main
rst-view = rst2pseudoxml.view:main
"""


def package() -> dict[str, bytes]:
    """The files of the package by their names, with the library and the module in C."""
    files = {path.relative_to(SOURCES).as_posix(): path.read_bytes() for path in PACKAGE.rglob("*") if path.suffix in KINDS}
    built = PACKAGE if (PACKAGE / LIBRARY).exists() else HERE.parent / "dist"  # those in an archive of the sources, or in a checkout
    files[f"{NAME}/{LIBRARY}"] = (built / LIBRARY).read_bytes()
    if LOADS_MODULE and (built / MODULE).exists():
        files[f"{NAME}/{MODULE}"] = (built / MODULE).read_bytes()
    return files


def metadata() -> bytes:
    return f"{METADATA}\n{(HERE / 'README.md').read_text('utf-8')}".encode()


def wheel(folder: str, files: dict[str, bytes]) -> str:
    """Writes a wheel with these files; its name."""
    tag = f"cp39-abi3-{SYSTEM}" if f"{NAME}/{MODULE}" in files else f"py3-none-{SYSTEM}"
    about = f"Wheel-Version: 1.0\nGenerator: {NAME}\nRoot-Is-Purelib: false\nTag: {tag}\n"
    entries = dict(sorted(files.items()))
    entries.update({f"{INFO}/METADATA": metadata(), f"{INFO}/WHEEL": about.encode(), f"{INFO}/entry_points.txt": COMMANDS.encode()})
    record = [f"{name},sha256={digest(data)},{len(data)}\n" for name, data in entries.items()]
    entries[f"{INFO}/RECORD"] = "".join([*record, f"{INFO}/RECORD,,\n"]).encode()
    name = f"{NAME}-{VERSION}-{tag}.whl"
    with zipfile.ZipFile(Path(folder, name), "w") as archive:
        for path, data in entries.items():
            entry = zipfile.ZipInfo(path)  # of 1980, not compressed
            entry.create_system, entry.external_attr = 3, 0o100644 << 16
            archive.writestr(entry, data)
    return name


def digest(data: bytes) -> str:
    return urlsafe_b64encode(sha256(data).digest()).rstrip(b"=").decode()


def build_wheel(wheel_directory: str, config_settings: object = None, metadata_directory: object = None) -> str:
    return wheel(wheel_directory, package())


def build_editable(wheel_directory: str, config_settings: object = None, metadata_directory: object = None) -> str:
    return wheel(wheel_directory, {f"{NAME}.pth": f"{SOURCES}\n".encode()})


def build_sdist(sdist_directory: str, config_settings: object = None) -> str:
    """Writes an archive of what `build_wheel` needs; its name."""
    files = {f"src/{path}": data for path, data in package().items()}
    files.update({name: (HERE / name).read_bytes() for name in ("METADATA", "README.md", "backend.py", "pyproject.toml")})
    files["PKG-INFO"] = metadata()
    name = f"{NAME}-{VERSION}.tar.gz"
    whole = io.BytesIO()
    with tarfile.open(fileobj=whole, mode="w") as archive:
        for path, data in sorted(files.items()):
            entry = tarfile.TarInfo(f"{NAME}-{VERSION}/{path}")
            entry.size = len(data)
            archive.addfile(entry, io.BytesIO(data))
    Path(sdist_directory, name).write_bytes(gzip.compress(whole.getvalue(), mtime=0))
    return name


if __name__ == "__main__":
    if len(sys.argv) != 2:
        sys.exit("usage: python3 backend.py FOLDER")
    print(build_wheel(sys.argv[1]))
