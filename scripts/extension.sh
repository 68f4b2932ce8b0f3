#!/usr/bin/env bash
# Builds the module in C of the Python package, and writes _records.abi3.so to FOLDER: scripts/extension.sh FOLDER. It prints the line for it in
# dist/BUILT: the digest of its sources and what built it, which gives the same bytes everywhere. With --digest it only prints the digest. One
# file serves CPython 3.9 and later. The status is 77 if there is no C compiler or no Python.h. CC and PYTHON name others than cc and python3.
set -euo pipefail
cd -- "$(dirname -- "$0")/.."
source=python/src/rst2pseudoxml/_records.c header=include/rst2pseudoxml.h
digest=$(cat "$source" "$header" | sha256sum | cut -d ' ' -f 1)
skip() { echo "skipped: the Python package's module in C, as there is no $1" >&2 && exit 77; }
case ${1-} in
  --digest) echo "$digest" && exit ;;
  '' | -*) echo "usage: scripts/extension.sh FOLDER|--digest" >&2 && exit 2 ;;
esac
compiler=$(command -v "${CC:-cc}") || skip "C compiler"
python=$(command -v "${PYTHON:-python3}") || skip "Python"
headers=$("$python" -c 'import sysconfig; print(sysconfig.get_path("include"))')
[ -e "$headers/Python.h" ] || skip "Python.h"
mkdir -p -- "$1"
"$compiler" -std=c11 -Wall -Wextra -Werror -O2 -fPIC -shared -s -Wl,--build-id=none,-z,relro,-z,now -Iinclude -isystem "$headers" "$source" \
  -o "$1/_records.abi3.so"
version=$(sed -n 's/^#define PY_VERSION *"\(.*\)"/\1/p' "$headers/patchlevel.h")
echo "extension $digest $("$compiler" --version | head -n 1), Python.h $version"
