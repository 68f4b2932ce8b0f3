#!/usr/bin/env bash
# Builds the library for C over the libraries that `rt ci` left in crates/*/out, and writes librst2pseudoxml.a and librst2pseudoxml.so to FOLDER:
# scripts/library.sh FOLDER. Its crate is proved once more (some minutes); `rt lib` would do that for all crates. The status is 77 if a library
# is missing. Only the kit's tools are used, so the same sources give the same bytes everywhere.
set -euo pipefail
cd -- "$(dirname -- "$0")/.."
case ${1-} in
'' | -*) echo "usage: scripts/library.sh FOLDER" >&2 && exit 2 ;;
esac
mkdir -p -- "$1"
folder=$(cd -- "$1" && pwd)
kit=$(dirname -- "$(rt doc)")
work=$(mktemp -d) && trap 'rm -rf "$work"' EXIT
given=(-L "dependency=$kit/rlibs")
for found in "$PWD"/crates/*/out/rlib; do
  given+=(-L "dependency=$found")
done
for name in std $(sed -n 's/^rst_c staticlib: //p' crates.txt); do
  for found in "$PWD/crates/$name/out/rlib/$name.rlib" "$kit/rlibs/$name.rlib"; do
    [ ! -d "$found" ] || break
  done
  [ -d "$found" ] || { echo "skipped: there is no library $name; rt ci builds it" >&2 && exit 77; }
  given+=(--extern "$name=$found")
done
archive=$work/librst_c.a
if ! (cd crates/rst_c && "$kit/bin/rattle" build --crate-name rst_c src/lib.rt --crate-type staticlib "${given[@]}" --toolchain "$kit/toolchain" \
  --antt-project "$kit/rattle/logic/antt-project.json" --logic-built "$kit/logic_built" -o "$archive") >"$work/log" 2>&1; then
  grep -v '^statements ' "$work/log" >&2
  exit 1
fi
# What the library needs of the C library, the kit calls by the functions of this archive.
heap=$kit/c/liblibc_c.a
printf 'create %s\naddlib %s\naddlib %s\nsave\nend\n' "$folder/librst2pseudoxml.a" "$archive" "$heap" | "$kit/toolchain/bin/llvm-ar" -M
echo '{ global: rst_*; local: *; };' >"$work/exports"
"$kit/toolchain/bin/ld.lld" -shared -soname librst2pseudoxml.so.1 --version-script "$work/exports" -z relro -z now -z noexecstack -z defs --gc-sections \
  --build-id=sha1 --threads=1 --strip-all -o "$folder/librst2pseudoxml.so" --whole-archive "$archive" --no-whole-archive "$heap" "$kit/toolchain/lib/libc.so.6"
