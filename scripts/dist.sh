#!/usr/bin/env bash
# Renews the shipped programs, the library and the wheel in dist/ from these sources, after `rt ci`. Without a static C library the static
# program is left out.
# The dynamic ones keep their symbols (46 KB): the kit links it with them and has no `strip`, and the version of another `strip` would decide
# the bytes that check_dist.sh compares.
set -euo pipefail
[ $# = 0 ] || { echo "dist.sh takes no arguments" >&2 && exit 2; }
cd -- "$(dirname -- "$0")/.."
scripts/build.sh
mkdir -p dist
for name in rst2pseudoxml rst-tree; do
  . scripts/names.sh
  cp "crates/$crate/out/$crate" "dist/$name"
  rm -f "dist/$name-static"
  library=$(scripts/static.sh "$name" "dist/$name-static") || [ $? = 77 ]
done
scripts/library.sh dist
(cd dist && sha256sum rst2pseudoxml* rst-tree* librst2pseudoxml* | grep -v sha256 >rst2pseudoxml.sha256)
extension=$(grep '^extension ' dist/BUILT) || true
{
  for name in rst2pseudoxml rst-tree library; do
    echo "$name $(scripts/digest.sh "$name")"
  done
  echo "kit $(rt version)"
  echo "system x86-64 Linux with glibc 2.34 or later, on a processor of x86-64-v2 (with SSE4.2)"
  [ -z "$library" ] || echo "static $library"
  [ -z "$extension" ] || echo "$extension"
} >dist/BUILT
scripts/wheel.sh
