#!/usr/bin/env bash
# Fails if dist/ claims these sources and isn't byte for byte what they build here, if a checksum is wrong, or if the wheel isn't of the
# sources of the Python package and of the library in dist/.
# The static programs are compared if this system has the C library that they were linked with. Needs the kit, and the programs built
# (scripts/build.sh). The status is 77 if there is nothing to compare.
set -euo pipefail
cd -- "$(dirname -- "$0")/.."
static() { # NAME
  local linked library
  linked=$(mktemp) && trap 'rm -f "$linked"' RETURN
  if library=$(scripts/static.sh "$1" "$linked") && grep -qxF "static $library" dist/BUILT; then
    cmp "dist/$1-static" "$linked"
  else
    echo "the static $1 isn't compared, since this system has another C library or no object file is left"
  fi
}

library() {
  local linked
  linked=$(mktemp -d) && trap 'rm -rf "$linked"' RETURN
  scripts/library.sh "$linked" || { [ $? = 77 ] && return; exit 1; }
  cmp dist/librst2pseudoxml.a "$linked/librst2pseudoxml.a" && cmp dist/librst2pseudoxml.so "$linked/librst2pseudoxml.so"
}

(cd dist && sha256sum --quiet --check rst2pseudoxml.sha256)
scripts/wheel.sh --check || [ $? = 77 ]
if ! grep -qx "rst2pseudoxml $(scripts/digest.sh)" dist/BUILT || ! grep -qx "rst-tree $(scripts/digest.sh rst-tree)" dist/BUILT; then
  echo "skipped: dist/ is of older sources; scripts/dist.sh renews it"
  exit 77
elif ! command -v rt >/dev/null; then
  echo "skipped: there is no kit"
  exit 77
elif ! grep -qxF "kit $(rt version)" dist/BUILT; then
  echo "skipped: dist/ was built by another kit than this one"
  exit 77
else
  cmp dist/rst2pseudoxml crates/rst2pseudoxml/out/rst2pseudoxml
  cmp dist/rst-tree crates/rst_tree_program/out/rst_tree_program
  static rst2pseudoxml
  static rst-tree
  library
  echo "dist/ is what these sources build"
fi
