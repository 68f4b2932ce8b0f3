#!/bin/sh
# Prints the digest of the sources that a build of a program, or of the library, depends on: scripts/digest.sh [NAME], where NAME is
# rst2pseudoxml, rst-tree or library. They are those of its crate and of the crates that it uses by crates.txt, with their lines there. Other
# crates (those of tests) don't count, nor do comments in crates.txt and the modules that main.rt, or lib.rt, compiles under test alone.
set -eu
cd -- "$(dirname -- "$0")/.."
name=${1-}
. scripts/names.sh
src=crates/$crate/src

# The lines of crates.txt for that crate and all that it uses, each once, in the order in which they are needed.
lines=$(awk -v crate="$crate" '
  function need(name,    count, i, below) {
    if (!(name in line)) return
    print line[name]
    delete line[name]
    count = split(libraries[name], below, " ")
    for (i = 1; i <= count; i++) need(below[i])
  }
  { sub(/#.*/, ""); $1 = $1 }
  /:/ {
    name = $1
    sub(/:.*/, "", name)
    line[name] = $0
    libraries[name] = substr($0, index($0, ":") + 1)
  }
  END { need(crate) }
' crates.txt)
set --
for used in $(printf '%s\n' "$lines" | sed 's/[: ].*//'); do
  if [ ! -d "crates/$used/src" ]; then
    echo "$name: crates.txt names $used, and there is no folder crates/$used/src" >&2
    exit 1
  fi
  set -- "$@" "crates/$used/src"
done

# $root is taken without the two lines that name a module of tests.
set -- "$@" -type f ! -path "$src/$root"
for module in $(sed -n '/^#\[cfg(test)\]$/{n;s/^mod \([a-z0-9_]*\);$/\1/p;}' "$src/$root"); do
  set -- "$@" ! -path "$src/$module.rt" ! -path "$src/$module/*"
done
{
  printf '%s\n' "$lines" | sha256sum
  sed '/^#\[cfg(test)\]$/{N;/\nmod [a-z0-9_]*;$/d;}' "$src/$root" | sha256sum
  find -L "$@" -print0 | LC_ALL=C sort -z | xargs -0 sha256sum
} | sha256sum | cut -d ' ' -f 1
