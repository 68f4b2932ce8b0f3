#!/bin/sh
# Prints the path of a program of these sources: scripts/program.sh [--static] [NAME], where NAME is rst2pseudoxml, if not given, or rst-tree. It is
# the one that was built here or, if there is none, the first of the shipped ones that runs here. With --static the shipped static
# program comes first. If there is none, one line on standard error says why, and the status is 1.
# shellcheck disable=SC3013 # POSIX has -nt since 2024
set -eu
top=$(CDPATH='' cd -- "$(dirname -- "$0")/.." && pwd)
static=''
[ "${1-}" != --static ] || { static=yes && shift; }
name=${1-}
. "$top/scripts/names.sh"
sources=$("$top/scripts/digest.sh" "$name")
built=$top/crates/$crate/out/$crate
shipped=$top/dist/$name

# The note beside a program that was built here has the digest of its sources. A program that is newer than its note was built later,
# perhaps from others.
is_of_these() { # PROGRAM
  if [ "$1" = "$built" ]; then
    [ -x "$built" ] && ! [ "$built" -nt "$built.sources" ] && [ "$(cat "$built.sources" 2>/dev/null)" = "$sources" ]
  else
    [ -z "$fault" ] && "$1" </dev/null >/dev/null 2>&1
  fi
}

fault=''
if ! grep -qxs "$name $sources" "$top/dist/BUILT"; then
  fault="nothing has been built from these sources, and dist/ is of others; \`rt try\` in crates/$crate runs these without \
proofs (about two minutes), scripts/build.sh proves and builds them (about an hour the first time)"
elif ! (cd -- "$top/dist" && sha256sum -c rst2pseudoxml.sha256) >/dev/null 2>&1; then
  fault="the programs in dist/ don't have the checksums in dist/rst2pseudoxml.sha256, and nothing was built here"
fi
if [ -n "$static" ]; then
  set -- "$shipped-static" "$built" "$shipped"
else
  set -- "$built" "$shipped" "$shipped-static"
fi
for program in "$@"; do
  if is_of_these "$program"; then
    echo "$program"
    exit
  fi
done
echo "$name: ${fault:-no program in dist/ runs here; they are for $(sed -n 's/^system //p' "$top/dist/BUILT")}" >&2
exit 1
