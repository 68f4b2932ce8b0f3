#!/usr/bin/env bash
# Proves and builds both programs, unless that is done already, and notes beside each which sources it is of. Progress goes to standard error.
set -euo pipefail
[ $# = 0 ] || { echo "build.sh takes no arguments" >&2 && exit 2; }
cd -- "$(dirname -- "$0")/.."
log=$(mktemp) && trap 'rm -f "$log"' EXIT
for name in rst2pseudoxml rst-tree; do
  . scripts/names.sh
  program=crates/$crate/out/$crate
  if [[ "$(scripts/program.sh "$name" 2>/dev/null)" == */"$program" ]]; then
    continue
  fi
  sources=$(scripts/digest.sh "$name")
  echo "$name: proving and building the program: about an hour the first time (\`rt try\` in crates/$crate runs it without proofs)" >&2
  rm -f "$program.sources"
  if ! (cd "crates/$crate" && rt run </dev/null 2>&1 >/dev/null | tee "$log" | { grep --line-buffered '^rt:' || true; }) >&2; then
    grep -v '^statements ' "$log" >&2
    exit 1
  fi
  if [ "$(scripts/digest.sh "$name")" != "$sources" ]; then
    echo "$name: a source changed while the program was built; it may be of either" >&2
    exit 1
  fi
  echo "$sources" >"$program.sources"
done
