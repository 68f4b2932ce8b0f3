#!/usr/bin/env bash
# Renews the wheel of the Python package in dist/, with its checksum, from python/ and the library in dist/: scripts/wheel.sh. Its module in C is
# built anew (scripts/extension.sh); where it can't be, the one in dist/ is taken if it is of these sources, else the wheel has none. With --check it
# fails if the module or the wheel isn't what they make. It needs Python 3.9 or later, and no network; the status is 77 if there is none.
set -euo pipefail
cd -- "$(dirname -- "$0")/.."
if ! python3 -c 'import sys; sys.exit(sys.version_info < (3, 9))' 2>/dev/null; then
  echo "skipped: the wheel, as there is no Python 3.9 or later"
  exit 77
fi
made=$(mktemp -d) && trap 'rm -rf "$made"' EXIT
module=_records.abi3.so
built=$(scripts/extension.sh "$made") || [ $? = 77 ]
is_current() { grep -q "^extension $(scripts/extension.sh --digest) " dist/BUILT; }
case ${1-} in
  --check)
    if [ -e dist/$module ] && ! is_current; then
      echo "dist/$module is of older sources; scripts/wheel.sh renews it" >&2
      exit 1
    fi
    ! grep -qxF "${built:-none}" dist/BUILT || cmp dist/$module "$made/$module"
    wheel=$(python3 -B python/backend.py "$made")
    if ! cmp "dist/$wheel" "$made/$wheel"; then
      echo "dist/ has no wheel of these sources; scripts/wheel.sh renews it" >&2
      exit 1
    fi
    ;;
  '')
    if [ -n "$built" ]; then
      cp "$made/$module" dist
      sed -i '/^extension /d' dist/BUILT
      echo "$built" >>dist/BUILT
    elif ! is_current; then
      rm -f dist/$module
      sed -i '/^extension /d' dist/BUILT
    fi
    wheel=$(python3 -B python/backend.py "$made")
    rm -f dist/*.whl
    cp "$made/$wheel" dist
    sed -i "/\.whl$/d; / $module$/d" dist/rst2pseudoxml.sha256
    (cd dist && for name in "$wheel" $module; do [ ! -e "$name" ] || sha256sum "$name"; done >>rst2pseudoxml.sha256)
    ;;
  *) echo "usage: scripts/wheel.sh [--check]" >&2 && exit 2 ;;
esac
