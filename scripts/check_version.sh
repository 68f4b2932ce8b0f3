#!/usr/bin/env bash
# Fails if the manual page and the first section of the changelog differ in version or date, or rst-tree or the Python package in version.
set -euo pipefail
cd -- "$(dirname -- "$0")/.."
page=$(sed -n 's/^\.TH [^ ]* 1 \([0-9-]*\) "rst2pseudoxml \([0-9.]*\)".*/\2 - \1/p' docs/rst2pseudoxml.1)
newest=$(sed -n 's/^## //p' CHANGELOG.md | head -n 1)
if [ -z "$page" ] || [ "$page" != "$newest" ]; then
  echo "the manual page has version '$page', the changelog '$newest'" >&2
  exit 1
fi
for place in docs/rst-tree.1 crates/rst2pseudoxml_options/src/tree_command.rt; do
  if ! grep -q "rst2pseudoxml ${page%% *}\"\|VERSION: &str = \"${page%% *}\"" "$place"; then
    echo "the manual page has version '$page', $place another" >&2
    exit 1
  fi
done
if ! grep -qx "Version: ${page%% *}" python/METADATA; then
  echo "the manual page has version '$page', python/METADATA another" >&2
  exit 1
fi
echo "version $page"
