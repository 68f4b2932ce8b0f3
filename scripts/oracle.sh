#!/usr/bin/env bash
# Compares a program with the reference program beside the checkout (../shared/oracle, or the folder in RST_REFERENCE): on its table of
# worked examples, on its small inputs and on 500 generated documents. Fails where they differ; without a reference program nothing
# is compared, and the exit status is 77.
#
#     scripts/oracle.sh [PROGRAM]
#
# PROGRAM is by default the one that scripts/program.sh finds.
set -uo pipefail
top=$(CDPATH='' cd -- "$(dirname -- "$0")/.." && pwd)
program=${1:-}
[ $# -gt 0 ] || program=$("$top/scripts/program.sh") || exit 1
if [ $# -gt 1 ] || ! [ -f "$program" ] || ! [ -x "$program" ]; then
  echo "oracle.sh: $* isn't a program" >&2
  exit 1
fi
program=$(realpath -- "$program")
reference=$(CDPATH='' cd -- "${RST_REFERENCE:-$top/../shared/oracle}" 2>/dev/null && pwd)
if [ -z "$reference" ]; then
  echo "skipped: there is no reference program beside the checkout"
  exit 77
fi
# The generated arguments may name files, so the folder that the programs run in is empty.
folder=$(mktemp -d) && trap 'rm -rf "$folder"' EXIT && cd "$folder" || exit 1
export PYTHONDONTWRITEBYTECODE=1
compare=(python3 "$reference/compare.py" --jobs "$(nproc)")
differ=0
python3 "$reference/rows.py" -- "$program" || differ=1
"${compare[@]}" --folder "$reference/examples" -- "$program" || differ=1
"${compare[@]}" --seeds 1-501 -- "$program" || differ=1
exit $differ
