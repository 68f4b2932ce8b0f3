#!/bin/sh
# The hook for pre-commit: runs check-pages.sh, if the program in dist/ is of the sources of this revision.
top=$(dirname -- "$(dirname -- "$(readlink -f -- "$0")")")
"$top/scripts/program.sh" >/dev/null && exec "$top/integrations/check-pages.sh" "$@"
