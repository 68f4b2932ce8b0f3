#!/bin/sh
# Checks reStructuredText pages: runs rst-check of the Python package beside this script; --help describes it. It needs Python 3.9.
here=$(dirname -- "$(readlink -f -- "$0")")
exec python3 -c 'import sys; sys.path[0] = sys.argv.pop(1); from rst2pseudoxml.check import main; sys.exit(main())' "$here/../python/src" "$@"
