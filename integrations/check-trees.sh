#!/bin/sh
# Compares the tree of each X.rst in a folder with the file X.tree beside it, and shows the differences.
#
#     check-trees.sh [--update] [--hand=MODULE] [--] FOLDER
#     check-trees.sh --help
#
# With --update it writes the trees instead. The status is 0 if all trees are as they were (or written), 1 if one isn't, is
# missing, or can't be made, 2 if nothing was compared. A page is read by standard input, so its source is `<stdin>` on every
# machine. With --hand=MODULE the directives and roles of an extension of Docutils stand in the trees as it makes them: Python 3.9 or later
# with Docutils reads the pages by the wider profile, and imports MODULE, which registers them, from the current folder or where Python looks
# for modules. Else they are unknown. The program is that of the checkout that this script is in; a copy of the script runs the
# `rst2pseudoxml` on the PATH.
set -u

refuse() { # LINE
  printf 'check-trees.sh: %s\n' "$1" >&2
  exit 2
}

write_tree() { # TREE: by a file beside it, so that it is never half written
  if cp -- "$made/tree" "$1.new" && mv -fT -- "$1.new" "$1"; then
    printf 'written: %s\n' "$1"
  else
    rm -f -- "$1.new"
    return 1
  fi
}

print_tree() {
  if [ -z "$hand" ]; then
    "$program" --verbose --halt=none
  else
    python3 -c 'import sys; sys.path[0] = sys.argv.pop(1); from rst2pseudoxml.trees import main; sys.exit(main())' "$here/../python/src" "$hand"
  fi
}

check_tree() { # PAGE
  tree=${1%.rst}.tree
  print_tree >"$made/tree" 2>"$made/said" <"$1"
  status=$?
  if [ "$status" != 0 ]; then
    printf '%s: ' "$1" # the program's line names no file, and there is none where the program was killed
    [ -s "$made/said" ] || printf 'rst2pseudoxml: ended with status %d\n' "$status"
    cat -- "$made/said"
    return 1
  fi
  if [ "$update" = yes ]; then
    cmp -s -- "$tree" "$made/tree" || write_tree "$tree"
  elif [ -e "$tree" ]; then
    diff -au -L "$tree" -L "what $1 is now" -- "$tree" "$made/tree"
  else
    printf '%s: there is no %s; --update writes it\n' "$1" "$tree"
    return 1
  fi
}

update=no
hand=
if [ "${1-}" = --help ]; then # prints the text above
  sed -n '2,/^set /{/^set /d;s/^# \{0,1\}//;p}' "$0"
  exit
fi
while :; do
  case ${1-} in
    --update) update=yes ;;
    --hand=?*) hand=${1#--hand=} ;;
    *) break ;;
  esac
  shift
done
[ "${1-}" = -- ] && shift
[ $# = 1 ] || refuse "usage: check-trees.sh [--update] [--hand=MODULE] [--] FOLDER"
case $1 in -*) folder=./$1 ;; *) folder=$1 ;; esac
set -- "$folder"/*.rst
[ -e "$1" ] || [ -h "$1" ] || refuse "there is no .rst file in ${folder#./}"
here=$(dirname -- "$(readlink -f -- "$0")")
beside=$here/../rst2pseudoxml
if [ -f "$beside" ]; then
  program=$(RST2PSEUDOXML_PATH=print "$beside") || exit 2
else
  program=rst2pseudoxml
fi
command -v -- "$program" >/dev/null || refuse "there is no program $program"
made=$(mktemp -d) && trap 'rm -rf -- "$made"' EXIT || exit 2
failed=0
for page; do
  check_tree "$page" || failed=1
done
exit $failed
