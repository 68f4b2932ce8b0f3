#!/usr/bin/env bash
# Tests the library for C: scripts/check_library.sh [FOLDER]. FOLDER has librst2pseudoxml.a and librst2pseudoxml.so; without it those in dist/ are
# taken. library.c is compiled against the header, once for each of the two, and what it prints is compared with the program's output, on
# all worked rows and on mutated pages (scripts/library.py). The example of the README has to print what it shows. Calls run at once in
# several threads, each allocation fails in turn, and valgrind looks for wrong reads and writes, if it is there. The status is 77 without a C
# compiler, without Python, or if dist/ has no library of these sources.
# shellcheck disable=SC2016 # backticks of Markdown
set -euo pipefail
cd -- "$(dirname -- "$0")/.."
folder=${1-dist}
skip() { echo "skipped: $1" && exit 77; }
if [ $# = 0 ] && ! grep -qxs "library $(scripts/digest.sh library)" dist/BUILT; then
  skip "dist/ has no library of these sources"
fi
compiler=$(command -v "${CC:-cc}") || skip "there is no C compiler"
command -v python3 >/dev/null || skip "there is no python3"
folder=$(cd -- "$folder" && pwd)
work=$(mktemp -d) && trap 'rm -rf "$work"' EXIT
ln -s "$folder/librst2pseudoxml.so" "$work/librst2pseudoxml.so.1"
compile() { "$compiler" -std=c11 -Wall -Wextra -Wpedantic -Werror -O1 -g -Iinclude scripts/library.c -pthread "$@"; }
compile -o "$work/shared" "$folder/librst2pseudoxml.so" -Wl,-rpath,"$work"
compile -o "$work/static" -DCOUNTED "$folder/librst2pseudoxml.a" -Wl,--wrap=malloc,--wrap=realloc,--wrap=free
sed -n '/^```c$/,/^```$/p' README.md | sed '1d;$d' >"$work/hello.c"
"$compiler" -Iinclude "$work/hello.c" "$folder/librst2pseudoxml.a" -o "$work/hello"
sed -n '/^`cc -Iinclude hello.c/,/^`make install`/p' README.md | sed -n '/^```$/,/^```$/p' | sed '1d;$d' | diff - <("$work/hello")
"$work/static" allocations <docs/profile/explicit.md
"$work/shared" threads
python3 scripts/library.py "$work/shared" "$work/static"
if command -v valgrind >/dev/null; then
  for call in print json records messages parse parse_records; do
    valgrind -q --error-exitcode=99 --leak-check=full --errors-for-leak-kinds=all "$work/shared" "$call" 1 5 5 8 10000 0 0 0 x <docs/INTEGRATIONS.md >/dev/null 2>"$work/errors" ||
      { cat "$work/errors" && exit 1; }
  done
  valgrind -q --error-exitcode=99 --tool=helgrind "$work/shared" threads
  echo "valgrind: no wrong read or write, no leak, no race"
fi
