#!/usr/bin/env bash
# Tests integrations/, the hook for pre-commit and the action for GitHub with the tools that this machine has: python3, the module yaml,
# pre-commit, Emacs, Flycheck. Prints a line for each that is skipped. The status is 0 if what was run passed,
# 1 if a test failed, 77 if nothing could be run. It leaves nothing in the checkout.
# shellcheck disable=SC2016 # backticks of reStructuredText
set -u
top=$(cd -- "$(dirname -- "$0")/.." && pwd)
here=$top/integrations
folder=$(mktemp -d) && trap 'rm -rf -- "$folder"' EXIT && cd -- "$folder" || exit 1
export PYTHONDONTWRITEBYTECODE=1 PRE_COMMIT_HOME=$folder/kept
if ! "$top/rst2pseudoxml" >out 2>&1 </dev/null; then
  echo "skipped: integrations, as no program runs here: $(tail -n 1 out)"
  exit 77
fi
wrong=0
same() { # NAME WANTED GOT
  [ "$2" = "$3" ] && return
  wrong=$((wrong + 1))
  printf '%s: wanted\n%s\ngot\n%s\n' "$1" "$2" "$3"
}
answer() { # COMMAND ARGUMENT..: the status, and what was printed on both streams
  "$@" >out 2>&1 </dev/null
  echo "$? $(cat out)"
}
shows() { # NAME STATUS LINE COMMAND ARGUMENT..: the line is among those that are printed
  local name=$1 status=$2 line=$3 got
  shift 3
  got=$(answer "$@")
  [ "${got%% *}" = "$status" ] && grep -qxF -e "$line" out && return
  same "$name" "$status .. $line" "$got"
}
succeeds() { # NAME COMMAND ARGUMENT..
  local name=$1 got
  shift
  got=$(answer "$@")
  [ "${got%% *}" = 0 ] || same "$name" 0 "$got"
}
python_with() { # MODULE: a python3 that has it
  local python
  for python in python3 /usr/bin/python3; do
    "$python" -c "import $1" 2>/dev/null && echo "$python" && return
  done
  return 1
}

check_pages() {
  local check=$here/check-pages.sh
  if ! command -v python3 >/dev/null; then
    echo "skipped: the pages, as there is no python3"
    return
  fi
  same 'a good page' '0 ' "$(answer "$check" good.rst)"
  same 'bad pages' "1 a b.rst:$warning
./-x.rst:$warning" "$(answer "$check" -- good.rst 'a b.rst' -x.rst)"
  echo 'raise SystemExit("this is not the module json")' >json.py
  same 'a module in the folder of the pages' '0 ' "$(answer "$check" good.rst)"
  same 'a link to the script' '0 ' "$(ln -s "$check" linked && answer ./linked good.rst)"
  echo ':mod:`email`: mail' >role.rst
  shows 'the wider profile' 1 'role.rst:1: (ERROR/3) Unknown interpreted text role "mod".' "$check" role.rst
  same 'the base profile' '0 ' "$(answer "$check" --profile=base role.rst)"
  rm role.rst
}

check_trees() {
  local check=$here/check-trees.sh
  mkdir trees && cp -- 'a b.rst' good.rst trees
  same 'missing trees' '1 trees/a b.rst: there is no trees/a b.tree; --update writes it
trees/good.rst: there is no trees/good.tree; --update writes it' "$(answer "$check" trees)"
  same 'written trees' $'0 written: trees/a b.tree\nwritten: trees/good.tree' "$(answer "$check" --update trees)"
  same 'equal trees' '0 ' "$(answer "$check" trees)"
  same 'nothing to write' '0 ' "$(answer "$check" --update -- trees)"
  same 'a written tree' "$("$top/rst2pseudoxml" <good.rst)" "$(cat trees/good.tree)"
  echo '*fine*' >trees/good.rst
  same 'a changed tree' '1 --- trees/good.tree
+++ what trees/good.rst is now
@@ -1,3 +1,4 @@
 <document source="<stdin>">
     <paragraph>
-        fine
+        <emphasis>
+            fine' "$(answer "$check" trees)"
  cp deep.rst trees
  same 'no tree of a refused page' $'1 trees/deep.rst: rst2pseudoxml: line 3: nesting too deep\nwritten: trees/good.tree' \
    "$(answer "$check" --update trees)"
  same 'a refused page' '1 trees/deep.rst: rst2pseudoxml: line 3: nesting too deep' "$(answer "$check" trees)"
  same 'the files' 'a b.rst a b.tree deep.rst good.rst good.tree' "$(cd trees && echo *)"
  shows 'help on trees' 0 '    check-trees.sh [--update] [--hand=MODULE] [--] FOLDER' "$check" --help
  same 'no page' '2 check-trees.sh: there is no .rst file in a folder' "$(answer "$check" 'a folder')"
  same 'no folder' '2 check-trees.sh: usage: check-trees.sh [--update] [--hand=MODULE] [--] FOLDER' "$(answer "$check" --update)"
}

check_copies() { # they run the program on the PATH, where those of the checkout run that of the checkout
  mkdir -p copy/of path && cp -- "$here"/check-trees.sh copy/of
  printf '#!/bin/sh\necho rst2pseudoxml: of the PATH >&2\nexit 1\n' >path/rst2pseudoxml
  chmod +x path/rst2pseudoxml
  local PATH=$folder/path:$PATH
  shows 'trees by the PATH' 1 './good.rst: rst2pseudoxml: of the PATH' copy/of/check-trees.sh .
}

check_python() {
  if ! command -v python3 >/dev/null; then
    echo "skipped: the formats and the action, as there is no python3"
    return
  fi
  succeeds 'the formats' python3 "$here/test_formats.py"
  local python
  if python=$(python_with yaml); then
    succeeds 'the action' "$python" "$here/test_action.py"
  else
    echo "skipped: the action, as no python3 here has the module yaml"
  fi
}

check_digests() { # the hook runs nothing where scripts/program.sh finds no program of these sources
  mkdir -p revision/scripts revision/integrations && cp -- "$here/pre-commit.sh" revision/integrations
  printf '#!/bin/sh\necho "$@"\n' | tee revision/scripts/program.sh >revision/integrations/check-pages.sh
  chmod +x revision/*/*.sh
  same 'the hook on these sources' '0 --level=error -- a b' "$(answer revision/integrations/pre-commit.sh --level=error -- 'a b')"
  printf '#!/bin/sh\necho "other sources" >&2\nexit 1\n' >revision/scripts/program.sh
  same 'the hook on other sources' '1 other sources' "$(answer revision/integrations/pre-commit.sh --level=error -- 'a b')"
}

check_hook() { # as it was last committed, since pre-commit runs a clone
  local commit
  if ! command -v pre-commit >/dev/null || ! commit=$(git -C "$top" rev-parse HEAD 2>/dev/null); then
    echo "skipped: the hook, as there is no pre-commit, or the checkout is no git repository"
    return
  fi
  if ! "$top/scripts/program.sh" >/dev/null 2>&1; then
    echo "skipped: the hook, as dist/ isn't of these sources"
    return
  fi
  mkdir pages && cp -- good.rst ./-x.rst pages && cd pages || exit 1
  cat >.pre-commit-config.yaml <<END
repos:
  - repo: "$top"
    rev: $commit
    hooks:
      - id: rst2pseudoxml
END
  git init -q . && git add .
  shows 'the hook on a bad page' 1 "./-x.rst:$warning" pre-commit run --all-files
  git rm -qf -- -x.rst
  succeeds 'the hook on a good page' pre-commit run --all-files
  grep -q 'Passed$' out || same 'the hook ran' 'Passed' "$(cat out)"
  cd ..
}

check_emacs() {
  if ! command -v emacs >/dev/null; then
    echo "skipped: Emacs, as there is none"
    return
  fi
  mkdir home tools && ln -s "$top/rst2pseudoxml" tools
  local tested=(env HOME="$folder/home" PATH="$folder/tools:$PATH" timeout 60 emacs -q --batch -l "$here/test-emacs.el")
  succeeds 'Emacs' "${tested[@]}"
  grep '^skipped: ' out
  ln -s "$here/check-pages.sh" tools/rst-check
  succeeds 'Emacs with rst-check' "${tested[@]}"
}

warning='1: (WARNING/2) Inline emphasis start-string without end-string.'
echo fine >good.rst
echo 'A *word' | tee -- 'a b.rst' ./-x.rst >/dev/null
printf 'text\n\n%sa\n' "$(printf -- '- %.0s' {1..251})" >deep.rst
mkdir 'a folder'
check_pages
check_trees
check_copies
check_python
check_digests
check_hook
check_emacs
echo "integrations: $wrong wrong"
[ "$wrong" = 0 ]
