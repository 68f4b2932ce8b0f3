#!/usr/bin/env bash
# Tests make install: installs into a folder of its own, runs what is there, looks at the manual page, tries the completions, and
# uninstalls, with the usual names and with others; and make dist. Prints a line for each shell that is missing, and for Python.
# shellcheck disable=SC2016 # backticks of reStructuredText
set -u
unset MAKEFLAGS MAKELEVEL
export PYTHONDONTWRITEBYTECODE=1
top=$(cd -- "$(dirname -- "$0")/.." && pwd)
if ! command -v make >/dev/null; then
  echo "skipped: there is no make"
  exit 77
fi
folder=$(mktemp -d) && trap 'rm -rf "$folder"' EXIT && cd "$folder" || exit 1
wrong=0
same() { # NAME WANTED GOT
  [ "$2" = "$3" ] && return
  wrong=$((wrong + 1))
  printf '%s: wanted\n%s\ngot\n%s\n' "$1" "$2" "$3"
}
target="$folder/a root"
installed=$target/opt/rst
of_make() { # TARGET
  make -s -C "$top" "$1" DESTDIR="$target" PREFIX=/opt/rst 2>&1 || echo "status $?"
}
files() {
  (cd "$target" && find . -type f | LC_ALL=C sort)
}

names() { # PROGRAM: what is installed by other names than in the checkout
  printf './opt/rst/%s\n' "bin/$1" bin/rst-check bin/rst-lsp bin/rst-tree bin/rst-view {"share/bash-completion/completions/$1","share/fish/vendor_completions.d/$1.fish","share/man/man1/$1.1"} \
    share/bash-completion/completions/rst-tree share/fish/vendor_completions.d/rst-tree.fish share/man/man1/rst-tree.1 "share/zsh/site-functions/_$1"
}
pages=$(cd "$top/docs" && printf './opt/rst/share/doc/rst2pseudoxml/%s\n' DOCUTILS.md INTEGRATIONS.md LIBRARY.md PROFILE.md profile/*)
library=''
if grep -qxs "library $("$top/scripts/digest.sh" library)" "$top/dist/BUILT"; then
  library=$(printf './opt/rst/%s\n' include/rst2pseudoxml.h lib/librst2pseudoxml.a lib/librst2pseudoxml.so.1 lib/pkgconfig/rst2pseudoxml.pc)
else
  echo "skipped: the library for C, as dist/ has none of these sources"
fi
integrations=$(cd "$top/integrations" && printf './opt/rst/share/rst2pseudoxml/%s\n' check-*.sh flycheck* *.json)
package=$(cd "$top/python/src" && printf './opt/rst/share/rst2pseudoxml/python/%s\n' rst2pseudoxml/librst2pseudoxml.so $(find rst2pseudoxml -type f ! -name '*.pyc' ! -name '*.c'))
[ ! -e "$top/dist/_records.abi3.so" ] || package+=$'\n./opt/rst/share/rst2pseudoxml/python/rst2pseudoxml/_records.abi3.so'
all() { printf '%s\n' "$(names "$1")" "$pages" "$integrations" "$package" ${library:+"$library"} | LC_ALL=C sort; }
hello=$'<document source="<stdin>">\n    <paragraph>\n        Hello'

same 'make install' '' "$(of_make install)"
same 'what is installed' "$(all rst2pseudoxml)" "$(files)"
same 'the program' "$hello" "$(printf 'Hello' | "$installed/bin/rst2pseudoxml" 2>&1)"
same 'rst-tree' '["document",0,{},["paragraph",1,{},"Hello"]]' "$(printf 'Hello' | "$installed/bin/rst-tree" --format=json 2>&1)"
same 'who may read' '' "$(find "$target" -type f ! -perm -a+r)"
same 'what runs' "bin/rst-check bin/rst-lsp bin/rst-tree bin/rst-view bin/rst2pseudoxml ${library:+lib/librst2pseudoxml.so.1 }share/rst2pseudoxml/check-pages.sh share/rst2pseudoxml/check-trees.sh" \
  "$(cd "$installed" && find . -type f -perm -a+x | LC_ALL=C sort | sed 's|./||' | paste -sd ' ')"
if [ -n "$library" ] && command -v cc >/dev/null && command -v pkg-config >/dev/null; then
  same 'make install-library' '' "$(make -s -C "$top" install-library DESTDIR= PREFIX="$folder/c" 2>&1)"
  printf '#include <rst2pseudoxml.h>\nint main(void) { return rst_abi_version() != RST_ABI_VERSION; }\n' >version.c
  # shellcheck disable=SC2046 # arguments of the compiler
  same 'a program with the library' 'status 0' \
    "$(cc version.c $(PKG_CONFIG_PATH=$folder/c/lib/pkgconfig pkg-config --cflags --libs rst2pseudoxml) 2>&1; LD_LIBRARY_PATH=$folder/c/lib ./a.out; echo "status $?")"
fi
if command -v man >/dev/null; then
  same 'the manual page' 'rst2pseudoxml - print the document tree of reStructuredText as pseudo-XML' \
    "$(MANWIDTH=100 man -l "$installed/share/man/man1/rst2pseudoxml.1" 2>&1 | sed -n 's/^ *\(rst2pseudoxml - .*\)/\1/p')"
  same 'the manual page of rst-tree' 'rst-tree - print the document tree of reStructuredText as pseudo-XML or JSON' \
    "$(MANWIDTH=100 man -l "$installed/share/man/man1/rst-tree.1" 2>&1 | sed -n 's/^ *\(rst-tree - .*\)/\1/p')"
fi

# The completions of a line's arguments, of which the last is completed, one after the other.
# shellcheck source=/dev/null
. "$installed/share/bash-completion/completions/rst2pseudoxml"
mkdir documents documents/part
touch 'documents/a page.rst' documents/notes.txt documents/tool.py
command=rst2pseudoxml
completed() { # WORD..
  COMP_WORDS=("$command" "$@")
  COMP_CWORD=$#
  _rst2pseudoxml "$command"
  (IFS='|' && echo "${COMPREPLY[*]}")
}
levels='info|warning|error|severe|none|1|2|3|4|5'
same 'options' '--halt=' "$(completed --ha)"
same 'all options' '-r|-v|-q|--report=|--verbose|--quiet|--halt=|--strict|--exit-status=|--no-doc-title|--no-doc-info|--tab-width=|--line-length-limit=' "$(completed -)"
same 'options that are given' '--no-doc-title' "$(completed --no-doc-info --no)"
same 'levels' "$levels" "$(completed --halt '')"
same 'levels of -r' "$levels" "$(completed -r '')"
same 'levels after =' "$levels" "$(completed --exit-status =)"
same 'a level after =' 'warning' "$(completed --report = w)"
same 'a level after = in one word' '--report=severe' "$(completed --report=s)"
same 'numbers' '' "$(completed --tab-width = '')"
same 'documents' 'documents/a page.rst|documents/notes.txt|documents/part' "$(completed --strict documents/)"
same 'another file' 'documents/tool.py' "$(completed documents/to)"
same 'after the options' '' "$(completed -- --ha)"
page=$top/docs/profile/options.md
options_of() { sed -n 's/^| \(`-[^|]*\)|.*/\1/p' | grep -o -- '--*[a-zA-Z][a-z-]*' | sort; }
documented=$(sed '/^## The options of rst-tree/q' "$page" | options_of)
of_tree=$(options_of <"$page")
same 'the options of the page' "$documented" "$(completed - | tr '|' '\n' | tr -d = | sort)"
command=rst-tree
same 'the options of rst-tree' "$of_tree" "$(completed - | tr '|' '\n' | tr -d = | sort)"
same 'formats' 'pseudoxml|json' "$(completed --format = '')"
same 'a profile' '--profile=base' "$(completed --profile=b)"

# zsh and fish.
if command -v zsh >/dev/null; then
  same 'zsh' '' "$(zsh -fc "fpath=('$installed/share/zsh/site-functions' \$fpath); autoload -U compinit && compinit -D -u && autoload +X _rst2pseudoxml" 2>&1)"
  same 'the options in zsh' "$of_tree" "$(grep -o '[{"(,]-[a-zA-Z]*[+,}=]\|--[a-z-]*[=[}]' "$installed/share/zsh/site-functions/_rst2pseudoxml" | tr -d '{}"(,+=[' | sort -u)"
else
  echo "skipped: the completion of zsh, as there is none"
fi
if command -v fish >/dev/null; then
  same 'fish' "$(tr ' ' '\n' <<<"$documented" | grep -- -- | sort)" \
    "$(HOME=$folder fish -c "set fish_complete_path $(printf %q "$installed")/share/fish/vendor_completions.d; complete -C 'rst2pseudoxml --'" 2>&1 | sed 's/[=[:space:]].*//' | sort)"
  same 'fish, rst-tree' "$(grep -- -- <<<"$of_tree")" \
    "$(HOME=$folder fish -c "set fish_complete_path $(printf %q "$installed")/share/fish/vendor_completions.d; complete -C 'rst-tree --'" 2>&1 | sed 's/[=[:space:]].*//' | sort)"
else
  echo "skipped: the completion of fish, as there is none"
fi

same 'a folder from here' '' "$(cd "$top" && make -s install DESTDIR="$(realpath --relative-to="$top" "$target")" PREFIX=/opt/rst 2>&1)"
same 'make uninstall' '' "$(of_make uninstall)"
same 'what is left' '' "$(files)"

# Another name: what is installed runs the program of that name, wherever the PATH leads.
of_make() { # TARGET
  make -s -C "$top" "$1" DESTDIR= PREFIX="$installed" PROGRAM=rst-xml MANPAGE=xml.1 2>&1 || echo "status $?"
}
same 'make install, another name' '' "$(of_make install)"
same 'what is installed, another name' "$(all rst-xml | sed 's|man1/rst-xml|man1/xml|' | LC_ALL=C sort)" "$(files)"
same 'the program, another name' "$hello" "$(printf 'Hello' | "$installed/bin/rst-xml" 2>&1)"
printf 'A *word\n' >page.rst
warning='page.rst:1: (WARNING/2) Inline emphasis start-string without end-string.'
printf ':ref:`a`\n' >known.rst
if command -v python3 >/dev/null; then
  same 'rst-check' "$warning"$'\nstatus 1' "$("$installed/bin/rst-check" page.rst 2>&1; echo "status $?")"
  same 'rst-view' 'Inline emphasis start-string without end-string.' \
    "$("$installed/bin/rst-view" -o view.html page.rst 2>&1; grep -o 'Inline emphasis start-string without end-string\.' view.html | sort -u)"
  same 'check-pages.sh' "$warning"$'\nstatus 1' "$("$installed/share/rst2pseudoxml/check-pages.sh" page.rst 2>&1; echo "status $?")"
  same 'the names of Sphinx' '' "$("$installed/share/rst2pseudoxml/check-pages.sh" --known=@sphinx-names.txt known.rst 2>&1)"
  same 'the Python package' "$hello" "$(PYTHONPATH=$installed/share/rst2pseudoxml/python python3 -c 'import rst2pseudoxml; print(rst2pseudoxml.pseudoxml("Hello"), end="")' 2>&1)"
else
  echo "skipped: rst-check, rst-view, check-pages.sh and the Python package, without python3"
fi
rm known.rst
same 'check-trees.sh' $'written: ./page.tree\nstatus 0' "$("$installed/share/rst2pseudoxml/check-trees.sh" --update . 2>&1; echo "status $?")"
same 'the command of Flycheck and of VS Code' "\"$installed/bin/rst-check\" \"$installed/bin/rst-check\"" \
  "$(cd "$installed/share/rst2pseudoxml" && grep -ho '"[^"]*rst-check"' flycheck-rst2pseudoxml.el vscode-tasks.json | paste -sd ' ')"
same 'the name in completions' '1 1 1' "$(cd "$installed/share" && grep -ch -- ' rst-xml\( \|$\)' bash-completion/completions/rst-xml zsh/site-functions/_rst-xml fish/vendor_completions.d/rst-xml.fish | paste -sd ' ')"
same 'the name in the page' '0' "$(cat "$installed"/share/man/man1/*.1 | grep -c '^\.[BI].* rst2pseudoxml')"
if [ "$("$top/scripts/program.sh")" != "$("$top/scripts/program.sh" --static)" ]; then
  of_make install >/dev/null
  same 'the static programs' '' "$(cmp "$installed/bin/rst-xml" "$("$top/scripts/program.sh" --static)" 2>&1; cmp "$installed/bin/rst-tree" "$("$top/scripts/program.sh" --static rst-tree)" 2>&1)"
  make -s -C "$top" install STATIC=no DESTDIR= PREFIX="$installed" PROGRAM=rst-xml MANPAGE=xml.1
  same 'the other programs' '' "$(cmp "$installed/bin/rst-xml" "$("$top/scripts/program.sh")" 2>&1; cmp "$installed/bin/rst-tree" "$("$top/scripts/program.sh" rst-tree)" 2>&1)"
fi
same 'make uninstall, another name' '' "$(of_make uninstall)"
same 'what is left, another name' '' "$(files)"

if commit=$(git -C "$top" rev-parse --verify -q HEAD 2>/dev/null); then
  git clone -q --no-local "$top" clone && git -C clone checkout -q "$commit"
  version=$(sed -n 's/^\.TH .* "rst2pseudoxml \(.*\)" ".*/\1/p' clone/docs/rst2pseudoxml.1)
  same 'make dist' "rst2pseudoxml-$version.tar.gz" "$(make -s -C clone dist 2>&1)"
  tar -xzf "clone/rst2pseudoxml-$version.tar.gz"
  same 'a tarball' "$hello"$'\nstatus 0' "$(printf 'Hello' | "rst2pseudoxml-$version/rst2pseudoxml" 2>&1; echo "status $?")"
  same 'a clean checkout' '' "$(git -C clone status --short)"
else
  echo "skipped: make dist, as the checkout is no git repository"
fi
echo "make install: $wrong wrong"
[ "$wrong" = 0 ]
