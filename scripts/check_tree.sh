#!/usr/bin/env bash
# Tests ./rst-tree: its profiles and formats, what it prints for help and for wrong arguments, and its exit status; and that its JSON is that of
# the Python package, where python3 is there and dist/ has a library of these sources. The status is 77 if there is no program of these sources.
# shellcheck disable=SC2016 # backticks of reStructuredText
set -u
top=$(cd -- "$(dirname -- "$0")/.." && pwd)
if ! "$top/scripts/program.sh" rst-tree >/dev/null 2>&1; then
  echo "skipped: there is no rst-tree of these sources"
  exit 77
fi
folder=$(mktemp -d) && trap 'rm -rf "$folder"' EXIT && cd "$folder" || exit 1
wrong=0
same() { # NAME WANTED GOT
  [ "$2" = "$3" ] && return
  wrong=$((wrong + 1))
  printf '%s: wanted\n%s\ngot\n%s\n' "$1" "$2" "$3"
}
answer() { # INPUT WORDS.. : standard output, standard error and status, the input given by printf
  local input=$1
  shift
  # shellcheck disable=SC2059
  printf "$input" | "$top/rst-tree" "$@" >out 2>err
  echo "$? $(cat out err)"
}
role=':sub:`2` and more: text'
wider=$'<document source="<stdin>">\n    <paragraph>\n        <subscript>\n            2\n         and more: text'
base=$("$top/rst2pseudoxml" <<<"$role")
same 'the profile without an option' "0 $wider" "$(answer "$role")"
same 'the wider profile' "0 $wider" "$(answer "$role" --profile=docutils)"
same 'the base' "0 $base" "$(answer "$role" --profile base)"
same 'JSON' '0 ["document",0,{},["paragraph",1,{},["subscript",1,{},"2"]," and more: text"]]' "$(answer "$role" --format=json)"
same 'JSON ends in a line end' '1' "$("$top/rst-tree" --format=json <<<"$role" | wc -l)"
same 'JSON of the base' "0 $("$top/rst-tree" --format=json <<<'*a*')" "$(answer '*a*' --format=json --profile=base)"
warning='<stdin>:1: (WARNING/2) Inline emphasis start-string without end-string.'
tree='["document",0,{},["paragraph",1,{},["problematic",1,{"ids":["problematic-1"],"refid":"system-message-1"},"*"],"a"],'
tree+='["system_message",1,{"backrefs":["problematic-1"],"ids":["system-message-1"],"level":2,"line":1,"type":"WARNING"},'
tree+='["paragraph",1,{},"Inline emphasis start-string without end-string."]]]'
same 'messages beside JSON' "12 $tree"$'\n'"$warning" "$(answer '*a' --format=json --exit-status=warning)"
same 'a run that is halted' "1 $warning"$'\nExiting due to level-2 (WARNING) system message.' "$(answer '*a' --format=json --halt=warning)"
same 'a refused input' '1 rst-tree: not UTF-8 at byte 1' "$(answer 'a\xff' --format=json)"
hello=$'<document source="<stdin>">\n    <paragraph>\n        a'
same 'standard input by a hyphen' "0 $hello" "$(answer a -)"
printf a >./-page.rst
same 'a file' "0 ${hello/<stdin>/-page.rst}" "$(answer b -- -page.rst)"
same 'no file' '1 rst-tree: cannot open nothing.rst' "$(answer a nothing.rst)"
same 'settings' "0 ${hello/        a/        a   b}" "$(answer 'a\tb' --tab-width 4 -v)"
printf a | "$top/rst-tree" --format=json >/dev/full 2>err
same 'a full disk' '1 rst-tree: write failed' "$? $(cat err)"
"$top/rst-tree" --help >/dev/full 2>err
same 'help on a full disk' '1 rst-tree: write failed' "$? $(cat err)"

# Help and the version.
help=$(answer a --help)
same 'the status of help' 0 "${help%% *}"
same 'help, short' "$help" "$(answer a -h)"
same 'the options of the page' "$(sed -n 's/^\.B[IR]* //p' "$top/docs/rst-tree.1" | grep -o '\\-\\-[a-z\\-]*' | tr -d "\\\\" | LC_ALL=C sort -u)" \
  "$(grep -o -- '--[a-z][a-z-]*' out | LC_ALL=C sort -u)"
version=$(sed -n 's/^\.TH .* "rst2pseudoxml \(.*\)" ".*/\1/p' "$top/docs/rst-tree.1")
same 'the version' "0 rst-tree $version" "$(answer a --version)"
same 'the version, short' "0 rst-tree $version" "$(answer a -V)"

# What is wrong, and what is allowed, in one line.
levels='[possible values: info, warning, error, severe, none, 1, 2, 3, 4, 5]'
refused() { # TEXT WORDS..
  local text=$1
  shift
  same "$*" "2 rst-tree: $text" "$(answer a "$@")"
}
refused "invalid value 'loud' for '--report <LEVEL>'  $levels" --report=loud
refused "invalid value 'loud' for '--halt <LEVEL>'  $levels" --halt loud
refused "invalid value 'sphinx' for '--profile <NAME>'  [possible values: docutils, base]" --profile=sphinx
refused "invalid value 'xml' for '--format <NAME>'  [possible values: pseudoxml, json]" --format=xml
refused "invalid value '0' for '--tab-width <N>': 0 is not in 1..=99" --tab-width=0
refused "invalid value 'a' for '--line-length-limit <N>': invalid digit found in string" --line-length-limit=a
refused "a value is required for '--format <NAME>' but none was supplied  [possible values: pseudoxml, json]" --format
refused 'a number has no sign and no leading zero' --tab-width=08
refused "only one of '--report', '--verbose' and '--quiet' can be used, and only one of '--halt' and '--strict'" -v -q
refused "the argument '--strict' cannot be used multiple times" --strict --strict
refused "unexpected argument '--nope' found" --nope
refused "unexpected argument 'two' found" one two
same 'a word that is no UTF-8' '2 rst-tree: bad arguments' "$(answer a $'\xff')"

# The same JSON as in Python.
if command -v python3 >/dev/null && grep -qxs "library $("$top/scripts/digest.sh" library)" "$top/dist/BUILT"; then
  export PYTHONDONTWRITEBYTECODE=1
  mkdir package && cp -r "$top/python/src/rst2pseudoxml" package && cp "$top/dist/librst2pseudoxml.so" package/rst2pseudoxml
  for page in "$top"/docs/*.md "$top"/docs/profile/*.md; do
    for profile in docutils base; do
      same "JSON of $page" "$(PYTHONPATH=package python3 -c 'import rst2pseudoxml, sys; print(rst2pseudoxml.json(open(sys.argv[1], "rb").read(), profile=sys.argv[2], halt="none"))' "$page" "$profile")" \
        "$("$top/rst-tree" --format=json --halt=none --profile="$profile" "$page" 2>/dev/null)"
    done
  done
else
  echo "skipped: JSON as in Python, without python3 or a library of these sources"
fi
echo "./rst-tree: $wrong wrong"
[ "$wrong" = 0 ]
