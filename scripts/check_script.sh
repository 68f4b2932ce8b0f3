#!/usr/bin/env bash
# Tests ./rst2pseudoxml: that arguments, standard input and the exit status pass through it, from any folder, that the
# program works over real streams, and (on a copy of the checkout) which program it runs, and what it prints where sources were changed.
# shellcheck disable=SC2016 # a change of the copy is given as text
set -u
top=$(cd -- "$(dirname -- "$0")/.." && pwd)
folder=$(mktemp -d) && trap 'rm -rf "$folder"' EXIT && cd "$folder" || exit 1
ln -s "$top/rst2pseudoxml" linked
wrong=0
same() { # NAME WANTED GOT
  [ "$2" = "$3" ] && return
  wrong=$((wrong + 1))
  printf '%s: wanted\n%s\ngot\n%s\n' "$1" "$2" "$3"
}
answer() { # INPUT WORDS.. : standard output, standard error and status, the input given by printf
  local input=$1
  shift
  # shellcheck disable=SC2059
  printf "$input" | "$top/rst2pseudoxml" "$@" >out 2>err
  echo "$? $(cat out err)"
}
hello=$'<document source="<stdin>">\n    <paragraph>\n        Hello, world'
same 'a line' "0 $hello" "$(answer 'Hello, world')"
same 'no input' '0 <document source="<stdin>">' "$(answer '')"
same 'not UTF-8' '1 rst2pseudoxml: not UTF-8 at byte 1' "$(answer 'a\xff')"
same 'an unknown option' '2 rst2pseudoxml: bad arguments' "$(answer 'a' --nope)"
same 'a word that is no UTF-8' '2 rst2pseudoxml: bad arguments' "$(answer 'a' $'\xff')"
same 'two sources' '2 rst2pseudoxml: bad arguments' "$(answer 'a' one two)"
same 'a level' '2 rst2pseudoxml: bad level' "$(answer 'a' --report=loud)"
same 'a tab width' '2 rst2pseudoxml: bad tab width' "$(answer 'a' --tab-width=0)"
same 'a line limit' '2 rst2pseudoxml: bad line limit' "$(answer 'a' --line-length-limit=0)"
same 'two levels' '2 rst2pseudoxml: two levels' "$(answer 'a' -v -q)"
same 'no file' '1 rst2pseudoxml: cannot open two words' "$(answer 'a' 'two words')"
same 'an empty name' '1 rst2pseudoxml: cannot open ' "$(answer 'a' '')"
printf 'Hello, world' >'two words'
same 'a file' "0 ${hello/<stdin>/two words}" "$(answer 'not read' 'two words')"
same 'a folder as a file' '1 rst2pseudoxml: read failed' "$(answer 'a' .)"
same 'settings' "0 ${hello/Hello, world/a   b}" "$(answer 'a\tb' --tab-width 4)"
warning='<stdin>:1: (WARNING/2) Inline emphasis start-string without end-string.'
same 'a message that halts' "1 $warning"$'\nExiting due to level-2 (WARNING) system message.' "$(answer '*a' --halt=2)"
same 'an exit status' "12 ${hello/Hello, world/$'*\n        a'}" "$(answer '*a' -q --exit-status=2)"
same 'nested too deep' '1 rst2pseudoxml: line 3: nesting too deep' "$(answer "text\n\n$(printf -- '- %.0s' {1..251})a")"
tables() { # COUNT TEXT: tables of one cell, one inside another; the text of the innermost
  awk -v count="$1" -v text="$2" '
    function border(depth,    bars) {
      bars = substr(all, 1, depth - 1)
      return bars "+" substr(dashes, 1, length(text) + 2 * (count - depth)) "+" bars
    }
    BEGIN {
      for (i = 0; i < count; i++) { all = all "|"; dashes = dashes "--" }
      for (i = 0; i < length(text); i++) dashes = dashes "-"
      for (i = 1; i <= count; i++) print border(i)
      print all text all
      for (i = count; i >= 1; i--) print border(i)
    }'
}
tables 250 '_`a` _`a`' >deepest
(ulimit -s 1536 && "$top/rst2pseudoxml" deepest) >out 2>err
equal_names='Duplicate explicit target name: "a".'
same 'equal names in the deepest tables, with a stack of 1.5 MiB' "0 deepest:251: (WARNING/2) $equal_names$equal_names" "$? $(cat err)$(tail -n 1 out | sed 's/^ *//')"
same 'tables that are too deep' '1 rst2pseudoxml: line 252: nesting too deep' "$(answer "$(tables 251 abc)")"
same 'by a link' "$hello" "$(printf 'Hello, world' | ./linked)"
head -c 16777216 /dev/zero | tr '\0' '\n' | "$top/rst2pseudoxml" >out 2>err
same 'as many bytes as are read' '0 <document source="<stdin>">' "$? $(cat out err)"
head -c 16777217 /dev/zero | "$top/rst2pseudoxml" >out 2>err
same 'too long' '1 rst2pseudoxml: input too long' "$? $(cat out err)"
printf 'a' | "$top/rst2pseudoxml" >/dev/full 2>err
same 'a full disk' '1 rst2pseudoxml: write failed' "$? $(cat err)"
"$top/rst2pseudoxml" <. >out 2>err
same 'a folder as input' '1 rst2pseudoxml: read failed' "$? $(cat out err)"

# A copy of what ./rst2pseudoxml reads of the checkout, with the program in dist/, as on a fresh one, and a PATH without the kit and bash.
copy="$folder/a copy"
mkdir "$copy" tools
(cd "$top" && tar --exclude='*-static' -cf - rst2pseudoxml crates.txt crates/*/src scripts dist) | tar -C "$copy" -xf -
cp "$("$top/scripts/program.sh")" "$copy/dist/rst2pseudoxml"
built=$copy/crates/rst2pseudoxml/out/rst2pseudoxml
source=$copy/crates/rst_text/src/lib.rt
cp -p "$source" before
sums() { (cd "$copy/dist" && sha256sum rst2pseudoxml* | grep -v sha256 >rst2pseudoxml.sha256); }
sums
sed -i "s/^rst2pseudoxml .*/rst2pseudoxml $("$copy/scripts/digest.sh")/" "$copy/dist/BUILT"
for tool in awk cat cut dirname find grep readlink sed sha256sum sort touch xargs; do
  ln -s "$(command -v "$tool")" tools/
done
as_of() { # PATH COMMAND.. : what a command prints with this PATH, and its status
  local path=$1
  shift
  printf 'Hello, world' | PATH=$path "$@" 2>&1
  echo "status $?"
}
call() { as_of "$folder/tools" "$copy/rst2pseudoxml"; }
quick() { as_of "$folder/none" "$copy/rst2pseudoxml"; } # a call that can run nothing but the program
runs=$hello$'\nstatus 0'
others='rst2pseudoxml: nothing has been built from these sources, and dist/ is of others; `rt try` in crates/rst2pseudoxml '
others+='runs these without proofs (about two minutes), scripts/build.sh proves and builds them (about an hour the first time)'
damaged="rst2pseudoxml: the programs in dist/ don't have the checksums in dist/rst2pseudoxml.sha256, and nothing was built here"$'\nstatus 1'
changed="$others
rst2pseudoxml: so a program of older sources runs, dist/rst2pseudoxml
$runs"

same 'a copy' "$runs" "$(call)"
ln -s "$copy/rst2pseudoxml" to_copy
same 'a copy by a link' "$runs" "$(as_of "$folder/tools" ./to_copy)"
same 'in its folder' "$runs" "$(cd "$copy" && as_of "$folder/tools" ./rst2pseudoxml)"
for shell in sh bash dash 'busybox sh'; do
  if command -v "${shell% sh}" >/dev/null; then
    # shellcheck disable=SC2086 # two words
    same "by $shell" "$runs" "$(cd "$copy" && as_of "$PATH" $shell rst2pseudoxml)"
  fi
done
same 'its path' "$copy/dist/rst2pseudoxml"$'\nstatus 0' "$(RST2PSEUDOXML_PATH=print call)"
same 'its length' yes "$([ "$(grep -vc '^#' "$copy/rst2pseudoxml")" -le 20 ] && echo yes)"

# The times of a checkout are in any order; one digest settles it.
crate=$copy/crates/rst_text
touch -d '1 minute' "$crate/src" && touch -d '1 hour ago' "$copy"/dist/*
same 'sources from the future' "$runs" "$(call)"
touch "$crate/src"
same 'sources that were written last' "$runs" "$(call)"
same 'the second call' "$runs" "$(quick)"

# Changes of the sources, each taken back.
changes=(
  'an edit' 'sed -i "\$a // one line more" "$source"' 'cp -p before "$source"'
  'another file in its place' 'mv after "$source"' 'cp -p before "$source"'
  'a file more' 'echo >"$crate/src/more.rt"' 'rm "$crate/src/more.rt"'
  'a folder more' 'mkdir "$crate/src/more" && echo >"$crate/src/more/a.rt"' 'rm -r "$crate/src/more"'
  'a file less' 'rm "$source"' 'cp -p before "$source"'
  'a file renamed' 'mv "$source" "$source.old"' 'mv "$source.old" "$source"'
  'a link in its place' 'ln -sf "$folder/after" "$source"' 'rm "$source" && cp -p before "$source"'
  'another crate in use' 'sed -i "s/^rst_text:/& test_libraries/" "$copy/crates.txt"' 'sed -i "s/ test_libraries//" "$copy/crates.txt"'
)
for ((i = 0; i < ${#changes[@]}; i += 3)); do
  tr 'a-y' 'b-z' <before >after
  sleep 0.1 # longer than the steps of a file's time
  eval "${changes[i + 1]}"
  same "${changes[i]}" "$changed" "$(call)"
  same "${changes[i]}, again" "$changed" "$(call)"
  eval "${changes[i + 2]}"
  same "${changes[i]}, taken back" "$runs" "$(call)"
  same "${changes[i]}, taken back, the second call" "$runs" "$(quick)"
done
echo '// one line more' >>"$source"
same 'an edit in place, where nothing was built' "$runs" "$(quick)"
cp -p before "$source"

# What isn't in the program changes nothing.
echo '// a row more' >>"$copy/crates/rst2pseudoxml/src/rows.rt"
echo '// a test more' >>"$copy/crates/test_libraries/src/lib.rt"
printf '\n# a comment\ntest_more: rst_text\n' >>"$copy/crates.txt"
printf '#[cfg(test)]\nmod more_tests;\n' >>"$copy/crates/rst2pseudoxml/src/main.rt"
echo >"$copy/crates/rst2pseudoxml/src/more_tests.rt"
same 'more tests' "$runs" "$(call)"

# A program that was built here runs while it is newer than the shipped one; scripts/program.sh takes it while its note holds.
mkdir "${built%/*}"
sleep 0.1
printf '#!/bin/sh\necho "built here"\n' >"$built"
chmod +x "$built"
same 'a build' $'built here\nstatus 0' "$(quick)"
of_sources() { as_of "$folder/tools" "$copy/scripts/program.sh"; }
same 'a build without a note' "$copy/dist/rst2pseudoxml"$'\nstatus 0' "$(of_sources)"
"$copy/scripts/digest.sh" >"$built.sources"
same 'a build of these sources' "$built"$'\nstatus 0' "$(of_sources)"
touch "$source"
same 'a build before a source was written again' $'built here\nstatus 0' "$(call)"
same 'a build, the second call' $'built here\nstatus 0' "$(quick)"
older="rst2pseudoxml: so a program of older sources runs, crates/rst2pseudoxml/out/rst2pseudoxml"
sleep 0.1
echo '// one line more' >>"$source"
same 'an edit in place after a build' "$others"$'\n'"$older"$'\nbuilt here\nstatus 0' "$(call)"
cp -p before "$source"
sed -i '$a // one line more' "$source"
same 'an edit after a build' "$others"$'\n'"$older"$'\nbuilt here\nstatus 0' "$(call)"
cp -p before "$source"
touch -d '1 minute ago' "$built.sources"
same 'a build that is newer than its note' "$copy/dist/rst2pseudoxml"$'\nstatus 0' "$(of_sources)"
sleep 0.1
touch "$copy/dist/rst2pseudoxml"
same 'a build that is older than the shipped program' "$runs" "$(quick)"
rm -r "${built%/*}"

# Calls at the same time, after a source was written.
touch "$crate/src"
for place in 1 2 3 4; do
  call >"call$place" &
done
wait
same 'calls at the same time' "$runs$runs$runs$runs" "$(cat call1)$(cat call2)$(cat call3)$(cat call4)"

# Where nothing can be written no digest is taken, which each call would have to do.
sleep 0.1
touch "$crate/src"
chmod -R a-w "$copy"
chmod a+rx "$folder"
other_user=()
[ "$(id -u)" != 0 ] || other_user=("$(command -v setpriv)" --reuid=65534 --clear-groups) # modes don't keep root from writing
if [ ${#other_user[@]} = 0 ] || "${other_user[@]}" test -x "$copy/rst2pseudoxml" 2>/dev/null; then
  same 'nothing can be written' "$runs" "$(as_of "$folder/none" "${other_user[@]}" "$copy/rst2pseudoxml")"
fi
chmod -R u+w "$copy"

# What scripts/program.sh, which knows the digests, prints about dist/.
same 'the shipped program' "$copy/dist/rst2pseudoxml"$'\nstatus 0' "$(of_sources)"
mv "$crate" "$crate.old"
same 'a crate renamed' $'rst2pseudoxml: crates.txt names rst_text, and there is no folder crates/rst_text/src\nstatus 1' "$(of_sources)"
mv "$crate.old" "$crate"
sed -i 's/^rst2pseudoxml ./rst2pseudoxml x/' "$copy/dist/BUILT"
same 'a program of other sources' "$others"$'\nstatus 1' "$(of_sources)"
sed -i "s/^rst2pseudoxml .*/rst2pseudoxml $("$copy/scripts/digest.sh")/" "$copy/dist/BUILT"
printf '#!/bin/sh\nexit 127\n' >"$copy/dist/rst2pseudoxml"
same 'a damaged program' "$damaged" "$(of_sources)"
sums
same 'another system' "rst2pseudoxml: no program in dist/ runs here; they are for $(sed -n 's/^system //p' "$copy/dist/BUILT")"$'\nstatus 1' "$(of_sources)"
printf '#!/bin/sh\necho "the static program"\n' >"$copy/dist/rst2pseudoxml-static"
chmod +x "$copy/dist/rst2pseudoxml-static"
sums
same 'a system for the static program alone' "$copy/dist/rst2pseudoxml-static"$'\nstatus 0' "$(of_sources)"
same 'the static program is preferred' $'the static program\nstatus 0' "$(call)"
printf '#!/bin/sh\n' >"$copy/dist/rst2pseudoxml"
sums
same 'the first program' "$copy/dist/rst2pseudoxml"$'\nstatus 0' "$(of_sources)"
same 'with --static' "$copy/dist/rst2pseudoxml-static"$'\nstatus 0' "$(as_of "$folder/tools" "$copy/scripts/program.sh" --static)"
rm "$copy"/dist/rst2pseudoxml*
same 'no program' "$damaged" "$(call)"
echo "./rst2pseudoxml: $wrong wrong"
[ "$wrong" = 0 ]
