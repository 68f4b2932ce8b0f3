# shellcheck shell=sh
# Runs the program `name` of the checkout `top`, which the script that reads this has set, with that script's arguments: the one that was built
# here, or the shipped one if that is newer or the only one. It starts no proof.
# If crates.txt or a folder of sources is newer than that program, scripts/program.sh compares digests. If nothing was built from these
# sources, two lines on standard error say so, and the older program runs. Where a program was built, the times of the sources count too.
# Elsewhere a file that is overwritten in place isn't noticed, since comparing all times costs more than a run. Nothing is compared if
# the program can't be written, and so can't get a new time. If RST2PSEUDOXML_PATH isn't empty, the program's path is printed instead.
# shellcheck disable=SC3013,SC2154 # POSIX has -nt since 2024; `top` is set
. "$top/scripts/names.sh"
program=$top/dist/$name-static built=$top/crates/$crate/out/$crate every=''
[ -x "$program" ] || program=$top/dist/$name
[ -x "$built" ] && every=yes && ! [ "$program" -nt "$built" ] && program=$built
[ -x "$program" ] || exec "$top/scripts/program.sh" "$name"
[ -w "$program" ] && for source in "$top/crates.txt" "$top"/crates/*/src ${every:+"$top"/crates/*/src/*.rt}; do
  [ "$source" -nt "$program" ] || continue
  if found=$("$top/scripts/program.sh" --static "$name" </dev/null); then
    program=$found && touch -c "$program" "$program.sources" 2>/dev/null # so the next call need not compare digests
  else
    echo "$name: so a program of older sources runs, ${program#"$top/"}" >&2
  fi
  break
done
[ -n "${RST2PSEUDOXML_PATH-}" ] && echo "$program" && exit
exec "$program" "$@"
