# shellcheck shell=sh disable=SC2034
# To be read by a script that has set `name` to the name of a program or to `library`, or to nothing for rst2pseudoxml: sets `crate`, and
# `root`, the crate's first file.
root=main.rt
case ${name:=rst2pseudoxml} in
  rst2pseudoxml) crate=rst2pseudoxml ;;
  rst-tree) crate=rst_tree_program ;;
  library) crate=rst_c root=lib.rt ;;
  *) echo "${0##*/}: '$name' is neither rst2pseudoxml nor rst-tree nor library" >&2 && exit 2 ;;
esac
