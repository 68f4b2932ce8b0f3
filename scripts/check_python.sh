#!/usr/bin/env bash
# Installs the Python package into folders of its own, from a wheel, an archive and the sources, runs its tests there, and the lines of Python in
# README.md. Its module in C is built for this, and the tests of documents run once more without it. The status is 0 if they passed, 1 if one
# failed, 77 if there is no Python that can do it. It leaves nothing in the checkout, and needs no network.
set -u
top=$(cd -- "$(dirname -- "$0")/.." && pwd)
folder=$(mktemp -d) && trap 'rm -rf -- "$folder"' EXIT && cd -- "$folder" || exit 1
export PYTHONDONTWRITEBYTECODE=1 PIP_DISABLE_PIP_VERSION_CHECK=1 PIP_ROOT_USER_ACTION=ignore
find_python() { # MODULES
  for python in python3 /usr/bin/python3; do
    "$python" -c "import sys, $1; sys.exit(sys.version_info < (3, 9))" 2>/dev/null && return
  done
  return 1
}
if ! find_python 'pip, docutils, sphinx' && ! find_python 'pip, docutils'; then
  echo "skipped: no python3 here is Python 3.9 or later with pip and Docutils"
  exit 77
fi
if [ ! -e "$top/dist/librst2pseudoxml.so" ]; then
  echo "skipped: dist/ has no library"
  exit 77
fi
install() { # TARGET SOURCE
  "$python" -m pip install --quiet --no-index --no-compile --target "$1" "$2"
}
PYTHON=$python "$top/scripts/extension.sh" "$folder/copy/dist" >built
case $? in
  0) module=_records.abi3.so ;;
  77) module='' ;;
  *) exit 1 ;;
esac
mkdir -p copy/dist && cp -r -- "$top/python" copy && cp -- "$top/dist/librst2pseudoxml.so" copy/dist &&
  wheel=$("$python" copy/python/backend.py .) && install installed "$wheel" &&
  archive=$(cd copy/python && "$python" -c 'import backend; print(backend.build_sdist("../.."))') && install archived "$archive" &&
  install from_sources ./copy/python || exit 1
failed=0
for other in archived from_sources; do # pip writes down in dist-info where it had them from
  diff -r -x direct_url.json -x RECORD installed "$other" || failed=1
done
editable=$(cd copy/python && "$python" -c 'import backend; print(backend.build_editable("../.."))') && install editable "$editable" &&
  [ "$(PYTHONPATH='' "$python" -c 'import site; site.addsitedir("editable"); print(__import__("rst2pseudoxml").pseudoxml("a"), end="")' | tail -n 1)" = '        a' ] || failed=1
export PYTHONPATH=$folder/installed
[ "$(echo 'A *word' >a.rst && installed/bin/rst-check a.rst)" = 'a.rst:1: (WARNING/2) Inline emphasis start-string without end-string.' ] || failed=1
if command -v objdump >/dev/null; then # what the name of the wheel says
  needed=$(objdump -T "$top/dist/librst2pseudoxml.so" ${module:+"copy/dist/$module"} | grep -o 'GLIBC_[0-9.]*' | sed 's/.*_//' | { cat; echo 2.17; } | sort -uV | tail -n 1)
  [ "$needed" = 2.17 ] || { echo "the library needs glibc $needed" && failed=1; }
fi
# shellcheck disable=SC2016
sed -n '/^```python$/,/^```$/{/^```/d;p;}' "$top/README.md" | "$python" - >said || failed=1
"$python" -m unittest discover -s "$top/python/tests" || failed=1
if [ -n "$module" ]; then
  "$python" -c 'import rst2pseudoxml._records' && [ "${wheel#*-cp39-abi3-}" != "$wheel" ] || failed=1
  cp -r installed without && rm "without/rst2pseudoxml/$module" || exit 1
  for name in docutils hand nodes; do
    PYTHONPATH=$folder/without "$python" "$top/python/tests/test_$name.py" || failed=1
  done
fi
exit $failed
