#!/usr/bin/env bash
# Links a program that was built here with this system's static C library and writes it to FILE: scripts/static.sh NAME FILE.
# Prints the library, which decides the bytes with the object file. The status is 77 if there is no such library, or no object file.
set -euo pipefail
cd -- "$(dirname -- "$0")/.."
name=${1-} file=${2-}
case $file in
'' | -*) echo "usage: scripts/static.sh NAME FILE" >&2 && exit 2 ;;
esac
. scripts/names.sh
object=crates/$crate/out/$crate.o
part() { gcc -print-file-name="$1"; }
if [ ! -e "$object" ] || ! command -v gcc >/dev/null || [ ! -e "$(part libc.a)" ]; then
  echo "skipped: linking a static program takes $object, gcc and a static C library" >&2
  exit 77
fi
kit=$(dirname -- "$(rt doc)")
"$kit/toolchain/bin/ld.lld" -static -z relro -z noexecstack --gc-sections --build-id=sha1 --threads=1 --strip-all -o "$file" \
  "$(part crt1.o)" "$(part crti.o)" "$(part crtbeginT.o)" "$object" "$kit/c/libos_c.a" "$kit/c/liblibc_c.a" \
  --start-group "$(part libc.a)" "$(part libgcc.a)" "$(part libgcc_eh.a)" --end-group "$(part crtend.o)" "$(part crtn.o)"
# shellcheck disable=SC2016 # fields of dpkg
echo "$(dpkg-query -W -f '${source:Package} ${source:Version}' libc6-dev 2>/dev/null || echo 'a C library'), libc.a $(sha256sum <"$(part libc.a)" | cut -d ' ' -f 1)"
