#!/usr/bin/env bash
# install.sh ARCHIVE PREFIX [DESTDIR]: installs the header, the archive and zolbine.pc under PREFIX, below DESTDIR if there is one.
set -euo pipefail
archive=$1 prefix=$2 root=${3:-}
cd "$(dirname "$0")/.."

version=$(sed -n 's/^#define ZOLBINE_VERSION //p' include/zolbine.h)
install -d "$root$prefix/include" "$root$prefix/lib/pkgconfig"
install -m 644 include/zolbine.h "$root$prefix/include/"
install -m 644 "$archive" "$root$prefix/lib/libzolbine.a"
cat >"$root$prefix/lib/pkgconfig/zolbine.pc" <<PC
prefix=$prefix
includedir=\${prefix}/include
libdir=\${prefix}/lib

Name: zolbine
Description: accountable confirmer of a fleet link, for x86-64 Linux
Version: $version
Cflags: -I\${includedir}
Libs: -L\${libdir} -lzolbine
PC
echo "zolbine: installed under $root$prefix: include/zolbine.h, lib/libzolbine.a, lib/pkgconfig/zolbine.pc"
