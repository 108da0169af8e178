#!/usr/bin/env bash
# Installs the C library: its header, its archive, a pkg-config file and the man pages.
#
#   install.sh PREFIX [DESTDIR]   PREFIX is where it will be used from, DESTDIR a folder that stands before it while it is installed
set -euo pipefail
[ $# -ge 1 ] && [ $# -le 2 ] && [ -n "$1" ] || {
    echo "usage: install.sh PREFIX [DESTDIR]" >&2
    exit 2
}
prefix=$(realpath -m "$1")
to=${2:-}$prefix
cd "$(dirname "${BASH_SOURCE[0]}")/.."
[ -f build/libpowerlink_cn.a ] || {
    echo "scripts/install.sh: build/libpowerlink_cn.a is missing; 'make lib' builds it." >&2
    exit 1
}
version=$(awk '$2 ~ /^PLCN_VERSION_(MAJOR|MINOR|PATCH)$/ { v = v (v == "" ? "" : ".") $3 } END { print v }' include/powerlink_cn.h)
scripts/manual.py --out build/man >/dev/null
install -d "$to/include" "$to/lib/pkgconfig" "$to/share/man/man3" "$to/share/man/man7"
install -m 644 include/powerlink_cn.h "$to/include/"
install -m 644 build/libpowerlink_cn.a "$to/lib/"
install -m 644 build/man/man3/*.3 "$to/share/man/man3/"
install -m 644 build/man/man7/*.7 "$to/share/man/man7/"
cat >"$to/lib/pkgconfig/powerlink_cn.pc" <<END
prefix=$prefix
includedir=\${prefix}/include
libdir=\${prefix}/lib

Name: powerlink_cn
Description: a POWERLINK controlled node (EPSG DS 301), proved
Version: $version
Cflags: -I\${includedir}
Libs: -L\${libdir} -lpowerlink_cn
END
echo "powerlink_cn $version is in $to: include/powerlink_cn.h, lib/libpowerlink_cn.a, lib/pkgconfig/powerlink_cn.pc, share/man"
