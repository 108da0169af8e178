#!/usr/bin/env bash
# Proves the crate powerlink_cn with those below it, where that was not done before, and puts its archive into build/.
set -euo pipefail
cd "$(dirname "${BASH_SOURCE[0]}")/.."
crate=crates/powerlink_cn
mkdir -p build
# Each crate that is proved anew has a line.
(cd "$crate" && rt lib) 2>&1 >build/library.log | tee build/library.err |
    awk '/^crate / { crate = $2 } /^logic=proved/ { sub(/.*functions=/, ""); print "  " crate, "proved,", $1, "functions"; fflush() }' || {
    cat build/library.log build/library.err >&2
    exit 1
}
[ -f "$crate/out/libpowerlink_cn.a" ] || {
    echo "scripts/library.sh: $crate/out/libpowerlink_cn.a was not built." >&2
    exit 1
}
# It is left alone where it is the same, so that nothing is built over it anew.
cmp -s "$crate/out/libpowerlink_cn.a" build/libpowerlink_cn.a || cp "$crate/out/libpowerlink_cn.a" build/
