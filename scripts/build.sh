#!/usr/bin/env bash
# Proves and builds programs of crates/, lowest crates first, and puts each where the other scripts look for it, into target/bin.
#
#   build.sh NAME..           proves and builds
#   build.sh --built NAME..   takes what rt ci or an earlier run has built
set -euo pipefail
cd "$(dirname "${BASH_SOURCE[0]}")/.."
built=
if [ "${1:-}" = --built ]; then
    built=yes
    shift
fi
mkdir -p target/bin
for name in "$@"; do
    if [ -z "$built" ]; then
        # `rt run` builds what it runs: on no input a program ends at once.
        # Each crate that is proved anew has a line.
        (cd "crates/$name" && rt run </dev/null) 2>&1 >"target/$name.log" | tee "target/$name.err" |
            awk '/^crate / { crate = $2 } /^logic=proved/ { sub(/.*functions=/, ""); print "  " crate, "proved,", $1, "functions"; fflush() }' || {
            cat "target/$name.err" >&2
            exit 1
        }
    fi
    [ -x "crates/$name/out/$name" ] || {
        echo "scripts/build.sh: crates/$name/out/$name was not built." >&2
        exit 1
    }
    cp "crates/$name/out/$name" target/bin/
done
