#!/usr/bin/env bash
# Runs the tests of the Rust wrapper and of its documentation over the archive in build/, which is
# made where it is missing.
#
#   wrapper.sh           runs them; fails where cargo is missing
#   wrapper.sh --quiet   prints nothing where all is well; where cargo is missing, says so on standard
#                        error and is content
set -euo pipefail
cd "$(dirname "${BASH_SOURCE[0]}")/.."
usage="usage: wrapper.sh [--quiet]"
quiet=
case ${1:-} in
--quiet) quiet=yes ;;
--help)
    echo "$usage"
    exit
    ;;
'') ;;
*)
    echo "$usage" >&2
    exit 2
    ;;
esac
if ! command -v cargo >/dev/null; then
    echo "The Rust wrapper is not tested: cargo has to be on the path for that." >&2
    [ -n "$quiet" ] || exit 1
    exit 0
fi
[ -f build/libpowerlink_cn.a ] || make --no-print-directory lib
export POWERLINK_CN_LIB=$PWD/build CARGO_TARGET_DIR=$PWD/target/wrapper
tests=(cargo test --offline --manifest-path wrapper/Cargo.toml)
if [ -z "$quiet" ]; then
    exec "${tests[@]}"
fi
mkdir -p target
"${tests[@]}" >target/wrapper.log 2>&1 || {
    cat target/wrapper.log >&2
    exit 1
}
