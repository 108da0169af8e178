#!/usr/bin/env bash
# Builds the benchmark: the program is then target/bench/cargo/release/bench.
#
# The original Rust is taken from the tree that compare/build.sh makes, with the stand-ins there; in
# place of the one that opens the tick stands bench/standins/cn.rs, which looks at no counter. A
# second tree has one line of log.rs changed, so that a line that is logged gets no prefix. The
# static library is the file that PLCN_LIB names, or else build/libpowerlink_cn.a (make lib).
set -euo pipefail
unset CDPATH # with it, cd would print

here=$(cd "$(dirname "${BASH_SOURCE[0]}")" && pwd)
root=$(dirname "$here")
work="$root/target/bench"
archive=${PLCN_LIB:-$root/build/libpowerlink_cn.a}

fail() {
    echo "bench/build.sh: $*" >&2
    exit 1
}

[ -f "$archive" ] ||
    fail "there is no $archive. Build it with 'make lib', or set PLCN_LIB to the archive."
archive=$(cd "$(dirname "$archive")" && pwd)/$(basename "$archive")

mkdir -p "$work"
"$root/compare/build.sh" >"$work/compare.log" 2>&1 || {
    cat "$work/compare.log" >&2
    fail "the original could not be built."
}
for tree in tree tree-without-prefix; do
    rm -rf "${work:?}/$tree"
    cp -rp "$root/target/compare/tree" "$work/$tree"
    cp -p "$here/standins/cn.rs" "$work/$tree/node/cn/mod.rs"
done
# The one line: what is told of a node that can be logged.
sed -i 's/^        Some(self\.log_prefix())$/        None/' "$work/tree-without-prefix/log.rs"
changed=$(cd "$work" && diff tree/log.rs tree-without-prefix/log.rs |
    grep '^[<>]' | tr -s ' ' | tr '\n' ' ') || true
[ "$changed" = "< Some(self.log_prefix()) > None " ] ||
    fail "log.rs has not the one line that gives the prefix; changed was: $changed"

# Cargo tells a changed file by its time only.
sums=$(cd "$work" && find tree tree-without-prefix -type f | sort | xargs cksum)
if [ "$(cat "$work/sums" 2>/dev/null)" != "$sums" ]; then
    rm -rf "$work/cargo"
    echo "$sums" >"$work/sums"
fi
# The archive's code is for x86-64-v2, so the Rust is compiled for it too.
PLCN_LIB="$archive" RUSTFLAGS="-C target-cpu=x86-64-v2" \
    cargo build --quiet --release --offline \
    --manifest-path "$here/Cargo.toml" --target-dir "$work/cargo" ||
    fail "the build failed; the messages of cargo above say why."
