#!/usr/bin/env bash
# Compares what the original Rust prints with the stored outputs that `rt ci` holds our programs to, and with those of the
# call scripts. With --store, the Rust's outputs are stored instead.
set -eu
here=$(cd "$(dirname "${BASH_SOURCE[0]}")" && pwd)
root=$(dirname "$here")
programs="$root/target/compare/cargo/release"
failed=0

# Holds the output $2 of the program or script $1 to the stored file $3 of the repository, or stores it there.
hold() {
    local name=$1 printed=$2 stored=$3 lines
    lines=$(wc -l <"$printed")
    if [ "$mode" = --store ]; then
        cp "$printed" "$root/$stored"
        echo "$name: stored $lines lines that the Rust printed."
    elif cmp -s "$printed" "$root/$stored"; then
        echo "$name: the Rust's $lines lines are the stored ones."
    else
        echo "$name: the Rust prints other lines than $stored; the first of them:" >&2
        diff "$printed" "$root/$stored" | head -n 4 >&2
        failed=1
    fi
}

mode=${1:-}
"$here/build.sh"
for driver in readings transitions positions counting entry_bytes; do
    printed="$root/target/compare/$driver.out"
    "$programs/$driver" >"$printed"
    hold "$driver" "$printed" "crates/$driver/stdout"
done
for script in "$here"/scripts/*.txt; do
    name=$(basename "$script" .txt)
    printed="$root/target/compare/$name.out"
    "$programs/oracle" replay <"$script" >"$printed"
    hold "$name" "$printed" "compare/scripts/$name.out"
done
# The scripts as `rt ci` gives them to `replay`, with what the Rust does not read behind them.
"$here/joined.sh" "${mode:---check}"
printed="$root/target/compare/replay.out"
"$here/joined.sh" --oracle | "$programs/oracle" replay >"$printed"
"$here/joined.sh" --own >>"$printed"
hold replay "$printed" crates/replay/stdout
exit $failed
