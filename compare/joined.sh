#!/usr/bin/env bash
# The script that `replay` is run on under `rt ci`: the scripts of compare/scripts one behind another, since a program has one
# input there, and behind them scripts/names.txt, which the oracle does not read. The last line of reading.txt lacks its newline,
# so that script is last of the oracle's.
#
#   joined.sh --check   compares crates/replay/stdin with the scripts
#   joined.sh --store   stores it
#   joined.sh --oracle  prints what the oracle reads of it
#   joined.sh --own     prints what the rest is answered: tests/replay/names-plain.out, with the numbers of the lines there
set -eu
here=$(cd "$(dirname "${BASH_SOURCE[0]}")" && pwd)
root=$(dirname "$here")
stored="$root/crates/replay/stdin"

for_oracle() {
    for name in rules examples resets restored counts thresholds kinds ranges partners queue recipes due frames generated-11 generated-12 generated-13 desk reading; do
        cat "$here/scripts/$name.txt"
    done
}

joined() {
    for_oracle
    echo
    cat "$root/scripts/names.txt"
}

case ${1:-} in
--store) joined >"$stored" ;;
--oracle) for_oracle ;;
--own)
    before=$(for_oracle | wc -l)
    awk -v before=$((before + 1)) '/^\(unreadable / { printf "(unreadable %d)\n", $2 + before; next } { print }' \
        "$root/tests/replay/names-plain.out"
    ;;
--check)
    if ! joined | cmp -s - "$stored"; then
        echo "crates/replay/stdin is not what compare/joined.sh makes of compare/scripts; --store stores that." >&2
        exit 1
    fi
    echo "ok: crates/replay/stdin has the scripts of compare/scripts one behind another, and scripts/names.txt"
    ;;
*)
    echo "usage: joined.sh --check | --store | --oracle | --own" >&2
    exit 1
    ;;
esac
