#!/usr/bin/env bash
# Plays the call script $1 through `replay` without proving anything, and prints each of its lines with what it answered below it.
# `rt try` stops at an index out of bounds or a sum that overflows, and tries no contract.
set -euo pipefail
cd "$(dirname "${BASH_SOURCE[0]}")/.."
script=$PWD/$1
mkdir -p target
echo "Playing $1 without the proofs: this shows what the node does, and proves nothing. It takes about half a minute."
echo
(cd crates/replay && rt try <"$script") >target/try.out 2>target/try.err || {
    cat target/try.err >&2
    exit 1
}
scripts/run.sh "$1" cat target/try.out
