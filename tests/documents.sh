#!/bin/sh
# What the prover does not look at: each public function says what it ensures, and none asks anything of its caller but those
# of tests/requires.txt, each by the text there (tests/contracts.py): functions that are public for crates of ours alone, whose
# callers know what they ask, and those that are given a closure, which ask that it can be called (docs/DECISIONS.md, 'Who may
# ask something'). What a function ensures it says of every argument (tests/premises.py). The public items and
# definitions have a text, and the lines fit (tests/documented.py). And what documents and comments refer to is there
# (tests/references.py).
set -u
cd "$(dirname "$0")/.."
failed=0
for check in contracts premises documented references; do
    python3 "tests/$check.py" || failed=1
done
exit "$failed"
