#!/usr/bin/env bash
# Runs rt ci over the whole repository, as it stands, and fails where that fails or where a must-fail edit is bad: one that cannot be applied or read
# tries no contract, and rt ci itself passes it. Says which crate of how many is proved, and the time so far; the whole output is target/ci.log.
set -euo pipefail
cd "$(dirname "${BASH_SOURCE[0]}")/.."
mkdir -p target
crates=$(grep -c '^[a-z]' crates.txt)

# What rt ci tells of each function, library and link is left out.
progress() {
    local line proved=0 begun=$SECONDS
    while IFS= read -r line; do
        case $line in
        *': proved' | *': proved where its callers give what it asks' | *': note: '* | 'note: '*) ;;
        'logic'* | 'statements '* | 'library '* | 'axioms '* | 'checked '* | 'crate '* | 'empty contracts'* | 'linked '* | '== '*) ;;
        'rt: '*' proved' | 'rt: '*' is kept'*)
            proved=$((proved + 1))
            line=${line#rt: }
            printf '  %2d of %d crates, %d:%02d so far: %s\n' "$proved" "$crates" $(((SECONDS - begun) / 60)) $(((SECONDS - begun) % 60)) "${line%%:*}"
            ;;
        *) printf '%s\n' "$line" ;;
        esac
    done
}

rt ci 2>&1 | tee target/ci.log | progress || {
    echo "scripts/gate.sh: rt ci failed; its whole output is target/ci.log." >&2
    exit 1
}
if grep -q '^rt: ok.*, [0-9]* bad' target/ci.log; then
    echo "scripts/gate.sh: a must-fail edit is bad, as told above." >&2
    exit 1
fi
grep -q '^rt: ok' target/ci.log || {
    echo "scripts/gate.sh: rt ci did not say that all is well." >&2
    exit 1
}
