#!/usr/bin/env bash
# The accident that RULES 4.5 and 12 rule out, to be seen: plays incident.txt through `replay` and, where cargo and the Rust source are at hand, through the
# original as it is, whose resets forget nothing, with the recipe kept beside it in the same way. Prints all in which they differ. Ends with 1 where that is not
# what it should be.
set -euo pipefail
cd "$(dirname "${BASH_SOURCE[0]}")/.."
script=scripts/incident.txt
work=target/incident
oracle=target/compare/cargo/release/oracle
rust=${POWERLINK_RS:-../shared/docs/src}
none=$(printf ' (0 0)%.0s' {1..16})

fail() {
    echo "scripts/incident.sh: $*" >&2
    exit 1
}

mkdir -p "$work"
echo "Ours:"
echo
scripts/run.sh "$script" | tee "$work/ours"
echo
grep -q '^    (nmt (state 0x5D) (enabled 1) (ready 0) ' "$work/ours" || fail "ours is not in PreOperational2 at \`show\`, enabled and not ready: it is not to be seen that a reset forgets."
grep -qxF "    (recipe$none)" "$work/ours" || fail "ours has a recipe at \`show\`."
weights=$(grep -A1 '^weight ' "$work/ours" | sed -n 's/^    //p' | paste -sd ' ')
[ "$weights" = "(refused 17) (refused 17) (taken 40) (refused 17)" ] || fail "ours tells other weights: $weights."

if ! command -v cargo >/dev/null || [ ! -d "$rust/crates/powerlink-rs/src" ]; then
    echo "Ours stays in PreOperational2 (0x5D): it is enabled and waits for a recipe, and tells no weight before one. The original is not shown beside it, since cargo or the Rust source is not at hand (README, 'Two commands')."
    exit 0
fi

compare/build.sh >"$work/build.log" 2>&1 || {
    cat "$work/build.log" >&2
    fail "the original could not be built."
}
# The events to the show; a recipe gives the ready word.
order="(order $(sed -n '/^show$/q; s/^recipe .*/nmt 15/; s/^nmt //p' "$script" | paste -sd ' '))"
"$oracle" shortest >"$work/shortest"
grep -qxF "$order" "$work/shortest" || fail "$order is none of the shortest orders that bring the original there."

scripts/run.sh "$script" "$oracle" original >"$work/original"
# Both outputs have the script's lines in them: what differs is told with the line that it answers.
awk 'NR == FNR { theirs[FNR] = $0; next } !/^    / { call = $0 } theirs[FNR] != $0 { print call "\t" substr(theirs[FNR], 5) "\t" substr($0, 5) }' \
    "$work/original" "$work/ours" >"$work/differ"
cat >"$work/expected" <<END
show	(nmt (state 0x6D) (enabled 1) (ready 1) (node 7) (flags 0) (timeout 5000))	(nmt (state 0x5D) (enabled 1) (ready 0) (node 7) (flags 0) (timeout 5000))
show	(recipe (3 1200) (7 250)${none:12})	(recipe$none)
weight 0	(taken 1200)	(refused 17)
weight 1	(taken 250)	(refused 17)
recipe 5 40	(refused 16)	(taken)
nmt 0	(taken (errors (18 0xFD 0)))	(taken (errors))
weight 0	(taken 1200)	(taken 40)
weight 1	(taken 250)	(refused 17)
END
echo "The original answers the same but here:"
echo
awk -F'\t' '{ printf "    %s\n        the original:  %s\n        ours:          %s\n", $1, $2, $3 }' "$work/differ"
echo
cmp -s "$work/differ" "$work/expected" || fail "they should differ in $work/expected and nothing else."
echo "The original stands at ReadyToOperate (0x6D) with the ready word from before the reset, and what stood in its places is dosed, also when the next recipe comes. Ours stays in PreOperational2 (0x5D): it is enabled and waits for a recipe, and tells no weight before one. (The original has no recipes; its resets forget nothing, so the one beside it is kept.)"
