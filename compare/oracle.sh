#!/usr/bin/env bash
# The Rust as oracle: compares it with the stored outputs, generates scripts and reports what they reached, and tries its further
# modes on them. CALLS names the length of a generated script.
set -eu
here=$(cd "$(dirname "${BASH_SOURCE[0]}")" && pwd)
root=$(dirname "$here")
calls=${CALLS:-200000}

"$here/run.sh"
oracle="$root/target/compare/cargo/release/oracle"
work="$root/target/compare/generated"
mkdir -p "$work"

# The first line of a stored generated script says with which words it was made.
for script in "$here"/scripts/generated-*.txt; do
    name=$(basename "$script")
    read -ra words < <(sed -n '1s/^# Generated: oracle \(generate [^.]*\)\..*/\1/p' "$script")
    if "$oracle" "${words[@]}" 2>/dev/null | cmp -s - <(tail -n +2 "$script"); then
        echo "$name: the generator gives it again by '${words[*]}'."
    else
        echo "$name: the generator gives another script by '${words[*]}'." >&2
        exit 1
    fi
done

if "$oracle" restore <"$here/scripts/resets.txt" | cmp -s - <(tail -n +2 "$here/scripts/restored.txt"); then
    echo "restored.txt: it is resets.txt with a load of what each reset restored."
else
    echo "restored.txt is not what 'oracle restore' makes of resets.txt." >&2
    exit 1
fi

for seed in 1 2; do
    echo "Generating a script of $calls calls with seed $seed."
    "$oracle" generate "$seed" "$calls" >"$work/$seed.txt"
    "$oracle" replay <"$work/$seed.txt" >"$work/$seed.out"
    echo "Seed $seed: $(wc -l <"$work/$seed.txt") lines of script, $(wc -l <"$work/$seed.out") lines of output."
done
echo "Generating a script of $calls calls without ticks, with seed 1."
"$oracle" generate 1 "$calls" without-ticks >"$work/without-ticks.txt" 2>"$work/without-ticks.coverage" || {
    tail -n 20 "$work/without-ticks.coverage" >&2
    exit 1
}
echo "Running the Rust where refusal 6 stands in front of it: it has to panic."
"$oracle" panics <"$work/1.txt"
echo "Giving a counter of the Rust at threshold 0 errors up to the 32-bit top: its level has to stop there."
"$oracle" top
echo "Giving the dictionary default values, and loading what each reset restored: the heads have to stay alike."
"$oracle" restore <"$work/1.txt" >"$work/restored.txt"
echo "$(wc -l <"$work/restored.txt") lines with $(($(wc -l <"$work/restored.txt") - $(wc -l <"$work/1.txt"))) loads behind resets."
echo "Running ticks of the Rust at each earliest moment and just before it: a watched node has to be late at the moment, and none before."
"$oracle" moments <"$work/1.txt"
