#!/usr/bin/env bash
# Compares our program `replay`, and the C library by build/play, with the oracle, byte for byte: on the stored call scripts, at the highest
# threshold, and on ten million generated calls.
# SEEDS names the seeds, CALLS the length of each generated script (from 200,000 on, what it reaches is held to the minima of
# coverage.rs), JOBS how many are made at a time. A script and its outputs are removed where the two agree.
set -eu
here=$(cd "$(dirname "${BASH_SOURCE[0]}")" && pwd)
root=$(dirname "$here")
seeds=${SEEDS:-$(seq -s ' ' 20)}
calls=${CALLS:-500000}
jobs=${JOBS:-$(nproc)}
oracle="$root/target/compare/cargo/release/oracle"
replay="$root/target/bin/replay"
play="$root/build/play"
work="$root/target/compare/replay"

# The number of the first line in which the files $1 and $2 differ.
first_difference() {
    awk -v other="$2" '
        (getline line <other) < 1 || line != $0 { print NR; found = 1; exit }
        END { if (!found) print NR + 1 }' "$1"
}

# The number of the line of the script $1 that printed line $2: the oracle prints at least that many for the lines up to it.
script_line() {
    local low=1 high middle
    high=$(wc -l <"$1")
    high=$((high + 1))
    while [ "$low" -lt "$high" ]; do
        middle=$(((low + high) / 2))
        if [ "$(head -n "$middle" "$1" | "$oracle" | wc -l)" -ge "$2" ]; then high=$middle; else low=$((middle + 1)); fi
    done
    echo "$low"
}

# Says where the outputs of the oracle and of $2, replay or play, for the script $1 differ, at once, since another seed may say something too.
report() {
    local line at text
    line=$(first_difference "$1.oracle" "$1.$2")
    at=$(script_line "$1.txt" "$line")
    text=$(
        echo "$(basename "$1"): the outputs differ in line $line."
        echo "  the Rust prints:  $(sed -n "${line}p" "$1.oracle" | cut -c 1-300)"
        printf '  %-18s%s\n' "$2 prints:" "$(sed -n "${line}p" "$1.$2" | cut -c 1-300)"
        echo "  line $at of the script: $(sed -n "${at}p" "$1.txt" | cut -c 1-300)"
        echo "  The script and the outputs are target/compare/replay/$(basename "$1").txt, .oracle and .$2."
    )
    echo "$text" >&2
    exit 1
}

# Gives the script $1.txt to all three.
compare() {
    local over
    "$oracle" replay <"$1.txt" >"$1.oracle"
    # Status 1: the script has a line that can't be read, as intended.
    "$replay" <"$1.txt" >"$1.replay" || [ $? -eq 1 ]
    cmp -s "$1.oracle" "$1.replay" || report "$1" replay
    # The watched nodes once as a run and once as places. With status 3 head and weigh head differ, which play itself tells.
    for over in "" --over; do
        "$play" $over <"$1.txt" >"$1.play" || [ $? -eq 1 ] || exit 1
        cmp -s "$1.oracle" "$1.play" || report "$1" play
    done
}

# Compares the two on the stored script $1.
compare_stored() {
    local name
    name=$(basename "$1" .txt)
    cp "$1" "$work/$name.txt"
    compare "$work/$name"
    echo "$name: the $(wc -l <"$work/$name.oracle") lines of replay and of the C library are the Rust's."
    rm "$work/$name".*
}

# Compares the two on the script that the seed $1 gives; with the word $2 behind it, on the script of that kind.
compare_generated() {
    local file="$work/$1${2:+-$2}" made lines
    "$oracle" generate "$1" "$calls" ${2:+"$2"} >"$file.txt" 2>"$file.coverage" || {
        echo "Seed $1${2:+, $2}: the script could not be generated as it should be:" >&2
        tail -n 20 "$file.coverage" >&2
        exit 1
    }
    compare "$file"
    made=$(sed -n 's/^Calls in all: //p' "$file.coverage")
    lines=$(wc -l <"$file.oracle")
    echo "Lines of output: $lines" >>"$file.coverage"
    echo "Seed $1${2:+, $2}: $made calls, $(wc -l <"$file.txt") lines of script; the $lines lines of replay and of the C library are the Rust's."
    rm "$file.txt" "$file.oracle" "$file.replay" "$file.play"
}

# The sum of the numbers behind $1 in the coverage reports of the seeds.
sum() {
    local seed
    for seed in $seeds; do
        sed -n "s/^ *$1: //p" "$work/$seed.coverage"
    done | awk '{ n += $1 } END { print n + 0 }'
}

echo "Proving and building replay and the C library (some minutes the first time)."
rm -rf "$work"
mkdir -p "$work"
"$root/scripts/build.sh" replay
"$root/scripts/library.sh"
make -s -C "$root" build/play

for script in "$here"/scripts/*.txt; do
    compare_stored "$script"
done

# The highest threshold, which is met by 125,000 errors, and beside it a level at 0 that grows as high.
{
    echo "start 7 0 0 2 0 1000 - 0 0 0 0 15 15 15 1000000 15 0 15"
    yes $'error 8 0 0\nerror 3 0 0' | head -n 249998
    printf '%s\n' show 'error 8 0 0' 'error 3 0 0' show cycle show
} >"$work/highest.txt"
compare "$work/highest"
echo "highest: a threshold of 1,000,000 is met by error 125,000; the $(wc -l <"$work/highest.oracle") lines of replay and of the C library are the Rust's."
rm "$work"/highest.*

# As many seeds at a time as there are jobs: before a further one is begun, the oldest has to end.
running=()
for seed in $seeds; do
    if [ "${#running[@]}" -ge "$jobs" ]; then
        wait "${running[0]}" || failed=1
        running=("${running[@]:1}")
    fi
    [ -z "${failed:-}" ] || break
    compare_generated "$seed" &
    running+=($!)
done
for job in "${running[@]}"; do
    wait "$job" || failed=1
done
[ -z "${failed:-}" ] || exit 1
# The script of the first seed once more, with a load of what each reset restored behind it.
file="$work/${seeds%% *}-restored"
"$oracle" generate "${seeds%% *}" "$calls" 2>/dev/null | "$oracle" restore >"$file.txt"
compare "$file"
echo "Seed ${seeds%% *}, restored: $(grep -c '^load ' "$file.txt") loads in $(wc -l <"$file.txt") lines of script; the $(wc -l <"$file.oracle") lines of replay and of the C library are the Rust's."
rm "$file".*
# The calls on the desk's buffer, which no call on a head looks at, have a script of their own.
compare_generated "${seeds%% *}" desk
echo "Compared $(sum 'Calls in all') generated calls, $(sum tick) of them ticks, and $(sum show) shows of the head: replay, the C library and the Rust print the same $(sum 'Lines of output') lines."
