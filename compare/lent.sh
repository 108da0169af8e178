#!/usr/bin/env bash
# Drives the lent forms of crate `lent` (the watched nodes as a run of records and their number, the threshold counter behind a reference) beside the other ones
# (words, and by value) with the same generated calls: every answer, word, byte and record, and the number, is compared after each call. A run of another length
# than 32, which the other form cannot be given, and a number of 33 the lent form has to decline. Then wrong forms take the place of the lent ones, and each has
# to be noticed. Needs the kit alone.
#
# The driver, compare/lent/*.rt.txt, is a program with no proof above the sources of the crates, which `rt ci` proves. `rt try` runs it, in a copy of these
# sources outside the checkout: by some calls both compiled and on the kit's interpreter, which have to print the same, and by all calls compiled. What is
# compiled stops at an index out of bounds, an overflow or a bad access. All calls are seeded. JOBS says how many wrong forms are tried at a time.
set -eu
here=$(cd "$(dirname "${BASH_SOURCE[0]}")" && pwd)
root=$(dirname "$here")
# The counts, and the messages of `rt try`. No source is put here: `rt ci` refuses one outside crates/.
kept="$root/target/compare/lent"
work=$(mktemp -d "${TMPDIR:-/tmp}/lent.XXXXXX")
trap 'rm -rf "$work"' EXIT
seeds="1 2 3 4 5"
calls=9000
# The interpreter is slow: it makes so many calls of each seed, in so many steps or less.
few=60
steps=1000000000
# Each line of the report has to count at least so many.
least=20
jobs=${JOBS:-$(nproc)}

fail() {
    echo "compare/lent.sh: $*" >&2
    exit 1
}

# What crate lent and the moment of the next tick stand on, lowest first, and they.
below() {
    awk -F': *' '/^[a-z]/ { uses[$1] = $2; order[++n] = $1 }
        function take(name, i, list) { if (taken[name]++) return; split(uses[name], list, " "); for (i in list) take(list[i]) }
        END { take("lent"); take("due"); for (i = 1; i <= n; i++) if (taken[order[i]]) print order[i] }' "$root/crates.txt"
}
crates=$(below | paste -sd ' ')

# Copies their sources into the folder $1, with the driver above them.
copy() {
    local crate file
    mkdir -p "$1/crates/lent_beside/src"
    for crate in $crates; do
        mkdir "$1/crates/$crate"
        cp -R "$root/crates/$crate/src" "$1/crates/$crate"
        grep "^$crate:" "$root/crates.txt" >>"$1/crates.txt"
    done
    echo "lent_beside: $crates" >>"$1/crates.txt"
    for file in "$here"/lent/*.rt.txt; do
        cp "$file" "$1/crates/lent_beside/src/$(basename "$file" .txt)"
    done
}

# Runs the driver of the folder $1, by $2 calls of each seed, and at most $3 steps of the interpreter. What it prints is put into the file $4, and what rt says
# beside it.
drive() {
    local listed
    listed=$(echo $seeds | sed 's/ /, /g')
    printf '// What is played.\npub const CALLS: u64 = %s;\n\npub const SEEDS: [u64; %s] = [%s];\n' "$2" "$(wc -w <<<"$seeds")" "$listed" >"$1/crates/lent_beside/src/plan.rt"
    (cd "$1/crates/lent_beside" && rt try --seconds 600 --steps "$3") >"$4" 2>"$4.log" </dev/null
}

# The driver of which $1 is the report did not end as it should, with the words $2.
ended() {
    [ -s "$1" ] || cat "$1.log" >&2
    ! grep -q '^checked: no-answer' "$1.log" || fail "the driver gave no answer within ten minutes; is the machine busy?"
    ! grep -q '^seed ' "$1" || fail "the lent form differs: $(grep '^seed ' "$1" | head -n 1)."
    fail "$2"
}

# The sum of the counts whose names match $1.
sum() {
    grep -E "^[0-9]+ ($1)\$" "$kept/report" | awk '{ n += $1 } END { print n + 0 }'
}

# The calls of the name $1, in both forms.
made() {
    sum "$1: (taken|refused.*)"
}

compare() {
    local report="$kept/report" rare
    drive "$work/right" "$few" "$steps" "$kept/few" || ended "$kept/few" "the driver could not be run by $few calls of each seed: see target/compare/lent/few.log."
    grep -q '^run=ended status=0 runners=2 ' "$kept/few.log" || ended "$kept/few" "the interpreter gave no answer: see target/compare/lent/few.log."
    ! grep -q '^seed ' "$kept/few" || ended "$kept/few" ""
    echo "Alike after each of $(sed -n 's/ calls in all$//p' "$kept/few") calls, compiled and on the interpreter."
    drive "$work/right" "$calls" 1000 "$report" || ended "$report" "the driver could not be run with the crate lent."
    grep -q ' calls in all$' "$report" || ended "$report" "the driver did not count its calls."
    rare=$(awk -v least="$least" '$1 < least' "$report")
    [ -z "$rare" ] || fail "met less than $least times: $rare"
    echo "Alike after each of $(sum 'calls in all') calls: $(made start) starts, $(made heard) of heard, $(made tick) ticks, $(made add) adds, $(made remove) removals," \
        "$(sum 'counters: calls') on counters, $(sum '[a-z]+: alone.*') of the lent form alone, and those between them."
    echo "Behind each call that is lent the nodes their bits: $(sum 'bits: written') times written, $(sum 'bits: declined') declined," \
        "$(sum 'bits: declined in the lent form only') declined in the lent form only."
    echo "Alone it declined $(sum '[a-z]+: alone, on 31 places') calls on 31 places, $(sum '[a-z]+: alone, on 33 places') on 33," \
        "$(sum '[a-z]+: alone, on another number of places') on another number of them, and $(sum '[a-z]+: alone, with a number of 33') with a number of 33; nothing was changed."
    echo "The $(wc -l <"$report") counts of target/compare/lent/report are $least or more; the least: $(sort -n "$report" | head -n 1)."
}

# Wrong form number $1: in the file $2 of the crate, the text $3 stands once; with $4 in its place, the driver has to notice
# a difference, or be stopped at an index or a range out of bounds.
notice() {
    local text rest seen top="$work/$1" report="$kept/wrong-$1"
    copy "$top"
    text=$(cat "$top/crates/lent/src/$2")
    rest=${text#*"$3"}
    [ "$rest" != "$text" ] && [ "${rest#*"$3"}" = "$rest" ] || fail "crates/lent/src/$2 does not have this once: $3"
    printf '%s\n' "${text%%"$3"*}$4$rest" >"$top/crates/lent/src/$2"
    drive "$top" "$calls" 1000 "$report" || true
    if grep -q '^seed ' "$report"; then
        seen="noticed at $(grep '^seed ' "$report")"
    elif grep -q '^checked: fault ' "$report.log"; then
        # A program with no proof may be stopped before it prints a difference: the right one, played above, is not.
        seen="stopped by a $(sed -n 's/^checked: fault kind=\([^ ]*\) in=\([^ ]*\) .*/\1 in \2/p' "$report.log" | head -n 1)"
    elif [ -s "$report" ]; then
        fail "in $2, this was not noticed: $4"
    else
        cat "$report.log" >&2
        fail "the driver could not be run with this in $2: $4"
    fi
    echo "  $1 of $wrong: $2, $4 $seen"
    rm -rf "$top" "$report" "$report.log"
}

rm -rf "$kept"
mkdir -p "$kept"
copy "$work/right"
echo "Driving the lent forms beside the others, by $calls calls of each of the seeds $seeds (a minute or two)."
compare

wrong=$(grep -c '^new: ' "$here/lent/wrong.txt") || fail "compare/lent/wrong.txt has no wrong form."
echo "Putting $wrong wrong forms in the place of the lent ones (five to fifteen minutes), $jobs at a time."
tried=0
running=()
while IFS= read -r line; do
    case $line in
    'file: '*) file=${line#file: } ;;
    'old: '*) old=${line#old: } ;;
    'new: '*)
        if [ "${#running[@]}" -ge "$jobs" ]; then
            wait "${running[0]}" || failed=1
            running=("${running[@]:1}")
        fi
        [ -z "${failed:-}" ] || break
        tried=$((tried + 1))
        notice "$tried" "$file" "$old" "${line#new: }" &
        running+=($!)
        ;;
    esac
done <"$here/lent/wrong.txt"
for job in "${running[@]}"; do
    wait "$job" || failed=1
done
[ -z "${failed:-}" ] || exit 1
echo "Noticed all $tried wrong forms."
