#!/usr/bin/env bash
# Plays the call script $1 through `replay`, or the program that the words behind it name, and prints each of its lines with what it answered below it.
set -eu
cd "$(dirname "${BASH_SOURCE[0]}")/.."
script=$1
shift
# Status 1: a line of the script can't be read; its answer says so.
"${@:-target/bin/replay}" <"$script" >target/run.out || [ $? -eq 1 ]
# A comment, an empty line, a run and a desk answer nothing. `show` answers its first form and those behind it up to the next answer, which begins with one of five words.
awk -v answers=target/run.out '
    function more() {
        if (!read) read = (getline answer <answers)
        return read > 0
    }
    { print }
    /^(#|$|watch |unwatch$|lend |desk )/ { next }
    {
        do {
            if (!more()) exit 1
            print "    " answer
            read = 0
        } while ($0 == "show" && more() && answer !~ /^\((taken|refused|unreadable|nmt|why)[ )]/)
    }' "$script"
