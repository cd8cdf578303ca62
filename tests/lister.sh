#!/usr/bin/env bash
# Runs the lister on the texts of tests/lister/ and compares what it prints; its last line is 'N passed, M failed'.
set -euo pipefail
cd "$(dirname "$0")/.."
source tests/machine.sh
source tests/tally.sh
lister=crates/lister/out/lister
(cd crates/lister && rt run) </dev/null >&2
work=$(mktemp -d)
trap 'rm -rf "$work"' EXIT

# judge NAME EXPECTED ERRORS: what was printed on standard output, and how many lines on standard error.
judge() {
    if cmp -s "$2" "$work/out" && [ "$(wc -l <"$work/err")" -eq "$3" ]; then
        passed=$((passed + 1))
    else
        echo "$1: printed"
        head -n 5 "$work/out" "$work/err"
        failed=$((failed + 1))
    fi
}

# listed NAME INPUT EXPECTED: a text from a file.
listed() {
    "${RUN[@]}" "$lister" <"$2" >"$work/out" 2>"$work/err" || true
    judge "$1" "$3" 0
}

part "table of the stored runs" tests/stored.py
for text in tests/lister/*.in; do
    listed "$(basename "$text" .in)" "$text" "${text%.in}.out"
done
for text in examples/*.cosim; do
    listed "$text" "$text" "tests/lister/example_$(basename "$text" .cosim).out"
done

# Texts about the limit: one byte within it without an LF, one byte over it, and far over it.
printf 'refused\t21\t1\n' >"$work/unended"
printf 'refused\t20\t0\n' >"$work/over"
for size in 24576 24577 24578 1000000; do
    head -c "$size" /dev/zero | tr '\0' 'a' >"$work/text"
    if [ "$size" -eq 24576 ]; then expected=$work/unended; else expected=$work/over; fi
    listed "$size bytes" "$work/text" "$expected"
done

# A pipe that gives a few bytes at a time is read to its end.
(while IFS= read -r line; do printf '%s\n' "$line"; sleep 0.01; done) <tests/lister/document.in \
    | "${RUN[@]}" "$lister" >"$work/out" 2>"$work/err" || true
judge "slow pipe" tests/lister/document.out 0

# Input that cannot be read: nothing on standard output, one line on standard error.
: >"$work/nothing"
"${RUN[@]}" "$lister" <&- >"$work/out" 2>"$work/err" || true
judge "closed standard input" "$work/nothing" 1
"${RUN[@]}" "$lister" <. >"$work/out" 2>"$work/err" || true
judge "a folder as standard input" "$work/nothing" 1

finish
