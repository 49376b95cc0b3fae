#!/bin/sh
# Tries the checker of demand 3 and of refusals on generated sessions, and on generated
# scripts with set-ups and bursts.
#
#   demand.sh REFERENCE LINES
#
# REFERENCE is the path of the built reference program, LINES the number of calls
# in each script, enough for an answer of each kind (20,000 are). The program's own
# answers must be kept; with a wrong value in one of a kind they must be broken at its
# line; with the last one missing they must be unusable. Exit status 0 only if so.
set -eu

SEEDS="1 2 3"

if [ $# -ne 2 ]; then
    echo "usage: demand.sh REFERENCE LINES" >&2
    exit 2
fi
reference=$1
lines=$2
here=$(cd "$(dirname "$0")" && pwd)
work=$(mktemp -d)
trap 'rm -rf "$work"' EXIT
trap 'exit 1' HUP INT TERM

# fail TEXT
fail() {
    echo "seed $seed $mode: $1" >&2
    cat "$work/report" >&2
    exit 1
}

# expect STATUS VERDICT ANSWERS: judges the answers to the script, in the mode.
expect() {
    status=0
    "$reference" demand "$work/script" "$3" $mode >"$work/report" 2>"$work/error" || status=$?
    verdict=$(tail -n 1 "$work/report")
    if [ "$status" -ne "$1" ] || [ "$verdict" != "$2" ]; then
        fail "expected '$2' with status $1, got '$verdict' with status $status"
    fi
}

# clause_of KIND: the clause that an answer of the kind breaks (wrong_answers.py).
clause_of() {
    case $1 in
    receipt) echo "receipts read in order" ;;
    sent) echo "data words sent in order, each once" ;;
    address) echo "address words taken in order, each once" ;;
    received) echo "words received read in order" ;;
    shown | none) echo "an empty read shows the word read last" ;;
    refusal) echo "other refusals have value 0" ;;
    esac
}

# try_wrong KIND LINE: one wrong value, which only the clause of its kind tells.
try_wrong() {
    expect 1 broken "$work/wrong/$1"
    grep -q "^broken: $(clause_of "$1"): line $2: " "$work/report" ||
        fail "the answer damaged on line $2 ($1) is not reported"
    [ "$(grep -c '^broken: ' "$work/report")" -eq 1 ] ||
        fail "one fault ($1) is reported for more than one clause"
}

# try_seed: one seed in one mode, `test` or none.
try_seed() {
    option=${mode:+--$mode}
    python3 -B "$here/../scripts/generate.py" "$seed" "$lines" $option >"$work/script"
    "$reference" $mode <"$work/script" >"$work/answers"
    expect 0 kept "$work/answers"

    python3 -B "$here/wrong_answers.py" $option "$work/script" "$work/answers" "$work/wrong" \
        >"$work/places"
    while read -r kind line; do
        try_wrong "$kind" "$line"
    done <"$work/places"

    sed '$d' "$work/answers" >"$work/short"
    expect 2 "" "$work/short"
    [ -s "$work/error" ] || fail "a missing answer gives no message"
}

mkdir "$work/wrong"
for seed in $SEEDS; do
    for mode in "" test; do
        try_seed
    done
done
echo "demand 3, refusals: kept for seeds $SEEDS of $lines calls, broken with a wrong value"
