#!/bin/sh
# Compares the answers of two programs to generated scripts, byte by byte.
#
#   compare.sh PROGRAM REFERENCE LINES [--test]
#
# PROGRAM and REFERENCE are commands that read a script from standard input.
# LINES is the number of calls in all, shared out over the seeds. With --test
# the scripts have set-up and burst lines. Exit status 0 only if all output is the
# same, both programs end with status 0 and all that the coverage asks for occurred.
set -eu

SEEDS="1 2 3 5 8 13 21 34"
SHORT_SEEDS="1 2 3"
SHORT_LINES="0 1 2 7"

if [ $# -lt 3 ] || [ $# -gt 4 ] || [ "${4:---test}" != --test ]; then
    echo "usage: compare.sh PROGRAM REFERENCE LINES [--test]" >&2
    exit 2
fi
program=$1
reference=$2
lines=$3
mode=${4:-}
here=$(cd "$(dirname "$0")" && pwd)
scripts=$here/../scripts
work=$(mktemp -d)
trap 'rm -rf "$work"' EXIT
trap 'exit 1' HUP INT TERM

# run COMMAND SCRIPT OUTPUT
run() {
    if ! sh -c "exec $1" <"$2" >"$3"; then
        echo "failed: $1" >&2
        exit 1
    fi
}

# compare_script SEED LINES NAME
compare_script() {
    script=$work/$3.script
    python3 -B "$scripts/generate.py" "$1" "$2" $mode >"$script"
    run "$program" "$script" "$work/$3.program"
    run "$reference" "$script" "$work/$3.reference"
    if ! cmp -s "$work/$3.program" "$work/$3.reference"; then
        echo "seed $1, $2 lines: the outputs differ" >&2
        python3 -B "$here/difference.py" $mode "$script" "$work/$3.program" \
            "$work/$3.reference" >&2
        exit 1
    fi
    total=$((total + $(wc -l <"$work/$3.program")))
    rm "$work/$3.program"
}

set -- $SEEDS
share=$(((lines + $# - 1) / $#))
total=0
pairs=
for seed in $SEEDS; do
    compare_script "$seed" "$share" "$seed"
    pairs="$pairs $work/$seed.script $work/$seed.reference"
done
for seed in $SHORT_SEEDS; do
    for count in $SHORT_LINES; do
        compare_script "$seed" "$count" short
    done
done
status=0
python3 -B "$scripts/coverage.py" $mode $pairs || status=$?
echo "$total lines of output compared, no difference"
exit $status
