#!/bin/sh
# Checks the samples: makes each one's book with RULETEXT, runs PROGRAM on it and
# compares what it prints with NAME.expected. One line a sample; the exit status
# is 0 only if all of them agree.
set -u
if [ $# -ne 2 ]; then
    echo "usage: run.sh PROGRAM RULETEXT" >&2
    exit 2
fi
program=$1
ruletext=$2
samples=$(dirname "$0")
work=$(mktemp -d) || exit 2
trap 'rm -rf "$work"' EXIT

# verdict NAME: what came of a sample, "ok" if its answer is the expected one
verdict() {
    if ! "$ruletext" book <"$samples/$1.rules" >"$work/book"; then
        echo "no book was made"
    elif ! "$program" <"$work/book" >"$work/answer"; then
        echo "the program failed"
    elif ! cmp -s "$work/answer" "$samples/$1.expected"; then
        echo "the answer differs"
    else
        echo ok
    fi
}

status=0
for rules in "$samples"/*.rules; do
    name=$(basename "$rules" .rules)
    came=$(verdict "$name")
    echo "$name: $came"
    [ "$came" = ok ] || status=1
done
exit $status
