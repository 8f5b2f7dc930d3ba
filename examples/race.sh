#!/bin/sh
# Runs token_race under `--mix` 0 to 63: in each order of the accesses exactly one thread takes the stack, the other
# gets #CP with code 4, and that kills the process. The first argument may name another program.
cd "$(dirname "$0")" || exit 1
cetvm=${1:-../crates/cetvm/out/cetvm}
if [ ! -x "$cetvm" ]; then
    echo "examples/race: no program at $cetvm"
    exit 1
fi
work=$(mktemp -d) || exit 1
trap 'rm -rf "$work"' EXIT
failed=0
first=0

"$cetvm" asm < token_race.s > "$work/image" || exit 1
seed=0
while [ "$seed" -lt 64 ]; do
    "$cetvm" replay --mix "$seed" < "$work/image" > "$work/report" 2> "$work/line"
    code=$?
    takes=$(grep -c '^[01] take ' "$work/report")
    misses=$(grep -c '^[01] #CP [0-9a-f]* 4 000000020000aff8 ' "$work/report")
    if [ "$code $takes $misses $(cat "$work/line")" != "7 1 1 cetvm: killed by 11" ]; then
        echo "examples/race: --mix $seed ends with $code, $takes takes and $misses misses"
        failed=1
    fi
    first=$((first + $(grep -c '^0 take ' "$work/report")))
    seed=$((seed + 1))
done
if [ "$first" = 0 ] || [ "$first" = 64 ]; then
    echo "examples/race: one thread takes the stack in every order"
    failed=1
fi
[ "$failed" = 0 ] && echo "examples/race: 64 orders, and thread 0 is first in $first of them"
exit "$failed"
