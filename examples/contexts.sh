#!/bin/sh
# Runs four_threads_of_contexts by Robin, and under `--mix` 0 to 15 with one processor and with four: in each order of the
# accesses every thread takes its signal, all shadow stacks are switched to as often, no record is a fault or a kill, and
# the process ends by exit with 0. The first argument may name another program.
cd "$(dirname "$0")" || exit 1
cetvm=${1:-../crates/cetvm/out/cetvm}
if [ ! -x "$cetvm" ]; then
    echo "contexts: no program at $cetvm"
    exit 1
fi
work=$(mktemp -d) || exit 1
trap 'rm -rf "$work"' EXIT
"$cetvm" asm --runtime < four_threads_of_contexts.s > "$work/image" || exit 1
failed=0
count=0

# the records of a kind in the report
records() {
    grep -c "^[0-9]* $1 " "$work/report"
}

run() {
    count=$((count + 1))
    "$cetvm" "$@" < "$work/image" > "$work/report" 2> "$work/line"
    told="$? $(cat "$work/line")$(tail -n 1 "$work/report")"
    told="$told, $(records '[#k][A-Zi].*') faults, $(records signal) signals, $(records sigret) returns, $(records take) switches, $(records save) saves"
    if [ "$told" != "0 process exit 0, 0 faults, 4 signals, 4 returns, 360 switches, 360 saves" ]; then
        echo "contexts: $* leads to $told"
        failed=1
    fi
}

run run
for number in 0 1 2 3 4 5 6 7 8 9 10 11 12 13 14 15; do
    run replay --mix $number
    run replay --procs 1 --mix $number
done
if [ "$failed" = 0 ]; then
    echo "contexts: $count runs, each with four threads that end by exit"
fi
exit "$failed"
