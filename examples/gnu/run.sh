#!/bin/sh
# Builds an image with GNU as and ld, where they are there, and compares what `check` and `run` say of it. The first
# argument may name another program than the one that `rt ci` has left.
cd "$(dirname "$0")" || exit 1
cetvm=${1:-../../crates/cetvm/out/cetvm}
if ! command -v as > /dev/null || ! command -v ld > /dev/null; then
    echo "examples/gnu: skipped, no GNU as and ld"
    exit 0
fi
work=$(mktemp -d) || exit 1
trap 'rm -rf "$work"' EXIT

fail() {
    echo "examples/gnu: $1"
    exit 1
}

as --64 -o "$work/linked.o" linked.s || fail "not assembled"
ld -z shstk -o "$work/linked" "$work/linked.o" || fail "not linked"
[ "$("$cetvm" check < "$work/linked")" = accepted ] || fail "not accepted"
"$cetvm" run < "$work/linked" > "$work/report" 2> "$work/line"
[ "$?" = 0 ] || fail "another exit status than 0"
[ -s "$work/line" ] && fail "a line on standard error: $(cat "$work/line")"
cmp "$work/report" linked.report || fail "another report"
echo "examples/gnu: a linked image runs as stated"
