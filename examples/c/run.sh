#!/bin/sh
# Builds the programs by gcc and ld and by clang and lld, where these are there, and runs each natively and in cetvm: the
# exit status has to be one, and the one that the program's head states. Then each case of avoid.c has to end by #UD at
# the instruction that its comment names. The first argument may name another program than the one that `rt ci` has left.
cd "$(dirname "$0")" || exit 1
cetvm=${1:-../../crates/cetvm/out/cetvm}
picture=../../tools/picture/picture.py

skip() {
    echo "examples/c: skipped, $1"
    exit 0
}

[ -x "$cetvm" ] || skip "there is no program at $cetvm"
[ "$(uname -sm)" = "Linux x86_64" ] || skip "this is no Linux on x86-64"
command -v make > /dev/null || skip "make isn't there"
work=$(mktemp -d) || exit 1
trap 'rm -rf "$work"' EXIT
failed=0
images=0
cases=0

fail() {
    echo "examples/c: $1"
    failed=1
}

# Whether all of some commands are there.
have() {
    for command in "$@"; do
        command -v "$command" > /dev/null || return 1
    done
}

# Runs an image natively and in cetvm.
compare() {
    name=$(basename "$1")
    wanted=$(sed -n 's/.*Exit status \([0-9]*\)\..*/\1/p' "${name%.*}.c")
    [ -n "$wanted" ] || fail "$name: its source states no exit status"
    "$1"
    native=$?
    [ "$native" = "$wanted" ] || fail "$name ends natively with $native, and not $wanted"
    [ "$("$cetvm" check < "$1")" = accepted ] || fail "$name is not accepted"
    "$cetvm" run < "$1" > "$1.report" 2> "$1.line" || fail "$name: $(cat "$1.line")"
    [ "$(tail -n 1 "$1.report")" = "process exit $native" ] || fail "$name: $(tail -n 1 "$1.report"), natively $native"
    images=$((images + 1))
}

# A picture with the names of the image's functions.
draw() {
    nm "$1" > "$1.symbols" || fail "nm doesn't read $1"
    "$picture" svg --symbols "$1.symbols" < "$1.report" > "$1.svg" || fail "$1 has no picture"
    grep -q "<title>$2" "$1.svg" || fail "the picture of $1 doesn't name $2"
}

build() {
    make -s OUT="$work" "$1" || fail "the images of $1 aren't built"
    for program in recursion pointers coroutine instead; do
        compare "$work/$program.$1"
    done
    [ "$(grep -c '^0 take ' "$work/coroutine.$1.report")" = 22 ] || fail "coroutine.$1 doesn't switch 22 times"
    have nm python3 && draw "$work/recursion.$1" ackermann
}

# A case of avoid.c: the instruction at the address of the #UD is the one that its comment names.
avoid() {
    make -s OUT="$work" "$work/avoid$1" || fail "case $1 of avoid.c isn't built"
    "$cetvm" run < "$work/avoid$1" > "$work/report" 2> "$work/line"
    [ "$?" = 7 ] || fail "case $1 of avoid.c isn't killed"
    [ "$(cat "$work/line")" = "cetvm: killed by 4" ] || fail "case $1 of avoid.c: $(cat "$work/line")"
    place=$(sed -n 's/^0 #UD \([0-9a-f]*\) .*/\1/p' "$work/report")
    found=$(objdump -d --no-show-raw-insn --start-address="0x$place" "$work/avoid$1" | sed -n 's/^ *[0-9a-f]*:[[:blank:]]*//p' | head -n 1)
    case "$found " in
        "$2 "*) cases=$((cases + 1)) ;;
        *) fail "case $1 of avoid.c ends at '$found', and not at $2" ;;
    esac
}

if have gcc ld; then build gcc; else echo "examples/c: no gcc and ld"; fi
if have clang ld.lld; then build clang; else echo "examples/c: no clang and lld"; fi
if have gcc ld objdump; then
    sed -n 's/^#.*if CASE == \([0-9]*\) .*: \([a-z]*\) \*\/$/\1 \2/p' avoid.c > "$work/cases"
    while read -r number name; do
        avoid "$number" "$name"
    done < "$work/cases"
    [ "$cases" -ge 10 ] || fail "only $cases cases of avoid.c"
fi
[ "$failed" = 0 ] && echo "examples/c: $images images end as natively, $cases cases of code to avoid end by #UD"
exit "$failed"
