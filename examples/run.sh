#!/bin/sh
# Assembles, lists and runs each example with the program that `rt ci` has left, and compares with the files beside it:
# NAME.listing, NAME.report where there is one, and NAME.status, which has the exit status and the line on standard
# error. The text of each listing without a short jump is assembled again, and listed the same. A NAME.words has the
# words by which the source is assembled, and those by which its image is run, where these aren't `asm` and `run`. With
# `--trace last` the report has of each thread its last record alone. The first argument may name another program.
cd "$(dirname "$0")" || exit 1
cetvm=${1:-../crates/cetvm/out/cetvm}
if [ ! -x "$cetvm" ]; then
    echo "examples: no program at $cetvm"
    exit 1
fi
work=$(mktemp -d) || exit 1
trap 'rm -rf "$work"' EXIT
failed=0
count=0

fail() {
    echo "examples: $1"
    failed=1
}

# A report with each thread's last record alone.
last_records() {
    awk '/^[0-9]/ { last = $0; next } last != "" { print last; last = "" } { print }' "$1"
}

for source in *.s; do
    name=${source%.s}
    count=$((count + 1))
    printf 'asm\nrun\n' > "$work/words"
    if [ -f "$name.words" ]; then cp "$name.words" "$work/words"; fi
    { read -r made; read -r run; } < "$work/words"
    # The words are split at blanks, and a `*` in them is no pattern.
    # shellcheck disable=SC2086
    "$cetvm" $made < "$source" > "$work/image" || fail "$source is not assembled"
    "$cetvm" dis < "$work/image" > "$work/listing" || fail "$name is not listed"
    cmp "$work/listing" "$name.listing" || fail "the listing of $name is another one"
    # A listing has no word for a jump's form of one byte, so it is read back as the longer one.
    if ! grep -qE '^[0-9a-f]{16} (eb|7[0-9a-f])[0-9a-f]{2} j' "$work/listing"; then
        cut -d' ' -f3- "$work/listing" | "$cetvm" asm | "$cetvm" dis | cmp - "$work/listing" || fail "the listing of $name isn't read back"
    fi
    # shellcheck disable=SC2086
    (set -f; "$cetvm" $run < "$work/image") > "$work/report" 2> "$work/line"
    echo "$?" > "$work/status"
    cat "$work/line" >> "$work/status"
    cmp "$work/status" "$name.status" || fail "$name ends otherwise"
    if [ -f "$name.report" ]; then
        cmp "$work/report" "$name.report" || fail "the report of $name is another one"
    fi
    case $run in
    *--trace*) continue ;;
    esac
    last_records "$work/report" > "$work/last"
    # shellcheck disable=SC2086
    (set -f; "$cetvm" $run --trace last < "$work/image") 2> "$work/line" | cmp - "$work/last" ||
        fail "the report of $name with last records is another one"
    # shellcheck disable=SC2086
    (set -f; "$cetvm" $run --trace=full < "$work/image") 2> "$work/line" | cmp - "$work/report" ||
        fail "the report of $name with full traces is another one"
done

"$cetvm" asm < exit_seven.s | cmp - ../crates/cetvm/stdin || fail "the stored run has another image than exit_seven.s"
if [ "$failed" = 0 ]; then
    echo "examples: $count as stated"
fi
exit "$failed"
