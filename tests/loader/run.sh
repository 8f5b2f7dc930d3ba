#!/bin/sh
# Makes the files of damaged_images.txt and asks the program that `rt ci` has left whether they are images. The first
# argument may name another program.
cd "$(dirname "$0")" || exit 1
cetvm=${1:-../../crates/cetvm/out/cetvm}
if [ ! -x "$cetvm" ]; then
    echo "loader: no program at $cetvm"
    exit 1
fi
work=$(mktemp -d) || exit 1
trap 'rm -rf "$work"' EXIT
failed=0
count=0

fail() {
    echo "loader: $1"
    failed=1
}

# Changes the file: `size=N` cuts it, and `PLACE=BYTE,BYTE..` puts bytes there.
change() {
    values=${1#*=}
    if [ "${1%%=*}" = size ]; then
        head -c "$values" "$work/whole" > "$work/image"
        return
    fi
    for byte in $(echo "$values" | tr , ' '); do
        printf "\\$(printf %03o "$byte")"
    done | dd of="$work/image" bs=1 seek="${1%%=*}" conv=notrunc 2> "$work/dd"
}

"$cetvm" asm < ../../examples/exit_seven.s > "$work/whole" || fail "examples/exit_seven.s is not assembled"
grep -v '^#' damaged_images.txt > "$work/cases"
while IFS= read -r case; do
    count=$((count + 1))
    cp "$work/whole" "$work/image"
    for part in ${case#*: }; do
        change "$part"
    done
    "$cetvm" check < "$work/image" 2>&1 | sed 's/^cetvm: refused: rule \([0-9]*\) at /\1 /' > "$work/answer"
    [ "$(cat "$work/answer")" = "${case%%:*}" ] || fail "$case: $(cat "$work/answer")"
done < "$work/cases"

# A file with data: the text at 4096, and three bytes of data at the next multiple of 4096.
printf '_start: nop\n.data\n.byte 1, 2, 3\n' | "$cetvm" asm > "$work/image" || fail "a text with data is not assembled"
"$cetvm" check < "$work/image" > "$work/answer" 2>&1 || fail "a file with data: $(cat "$work/answer")"
found=$(od -An -v -tu1 -j8191 "$work/image")
[ "$found" = "   0   1   2   3" ] || fail "a file with data ends with $found"

if [ "$failed" = 0 ]; then
    echo "loader: $((count + 1)) files as stated"
fi
exit "$failed"
