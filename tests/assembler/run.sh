#!/bin/sh
# Assembles the cases beside this script with the program that `rt ci` has left, and compares: the listing of each
# NAME.s with NAME.listing, and the first faulty line of each text of faults.txt and the rule that it breaks. The first
# argument may name another program.
cd "$(dirname "$0")" || exit 1
cetvm=${1:-../../crates/cetvm/out/cetvm}
if [ ! -x "$cetvm" ]; then
    echo "assembler: no program at $cetvm"
    exit 1
fi
work=$(mktemp -d) || exit 1
trap 'rm -rf "$work"' EXIT
failed=0
count=0

fail() {
    echo "assembler: $1"
    failed=1
}

for source in *.s; do
    name=${source%.s}
    count=$((count + 1))
    "$cetvm" asm < "$source" > "$work/image" || fail "$source is not assembled"
    "$cetvm" dis < "$work/image" > "$work/listing" || fail "$name is not listed"
    cmp "$work/listing" "$name.listing" || fail "the listing of $name is another one"
done

while IFS= read -r row; do
    count=$((count + 1))
    # The text is a format of printf, for its escapes.
    fault=$(printf -- "${row#*: }" | "$cetvm" asm 2>&1 > "$work/image" | sed 's/^cetvm: line \([0-9]*\): rule /\1 /')
    [ "$fault" = "${row%%:*}" ] || fail "$row: the fault is $fault"
done < faults.txt

# A text with 20,000 labels and as many uses, whose words are all 0x450000; one with a label that is defined twice.
awk 'BEGIN { for (i = 0; i < 20000; i++) print ".quad a" i ", _start"; print ".data"
    for (i = 0; i < 20000; i++) print "a" i ":"; print "_start: nop" }' | "$cetvm" asm > "$work/image" || fail "20,000 labels are not assembled"
words=$(od -An -v -tx8 -w8 -j4096 -N320000 "$work/image" | sort -u)
[ "$words" = " 0000000000450000" ] || fail "20,000 labels have other addresses: $words"
awk 'BEGIN { for (i = 0; i < 10000; i++) print "a" i ": nop"; print "b: a9999: nop" }' | "$cetvm" asm 2> "$work/fault" > "$work/image"
[ "$(cat "$work/fault")" = "cetvm: line 10001: rule 5" ] || fail "a label that is defined again: $(cat "$work/fault")"

if [ "$failed" = 0 ]; then
    echo "assembler: $((count + 2)) cases as stated"
fi
exit "$failed"
