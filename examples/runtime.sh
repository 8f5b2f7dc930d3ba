#!/bin/sh
# Tries `asm --runtime` and `bench` of the program that `rt ci` has left. The first gives what `asm` gives of the source, a
# newline and the runtime, which tools/texts.py makes from its lines. The second writes its line twice the same, and reads
# nothing. The first argument may name another program.
cd "$(dirname "$0")" || exit 1
cetvm=${1:-../crates/cetvm/out/cetvm}
if [ ! -x "$cetvm" ]; then
    echo "runtime: no program at $cetvm"
    exit 1
fi
work=$(mktemp -d) || exit 1
trap 'rm -rf "$work"' EXIT
failed=0
count=0
longest=8388608

fail() {
    echo "runtime: $1"
    failed=1
}

# the program by these words on $work/source: the status, and then the line on standard error
answers() {
    "$cetvm" "$@" < "$work/source" > "$work/image" 2> "$work/error"
    echo "$? $(cat "$work/error")"
}

# The source on standard input is assembled with the runtime as with its text behind a newline.
same() {
    count=$((count + 1))
    cat > "$work/source"
    { cat "$work/source"; echo; cat "$work/runtime"; } | "$cetvm" asm > "$work/wanted" || fail "$1: its text isn't assembled"
    told=$(answers asm --runtime)
    [ "$told" = "0 " ] || fail "$1 is answered $told"
    cmp "$work/image" "$work/wanted" || fail "$1 has another image"
}

# The source on standard input breaks a rule at a line.
refused() {
    count=$((count + 1))
    cat > "$work/source"
    told=$(answers asm --runtime)
    [ "$told" = "5 cetvm: line $2: rule $3" ] || fail "$1 is answered $told, and not line $2, rule $3"
    [ -s "$work/image" ] && fail "$1 has an image"
}

# so many bytes, all the same
bytes() {
    head -c "$2" /dev/zero | tr '\0' "$1"
}

../tools/texts.py runtime > "$work/runtime" || fail "there is no runtime to compare with"

same "no source" < /dev/null
echo | same "an empty line"
printf '_start: jmp _start' | same "a last line without its newline"
printf '_start: jmp _start\n' | same "a last line with its newline"
printf '_start: call swapcontext ; the end' | same "a comment at the end"
printf '_start: ud2\n# the end' | same "a comment alone at the end"
printf 'here:' | same "a label at the end"
printf '.data\nroutines: .quad swapcontext, here\n.text\nhere: ud2\n.data' | same "a source that ends in its data"
printf '.mark 3\nud2' | same "another mark"
printf 'ud2 # swapcontext: ud2' | same "a routine's name in a comment"
for source in *.s; do
    same "$source" < "$source"
done

# Labels that both define: the second place is in the runtime, whose text begins behind the newline.
sed -n 's/^\([a-z_]*\):.*/\1/p' "$work/runtime" > "$work/labels"
while read -r label; do
    line=$(sed -n "/^$label:/=" "$work/runtime")
    printf '%s: ud2' "$label" | refused "$label without a newline" $((1 + line)) 5
    printf '%s: ud2\n' "$label" | refused "$label with a newline" $((2 + line)) 5
done < "$work/labels"
printf 'a:\nsetjmp: call b\nb: ud2\n\n' | refused "setjmp behind another line" $((5 + $(sed -n '/^setjmp:/=' "$work/runtime"))) 5
printf 'longjmp:\ngetcontext:\n' | refused "two routines" 5 5

# Faults of the source's own stand at its own lines, and its last line ends with it.
printf 'mov eax,' | refused "an operand that is missing" 1 2
printf 'ud2\nfrob' | refused "an unknown mnemonic" 2 1
printf 'call swap_context' | refused "an unknown label" 1 4
printf 'a: ud2\na: ud2\nsetjmp: ud2' | refused "a label of its own, twice" 2 5
printf 'ud2\n;\377' | refused "no text" 2 9
printf '.zero 4190209' | refused "too many bytes" 1 8
# With a routine's first instruction it is too long.
printf '.zero 4190208' | refused "a text that leaves no page" 3 8
printf '.data\n.zero 4190208\n' | refused "data that leave no page" 5 8

# The longest source. The runtime behind it doesn't count as a part of it.
"$cetvm" asm < "$work/runtime" > "$work/alone" || fail "the runtime alone isn't assembled"
alone() {
    count=$((count + 1))
    cat > "$work/source"
    told=$(answers asm --runtime)
    [ "$told" = "0 " ] || fail "$1 is answered $told"
    cmp "$work/image" "$work/alone" || fail "$1 has another image"
}
{ printf '#'; bytes x $((longest - 1)); } | alone "a comment as long as may be"
{ bytes ' ' $((longest - 6)); printf '.text '; } | alone "as many blanks as may be"
{ bytes '\n' $((longest - 12)); printf 'swapcontext:'; } > "$work/long"
refused "swapcontext behind as many lines as may be" $((longest - 11 + $(sed -n '/^swapcontext:/=' "$work/runtime"))) 5 < "$work/long"
count=$((count + 1))
bytes '\n' $((longest + 1)) > "$work/source"
told=$(answers asm --runtime)
[ "$told" = "6 cetvm: input too long" ] || fail "a byte too much is answered $told"
[ -s "$work/image" ] && fail "a byte too much has an image"

# 61 records for each swap there and back, and 26 besides. The input is a directory, which can't be read.
for swaps in 1 2 7 999 1000; do
    count=$((count + 1))
    line="bench $swaps records $((26 + 61 * swaps)) process exit 0"
    for time in first second; do
        "$cetvm" bench $swaps < / > "$work/$time" 2> "$work/error"
        told="$? $(cat "$work/error")"
        [ "$told" = "0 " ] || fail "bench $swaps is answered $told"
    done
    echo "$line" | cmp - "$work/first" || fail "bench $swaps writes another line"
    cmp "$work/first" "$work/second" || fail "bench $swaps writes another line the second time"
done
count=$((count + 1))
[ "$("$cetvm" bench 0x07 < /dev/null)" = "bench 7 records 453 process exit 0" ] || fail "bench 0x07 isn't bench 7"
for swaps in 1 7; do
    count=$((count + 1))
    ../tools/texts.py bench $swaps | "$cetvm" asm --runtime > "$work/image" || fail "the program of bench isn't assembled"
    told=$("$cetvm" run < "$work/image" | sed -n 's/^thread 0 records \([0-9]*\) group$/\1/p')
    [ "$told" = $((26 + 61 * swaps)) ] || fail "the program of bench $swaps has $told records"
done
count=$((count + 1))
"$cetvm" bench 1 < /dev/null > /dev/full 2> "$work/error"
told="$? $(cat "$work/error")"
[ "$told" = "3 cetvm: write fault" ] || fail "bench without room is answered $told"

if [ "$failed" = 0 ]; then
    echo "runtime: $count cases as stated"
fi
exit "$failed"
