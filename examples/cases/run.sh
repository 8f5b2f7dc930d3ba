#!/bin/sh
# Runs the program that `rt ci` has left on the cases beside this file, and compares what it writes. The first argument
# may name another program.
#
# NAME.case is one run. Its first lines have keys: `words:`, `status:` (the exit status), `line:` (that on standard
# error), `patch: OFFSET HEX` (bytes of the image that are written over) and `cut: SIZE` (the image's first bytes). Behind
# `source:` stands an assembler text, whose image is the input (of `asm` the text itself), and behind `output:` what is
# written; nothing, where that is missing. A run is made once more with `--trace last`, by which each thread has its last
# record alone, and by `smp`, where it has one thread.
#
# words.cases has a list of words a line, and before it the number of its first faulty word, or `-` where it is a command.
# odd_words.cases has the same with words that have blanks or bytes that are no text: `\\0` and three octal digits is a
# byte, and `''` an empty word.
# texts.cases has a text a line, with `|` for a newline, and before it the line and the rule that it breaks.
# images.cases has a change of an image a line: the rule that it breaks and the place, and then a `patch` or `cut`.
# map_shadow_stack_arguments.cases has a call from a fresh start a line: its result, address, size and flags, and, where it
# makes a stack, how this is shown.
cd "$(dirname "$0")" || exit 1
cetvm=${1:-../../crates/cetvm/out/cetvm}
if [ ! -x "$cetvm" ]; then
    echo "cases: no program at $cetvm"
    exit 1
fi
work=$(mktemp -d) || exit 1
trap 'rm -rf "$work"' EXIT
failed=0
count=0

fail() {
    echo "cases: $1"
    failed=1
}

../../tools/texts.py help > "$work/help" || fail "there is no help to compare with"

# writes bytes, in hexadecimal, over those of a file from a place on
patch() {
    octal=$(echo "$3" | sed 's/../0x& /g' | xargs -n 1 printf '\\0%03o')
    printf '%b' "$octal" | dd of="$1" bs=1 seek="$2" conv=notrunc 2> /dev/null
}

# cuts a file off
cut_off() {
    head -c "$2" "$1" > "$work/part" && mv "$work/part" "$1"
}

# the program by these words on $work/input: the status, and then the line on standard error. Behind the line of faulty
# words stands the help.
answers() {
    "$cetvm" "$@" < "$work/input" > "$work/written" 2> "$work/error"
    code=$?
    line=$(cat "$work/error")
    if [ "$code" = 1 ]; then
        line=$(head -n 1 "$work/error")
        sed 1d "$work/error" | cmp -s - "$work/help" || line="$line, without the help"
    fi
    echo "$code $line"
}

for case in *.case; do
    set -f # a `*` in words is no pattern
    name=${case%.case}
    count=$((count + 1))
    : > "$work/source"
    : > "$work/output"
    awk -v dir="$work" '
        part { print > (dir "/" part); next }
        /^source:$/ { part = "source"; next }
        /^output:$/ { part = "output"; next }
        { print > (dir "/keys") }
    ' "$case"
    awk '/^output:$/ { exit } { print }' "$work/source" > "$work/text"
    awk 'on { print } /^output:$/ { on = 1 }' "$work/source" >> "$work/output"
    words=$(sed -n 's/^words: //p' "$work/keys")
    case $words in
    asm*) cp "$work/text" "$work/input" ;;
    *) "$cetvm" asm < "$work/text" > "$work/input" || fail "$name is not assembled" ;;
    esac
    sed -n 's/^patch: //p' "$work/keys" > "$work/patches"
    while read -r place bytes; do
        patch "$work/input" "$place" "$bytes"
    done < "$work/patches"
    size=$(sed -n 's/^cut: //p' "$work/keys")
    [ -n "$size" ] && cut_off "$work/input" "$size"
    # shellcheck disable=SC2086
    told=$(answers $words)
    wanted="$(sed -n 's/^status: //p' "$work/keys") $(sed -n 's/^line: //p' "$work/keys")"
    [ "$told" = "$wanted" ] || fail "$name ends by $told, not by $wanted"
    cmp "$work/written" "$work/output" || fail "$name writes something else"
    case $words in
    run* | replay*) ;;
    *) continue ;;
    esac
    awk '/^[0-9]/ { last = $0; next } last != "" { print last; last = "" } { print }' "$work/output" > "$work/last"
    # shellcheck disable=SC2086
    [ "$(answers $words --trace=last)" = "$told" ] || fail "$name with last records ends otherwise"
    cmp "$work/written" "$work/last" || fail "$name with last records writes something else"
    case $words in
    replay*) continue ;;
    esac
    grep -q '^thread 1 ' "$work/output" && continue
    # shellcheck disable=SC2086
    [ "$(answers smp ${words#run})" = "$told" ] || fail "$name by smp ends otherwise"
    cmp "$work/written" "$work/output" || fail "$name by smp writes something else"
done

printf 'mov edi, 7\nmov eax, 60\nsyscall\n' | "$cetvm" asm > "$work/image" || fail "the image is not assembled"

# a list with as many items as wanted
list() {
    yes "$1" | head -n "$2" | paste -s -d , -
}

# the answer to words of which this one is the first faulty one, or `-`
faulty_word() {
    number=$1
    shift
    count=$((count + 1))
    cp "$work/image" "$work/input"
    shown=$(printf '%.80s' "$*")
    told=$(answers "$@")
    if [ "$number" = - ]; then
        case $told in
        "1 "*) fail "the words $shown are refused" ;;
        esac
    else
        [ "$told" = "1 cetvm: usage: word $number" ] || fail "the words $shown are answered $told"
        [ -s "$work/written" ] && fail "the words $shown have an output"
    fi
}

# The longest lists, and those with an item more, or a turn.
{
    cat words.cases
    echo "- run --signals $(list 0:0:10 256)"
    echo "3 run --signals $(list 0:0:10 257)"
    echo "- replay --schedule $(list 0 10000)"
    echo "3 replay --schedule $(list 0 10001)"
    echo "- replay --schedule $(list '0*100' 10000)"
    echo "3 replay --schedule $(list '0*100' 9999),0*101"
    # Words of 100,000 bytes, and lists of 10,000 words.
    zeros=$(head -c 99999 /dev/zero | tr '\0' 0)
    echo "1 ${zeros}1"
    echo "1 run$zeros"
    echo "2 run --$zeros"
    echo "2 run ${zeros}1 --limit 5"
    echo "3 run --limit ${zeros}1"
    echo "2 run --limit=${zeros}1"
    echo "3 run --limit 1$zeros"
    echo "4 run --limit 5 ${zeros}1"
    echo "3 run --signals 0:0:${zeros}1"
    echo "3 run --trace full$zeros"
    echo "2 asm --runtime$zeros"
    echo "3 asm --runtime ${zeros}1"
    echo "2 bench ${zeros}1"
    echo "2 bench 1$zeros"
    echo "3 bench 1 ${zeros}1"
    echo "3 replay --mix ${zeros}1"
    echo "3 replay --schedule ${zeros}1"
    echo "3 smp --workers ${zeros}1"
    echo "3 smp --workers 1$zeros"
    echo "2 smp --workers=1$zeros"
    echo "1 $(yes x | head -n 10000 | tr '\n' ' ')"
    echo "4 smp --workers 1 $(yes -- '--workers 1' | head -n 4998 | tr '\n' ' ')"
    echo "2 run $(yes run | head -n 9999 | tr '\n' ' ')"
    echo "2 bench $(yes bench | head -n 9999 | tr '\n' ' ')"
    echo "3 bench 5 $(yes 5 | head -n 9998 | tr '\n' ' ')"
    echo "4 run --limit 5 $(yes -- '--limit 5' | head -n 4998 | tr '\n' ' ') x"
    echo "3 asm --runtime $(yes -- --runtime | head -n 9998 | tr '\n' ' ')"
    echo "10 replay --mix 1 --limit 5 --procs 1 --trace last $(yes x | head -n 9991 | tr '\n' ' ')"
} > "$work/words"
while read -r number words; do
    # shellcheck disable=SC2086
    faulty_word "$number" $words
done < "$work/words"

while read -r number words; do
    set --
    for word in $words; do
        if [ "$word" = "''" ]; then
            set -- "$@" ""
        else
            set -- "$@" "$(printf '%b' "$word")"
        fi
    done
    faulty_word "$number" "$@"
done < odd_words.cases

while read -r line rule text; do
    count=$((count + 1))
    printf '%b' "$(echo "$text" | sed 's/|/\\n/g')" > "$work/input"
    told=$(answers asm)
    [ "$told" = "5 cetvm: line $line: rule $rule" ] || fail "the text $text is answered $told"
    [ -s "$work/written" ] && fail "the text $text has an output"
done < texts.cases

while read -r rule place change at bytes; do
    count=$((count + 1))
    cp "$work/image" "$work/input"
    case $change in
    patch) patch "$work/input" "$at" "$bytes" ;;
    cut) cut_off "$work/input" "$at" ;;
    esac
    for words in run dis check; do
        told=$(answers $words)
        [ "$told" = "4 cetvm: refused: rule $rule at $place" ] || fail "$words after $change $at $bytes is answered $told"
        [ -s "$work/written" ] && fail "$words after $change $at $bytes has an output"
    done
done < images.cases

while read -r result address size flags holder; do
    count=$((count + 1))
    printf 'mov rdi, %s\nmov rsi, %s\nmov rdx, %s\nmov eax, 453\nsyscall\nud2\n' "$address" "$size" "$flags" |
        "$cetvm" asm > "$work/input"
    told=$(answers run)
    [ "$told" = "7 cetvm: killed by 4" ] || fail "map_shadow_stack($address, $size, $flags) ends by $told"
    if [ -n "$holder" ]; then
        record="claim 0 $result $(printf '%016x' "$size")"
    else
        record="sys 0 00000000000001c5 $result"
    fi
    found=$(sed -n 7p "$work/written" | cut -d' ' -f2,4-)
    [ "$found" = "$record" ] || fail "map_shadow_stack($address, $size, $flags) is answered $found"
    stacks=$(sed -n 's/^region 000000020000[^ ]* [^ ]* //p' "$work/written" | tr '\n' ' ')
    [ "$stacks" = "current 0 ${holder:+$holder }" ] || fail "map_shadow_stack($address, $size, $flags) leads to $stacks"
done < map_shadow_stack_arguments.cases

count=$((count + 1))
head -c 8388609 /dev/zero > "$work/input"
told=$(answers run)
[ "$told" = "6 cetvm: input too long" ] || fail "a byte too much is answered $told"
cut_off "$work/input" 8388608
told=$(answers run)
[ "$told" = "4 cetvm: refused: rule 1 at 0" ] || fail "as many bytes as may be are answered $told"

if [ "$failed" = 0 ]; then
    echo "cases: $count as stated"
fi
exit "$failed"
