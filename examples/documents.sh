#!/bin/sh
# Assembles and runs the programs of the documents, with the program that `rt ci` has left: each block `asm` there is a
# source, and each block `report` behind it stands in a report of it, as it is: that of `run`, or, where words stand
# behind `report`, that of the command of these words. What `smp` writes depends on the order of its turns: it is to be,
# whole, the report of another block's words, and the block is to stand in one of these reports. The first argument may
# name another program.
cd "$(dirname "$0")/../docs" || exit 1
cetvm=${1:-../crates/cetvm/out/cetvm}
if [ ! -x "$cetvm" ]; then
    echo "examples/documents: no program at $cetvm"
    exit 1
fi
work=$(mktemp -d) || exit 1
trap 'rm -rf "$work"' EXIT
failed=0
count=0

fail() {
    echo "examples/documents: $1"
    failed=1
}

# Whether a report has the lines of a block.
has() {
    case "$(cat "$1")" in
    *"$(cat "$2")"*) true ;;
    *) false ;;
    esac
}

# Whether the report of the first of these blocks is that of another one whose order is stated, and its lines are in one.
of_an_order() {
    block=$1
    shift
    same=0
    there=0
    for other in "$@"; do
        case $(cat "$other.words") in
        smp*) continue ;;
        esac
        cmp -s "$block.made" "$other.made" && same=1
        has "$other.made" "$block" && there=1
    done
    [ "$same $there" = "1 1" ]
}

for document in failed_return.md records.md shadow_stacks.md signals.md three_runs.md threads.md; do
    awk -v to="$work/${document%.md}" '
        $0 == "```asm" { number++; file = to "." number ".asm"; next }
        /^```report( |$)/ {
            part++
            file = to "." number "." part ".report"
            words = substr($0, 11)
            print words == "" ? "run" : words > (file ".words")
            next
        }
        /^```/ { file = ""; next }
        file != "" { print > file }' "$document"
done
for source in "$work"/*.asm; do
    name=$(basename "$source" .asm)
    count=$((count + 1))
    "$cetvm" asm < "$source" > "$work/image" || fail "program $name is not assembled"
    set -- "$work/$name".*.report
    [ -s "$1" ] || fail "program $name has no report in its document"
    for part in "$@"; do
        # The words are separated by blanks. A `*` among them stands for itself.
        # shellcheck disable=SC2046
        (set -f; "$cetvm" $(cat "$part.words") < "$work/image") > "$part.made" 2> "$work/line"
    done
    for part in "$@"; do
        words=$(cat "$part.words")
        case $words in
        smp*) of_an_order "$part" "$@" || fail "program $name has no order for \`$words\`: $(cat "$part.made")" ;;
        *) has "$part.made" "$part" || fail "program $name has another report of \`$words\`: $(cat "$part.made")" ;;
        esac
    done
done
[ "$count" -ge 10 ] || fail "only $count programs in the documents"
[ "$failed" = 0 ] && echo "examples/documents: $count programs run as stated"
exit "$failed"
