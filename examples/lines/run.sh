#!/bin/sh
# Assembles each source of `cases` with the program that `rt ci` has left, and compares its status line with the one
# that stands there; then what stands there to be written in its place, which is accepted. Then it compares the rows of
# docs/assembler.md with the cases. The first argument may name another program.
cd "$(dirname "$0")" || exit 1
cetvm=${1:-../../crates/cetvm/out/cetvm}
document=../../docs/assembler.md
if [ ! -x "$cetvm" ]; then
    echo "examples/lines: no program at $cetvm"
    exit 1
fi
work=$(mktemp -d) || exit 1
trap 'rm -rf "$work"' EXIT
: > "$work/failed"

fail() {
    echo "examples/lines: $1"
    echo "$1" >> "$work/failed"
}

# What `asm` says of the source $1: `accepted`, or its status and line on standard error.
said() {
    printf '%b\n' "$1" | "$cetvm" asm 2> "$work/line" > /dev/null
    status=$?
    if [ "$status" = 0 ] && [ ! -s "$work/line" ]; then
        echo accepted
    else
        echo "$status $(cat "$work/line")"
    fi
}

grep -v -e '^#' -e '^$' cases > "$work/cases"
while IFS='|' read -r at source instead; do
    wanted=accepted
    [ "$at" = accepted ] || wanted="5 cetvm: line ${at%:*}: rule ${at#*:}"
    found=$(said "$source")
    [ "$found" = "$wanted" ] || fail "\`$source\` gives \`$found\`, and not \`$wanted\`"
    if [ -n "$instead" ]; then
        found=$(said "$instead")
        [ "$found" = accepted ] || fail "\`$instead\`, to be written for \`$source\`, gives \`$found\`"
    fi
    case $source in
        *\\*) ;;
        *) grep -qF "\`$source\`" "$document" || fail "docs/assembler.md lacks \`$source\`" ;;
    esac
done < "$work/cases"

# Each source in a row `| SOURCE, .. | RULE | ..` of the document, with its rule.
awk -F'`' '/^\| `.*` \| [1-9] \|/ {
    cell = $0
    sub(/` \| [1-9] \|.*/, "", cell)
    rule = substr($0, length(cell) + 5, 1)
    count = split(cell, parts, "`")
    for (i = 2; i <= count; i += 2) print "1:" rule "|" parts[i] "|"
}' "$document" > "$work/rows"
while read -r row; do
    grep -qF -e "$row" "$work/cases" || fail "no case \`$row\`, of docs/assembler.md"
done < "$work/rows"

[ -s "$work/failed" ] && exit 1
echo "examples/lines: $(grep -c . "$work/cases") sources and $(grep -c . "$work/rows") places in rows as stated"
