#!/bin/sh
# Runs each command of docs/commands.md that stands before `# CODE LINE`, with the program that `rt ci` has left, and
# compares its exit status and what it writes to standard error: the line, and behind that of faulty words the help. The
# first argument may name another program.
cd "$(dirname "$0")/.." || exit 1
cetvm=$(realpath "${1:-crates/cetvm/out/cetvm}")
if [ ! -x "$cetvm" ]; then
    echo "examples/statuses: no program at $cetvm"
    exit 1
fi
work=$(mktemp -d) || exit 1
trap 'rm -rf "$work"' EXIT
ln -s "$cetvm" "$work/cetvm" || exit 1
failed=0
count=0

sed -n 's/^\(.*[^ ]\)  *# \([0-9]\)\( .*\)\{0,1\}$/\2\3|\1/p' docs/commands.md > "$work/commands"
while IFS='|' read -r wanted command; do
    count=$((count + 1))
    PATH="$work:$PATH" sh -c "$command" > "$work/output" 2> "$work/line" < /dev/null
    found="$? $(head -n 1 "$work/line")"
    : > "$work/help"
    case $wanted in
    "1 "*) tools/texts.py help > "$work/help" ;;
    esac
    sed 1d "$work/line" | cmp -s - "$work/help" || found="$found, and then another text than the help"
    if [ "${found% }" != "$wanted" ]; then
        echo "examples/statuses: \`$command\` gives \`$found\`, and not \`$wanted\`"
        failed=1
    fi
done < "$work/commands"
if [ "$count" != 10 ]; then
    echo "examples/statuses: $count commands in docs/commands.md, and not one for each of the ten codes"
    failed=1
fi
[ "$failed" = 0 ] && echo "examples/statuses: $count commands as stated"
exit "$failed"
