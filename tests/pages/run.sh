#!/bin/sh
# Checks the manual pages and the completion: mandoc finds nothing to say of a page, their commands and options are those
# of the help text, the pages' examples are taken by the program, and bash completes words as they are listed below.
# What needs a tool that isn't there is passed over with a word. The first argument may name another program than the one
# that `rt ci` has left.
here=$(cd "$(dirname "$0")" && pwd) || exit 1
top=$here/../..
cetvm=${1:-$top/crates/cetvm/out/cetvm}
case $cetvm in /*) ;; *) cetvm=$PWD/$cetvm ;; esac
work=$(mktemp -d) || exit 1
trap 'rm -rf "$work"' EXIT
failed=0

fail() {
    echo "tests/pages: $1"
    failed=1
}

same() {
    cmp -s "$1" "$2" || { fail "$3"; diff "$1" "$2"; }
}

cd "$top/man" || exit 1

# A reference to another of these pages is looked for in the folder of the page.
if command -v mandoc > /dev/null; then
    for page in *.[15]; do
        mandoc -Tlint "$page" > "$work/lint" 2>&1
        [ -s "$work/lint" ] && { fail "mandoc on $page:"; cat "$work/lint"; }
        mandoc -Tutf8 "$page" > "$work/page" 2> "$work/lint" || fail "$page isn't shown"
    done
else
    echo "tests/pages: no mandoc"
fi

# The commands and options of the help text, of the page and of the completion.
"$top/tools/texts.py" help > "$work/help" || fail "there is no help text"
sed -n 's/^cetvm \([a-z]*\).*/\1/p' "$work/help" | sort > "$work/commands"
grep -o -e '--[a-z]*' "$work/help" | sort -u > "$work/options"
sed -n '/^\.Sh SYNOPSIS/,/^\.Sh DESCRIPTION/s/^\.Cm \([a-z]*\)$/\1/p' cetvm.1 | sort > "$work/found"
same "$work/commands" "$work/found" "the page has other commands than the help"
sed -n '/^\.Sh SYNOPSIS/,/^\.Sh DESCRIPTION/p' cetvm.1 | grep -o -e 'Fl -[a-z]*' | sed 's/Fl /-/' | sort -u > "$work/found"
same "$work/options" "$work/found" "the page has other options than the help"
sed -n '/^\.Sh DESCRIPTION/,/^\.Sh EXIT/s/^\.It Fl -\([a-z]*\).*/--\1/p' cetvm.1 | sort -u > "$work/found"
grep -v -e --runtime "$work/options" > "$work/common"
same "$work/common" "$work/found" "the page tells of other options than the help"

# The records of the page, and those that a picture knows.
sed -n '/^\.Bl -column/,/^\.El/s/^\.It Li \([^ ]*\) .*/\1/p' cetvm-report.5 | sort > "$work/kinds"
sed -n '/^KINDS = /,/)$/p' "$top/tools/picture/report.py" | grep -o '"[^"]*"' | tr -d '"' | sort > "$work/found"
same "$work/kinds" "$work/found" "the page on reports has other kinds of records"

# The example of the page: its text assembled, and its report.
if [ -x "$cetvm" ]; then
    sed -n '/^\$ cat smashed.s$/,/^\$ cetvm asm/p' cetvm.1 | grep -v '^\$' > "$work/smashed.s"
    sed -n '/^\$ cetvm run < smashed$/,/^cetvm: killed/p' cetvm.1 | grep -v -e '^\$' -e '^cetvm: ' > "$work/report"
    "$cetvm" asm < "$work/smashed.s" > "$work/smashed" || fail "the example isn't assembled"
    "$cetvm" run < "$work/smashed" > "$work/found" 2> "$work/line"
    same "$work/report" "$work/found" "the example has another report"
    [ "$(cat "$work/line")" = "cetvm: killed by 11" ] || fail "the example has another line"
    sed -n '/^cetvm report 1$/,/^process/p' cetvm-report.5 > "$work/report"
    same "$work/report" "$work/found" "the page on reports has another report"
    sed -n '/^\.Bd/,/^\.Ed/p' cetvm-asm.5 | grep -v '^\.' > "$work/asm.s"
    "$cetvm" asm < "$work/asm.s" > "$work/smashed" || fail "the examples of the page on the assembler aren't assembled"
    "$cetvm" run < "$work/smashed" | tail -n 1 | grep -q '^process exit 3$' || fail "they end otherwise"
else
    echo "tests/pages: no program at $cetvm"
fi

if command -v bash > /dev/null; then
    bash "$here/completion.bash" || failed=1
else
    echo "tests/pages: no bash"
fi
[ "$failed" = 0 ] && echo "tests/pages: the manual pages and the completion are as stated"
exit "$failed"
