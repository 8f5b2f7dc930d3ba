#!/bin/sh
# Compares cetvm with the processor, as README.md says. The first argument may name another program than the one that
# `rt ci` has left, the second one the seed of the random instructions.
here=$(dirname "$0")
cetvm=${1:-$here/../../crates/cetvm/out/cetvm}

skip() {
    echo "cosim: skipped, $1"
    exit 0
}

[ -x "$cetvm" ] || skip "there is no program at $cetvm"
[ "$(uname -sm)" = "Linux x86_64" ] || skip "this is no Linux on x86-64"
command -v gcc > /dev/null || skip "gcc isn't there"
work=$(mktemp -d) || exit 1
trap 'rm -rf "$work"' EXIT
gcc -std=c11 -Wall -Wextra -Werror -O1 -fPIE -pie -fcf-protection=none -o "$work/cosim" "$here"/*.c || exit 1
"$work/cosim" "$cetvm" "$work" ${2+"$2"}
