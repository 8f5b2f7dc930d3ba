#!/bin/sh
# Compares the shadow-stack instructions of cetvm with those of Bochs, as README.md says. The first argument may name
# another program than the one that `rt ci` has left, the second one the seed of the random programs.
here=$(dirname "$0")
cetvm=${1:-$here/../../crates/cetvm/out/cetvm}

skip() {
    echo "bochs: skipped, $1"
    exit 0
}

for tool in bochs-bin nasm python3; do
    command -v "$tool" > /dev/null || skip "$tool isn't there"
done
[ -e /usr/share/bochs/BIOS-bochs-legacy ] && [ -e /usr/share/bochs/VGABIOS-lgpl-latest ] || skip "a BIOS of Bochs isn't there"
ls /usr/lib/*/bochs/plugins/libbx_term_gui.so > /dev/null 2>&1 || skip "Bochs's display term isn't there"
bochs-bin --help cpu 2>&1 | grep -q tigerlake || skip "this Bochs has no CPU with CET"
work=$(mktemp -d) || exit 1
trap 'rm -rf "$work"' EXIT
PYTHONDONTWRITEBYTECODE=1 python3 "$here/check.py" "$cetvm" "$work" ${2+"$2"}
