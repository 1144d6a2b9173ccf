#!/bin/sh
# Tries the must-fail edits of edits/, which the gate leaves out: those of the crates named, or of all that have some.
# Each has to be refused by the prover of its own crate. What has passed once on this machine is kept.
#
# Usage: tools/further_edits.sh [CRATE..]
set -eu
top=$(cd "$(dirname "$0")/.." && pwd)
copy=${FURTHER_EDITS:-${TMPDIR:-/tmp}/further_edits}
mkdir -p "$copy/.git" "$copy/crates"
cp "$top/crates.txt" "$top/HANDLES" "$copy/"
for crate in "$top"/crates/*/; do
    name=$(basename "$crate")
    mkdir -p "$copy/crates/$name"
    rm -rf "$copy/crates/$name/src" "$copy/crates/$name/specs" "$copy/crates/$name/proofs" "$copy/crates/$name/must-fail"
    for part in src specs proofs; do
        if [ -d "$crate$part" ]; then
            cp -R "$crate$part" "$copy/crates/$name/"
        fi
    done
    if [ -d "$top/edits/$name" ]; then
        cp -R "$top/edits/$name" "$copy/crates/$name/must-fail"
    fi
done
if [ $# -eq 0 ]; then
    set -- $(ls "$top/edits")
fi
cd "$copy"
for name in "$@"; do
    (cd "crates/$name" && rt check >/dev/null)
done
exec rt must-fail "$@"
