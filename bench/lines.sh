#!/bin/sh
# Prints a row for each crate: lines of code, of specs, of proofs, and how many edits must fail.
cd "$(dirname "$0")/.." || exit 1
lines() { find "$1" -name "$2" -exec cat {} + 2>/dev/null | wc -l; }
for name in $(sed -n 's/^\([a-z0-9_]*\):.*/\1/p' crates.txt); do
    crate=crates/$name
    edits=$(find "$crate/must-fail" -name '*.edit' 2>/dev/null | wc -l)
    echo "| \`$name\` | $(lines "$crate/src" '*.rt') | $(lines "$crate/specs" '*.antt') | $(lines "$crate/proofs" '*.antt') | $edits |"
done
