#!/usr/bin/env bash
# Changes states by chance, 10,000 times in all, on small configurations: behind each change the plan that is kept
# (`Warm`) has the same entries as one that is compiled whole, the same commands are taken, and no more is compiled
# than three units of work for each unit that the changes reach. A program of this script's own: that of
# `test_plans` with bench/plans.patch. It isn't proved: `rt try` runs it with checks at run time, which takes some
# four minutes. Prints what the program answers, and fails where a case is answered otherwise than the patch says.
# Usage: bench/plans.sh
set -eu
top=$(cd "$(dirname "$0")/.." && pwd)
work=$(mktemp -d)
trap 'rm -rf "$work"' EXIT
rt=$(command -v rt || echo /opt/rattle/bin/rt)

# a repository with copies of the checkout's sources, and the program
(cd "$top" && git ls-files -z crates crates.txt HANDLES | xargs -0 cp --parents -t "$work")
patch -s -p1 -d "$work" <"$top/bench/plans.patch"
program=$work/crates/test_plans

echo "building and running the program" >&2
if ! (cd "$program" && timeout 1200 "$rt" try --seconds 900 <stdin >"$work/answers" 2>"$work/said"); then
  tail -n 20 "$work/said" >&2
  exit 1
fi
grep '^random' "$work/answers"
cmp "$work/answers" "$program/stdout"
