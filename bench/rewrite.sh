#!/usr/bin/env bash
# Runs `faucet serve` at 127.0.0.1:7657 with a switch, which this script plays, and rewrites its configuration in place TIMES times,
# piece by piece, while it is looked at every 100 ms: a look may find a front of the file. Then TIMES times by another file that takes
# its name. Prints how many reloads were refused, and how many batches the switch was told; of renamed files none may be refused. Each
# time, once the file stands still, the switch has to hold the entries of `plan` for it. Status 1 where it doesn't, or where the program
# ended. Ends what it started, by its process id. Needs python3.
# Usage: bench/rewrite.sh [TIMES [PROGRAM]]    TIMES is 50 else; PROGRAM is another one than bin/faucet
set -eu
top=$(cd "$(dirname "$0")/.." && pwd)
work=$(mktemp -d)
trap 'rm -rf "$work"' EXIT
program=${2:-$top/crates/faucet/out/faucet}
if [ $# -lt 2 ]; then
  "$top/bin/faucet" check "$top/examples/quick-start/faucet.yaml" >/dev/null
fi
timeout 900 python3 "$top/bench/rewrite.py" "$program" "$work" "${1:-50}"
