#!/usr/bin/env bash
# Runs `faucet serve` at 127.0.0.1:7656 under a storm, which this script makes: OPENINGS connections that open and go (end, are reset,
# or say bytes first), 200 that stay and answer, one that comes again and again with bytes by chance, one that asks and never reads, and
# one that says a byte a second. Meanwhile fifty switches, which the script plays too, have hosts that come and move and a port that
# goes down, TOLD times each, one a second where the last is answered. At the end each switch has to hold just the entries that
# docs/reference/flow-tables.md has for what it told, and to have been answered all the time on the one connection. Prints counts, the
# slowest answer, processor time and memory. Status 1 where something is otherwise. Ends what it started, by its process id, and by
# itself after some two minutes; where there is little of a processor for it, after some five. Needs python3.
# Usage: bench/storm.sh [OPENINGS [PROGRAM [TOLD]]]    OPENINGS is 10000 and TOLD 60 else; PROGRAM is another one than bin/faucet
set -eu
top=$(cd "$(dirname "$0")/.." && pwd)
work=$(mktemp -d)
trap 'rm -rf "$work"' EXIT
program=${2:-$top/crates/faucet/out/faucet}
if [ $# -lt 2 ]; then
  "$top/bin/faucet" check "$top/examples/quick-start/faucet.yaml" >/dev/null
fi
grep -m 1 'model name' /proc/cpuinfo | sed 's/^.*: /processor: /'
timeout 900 python3 "$top/bench/storm.py" "$program" "$work" "${1:-10000}" "${3:-60}"
