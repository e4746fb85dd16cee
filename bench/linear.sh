#!/usr/bin/env bash
# Measures whether the time of a run grows as its input does: keys of one map, names of the sections and such as several files give,
# ACLs and their outputs, files that include files 8 deep, many connections in one recording, hosts and neighbours that are due at once.
# Each at three sizes, of which each is twice the one before: prints the seconds of a processor of each (the least of three runs, less
# those of a run on nothing) and their ratios, 2 where the time is linear, 4 where it grows with the square. A run that takes more than
# MOST seconds of a processor is ended. Checks nothing but that the others end as they should.
# Usage: [ONLY=NAME,NAME..] [MOST=SECONDS] bench/linear.sh [PROGRAM]    ONLY names functions of linear.py, MOST is 20 else; PROGRAM is
# another one than bin/faucet
set -eu
top=$(cd "$(dirname "$0")/.." && pwd)
work=$(mktemp -d)
trap 'rm -rf "$work"' EXIT
program=${1:-$top/crates/faucet/out/faucet}
if [ $# -lt 1 ]; then
  "$top/bin/faucet" check "$top/examples/quick-start/faucet.yaml" >/dev/null
fi
grep -m 1 'model name' /proc/cpuinfo | sed 's/^.*: /processor: /'
timeout 1800 python3 "$top/bench/linear.py" "$program" "$work"
