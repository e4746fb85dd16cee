#!/usr/bin/env bash
# Runs `faucet serve` at 127.0.0.1:7654 with one switch, which this script plays, and does beside it what strangers do:
# bytes of other protocols and by chance, storms of connections that end, reset or never speak, more than 256 at a time,
# resets in the middle of a write, ends of sending alone, one who reads late and one who never does, a flood, a second
# program at the port, and a limit of 30 open files. Prints figures. Status 1 where the program ended, left a file open,
# ended the switch's connection or didn't answer, or where 20 idle connections took 2 % of a processor. Takes some three
# minutes, and ends what it started. Needs python3.
# Usage: bench/strangers.sh [PROGRAM]    PROGRAM is another one than bin/faucet, with the same words
set -eu
top=$(cd "$(dirname "$0")/.." && pwd)
work=$(mktemp -d)
trap 'rm -rf "$work"' EXIT
program=${1:-$top/crates/faucet/out/faucet}
if [ $# -eq 0 ]; then
  "$top/bin/faucet" check "$top/examples/quick-start/faucet.yaml" >/dev/null
fi
grep -m 1 'model name' /proc/cpuinfo | sed 's/^.*: /processor: /'
timeout 900 python3 "$top/bench/strangers.py" "$program" "$top/examples/quick-start/faucet.yaml" "$work"
