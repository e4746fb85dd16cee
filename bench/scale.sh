#!/usr/bin/env bash
# Measures how many switches and hosts one process serves, by `faucet replay`: a star of switches around a root, each with 24
# ports of hosts, all in one VLAN; hosts are learned in turn over all switches, and each batch is replied to at once. Then
# reloads take one port out and bring it back. Prints, by processor time, the hosts learned a second over the last tenth and
# what one reload took, and the most memory; checks that each host got its entries on each switch.
# Usage: bench/scale.sh [SWITCHES HOSTS]..    1 200 1 1000 8 200 8 1000 32 200 32 1000 where none are given
set -eu
top=$(cd "$(dirname "$0")/.." && pwd)
export FAUCET=${FAUCET:-$top/crates/faucet/out/faucet}
work=$(mktemp -d)
trap 'rm -rf "$work"' EXIT
[ $# -gt 0 ] || set -- 1 200 1 1000 8 200 8 1000 32 200 32 1000
while [ $# -ge 2 ]; do
  /usr/bin/python3 -B "$top/bench/scale.py" "$work" "$1" "$2"
  shift 2
done
