#!/usr/bin/env bash
# Measures what an event costs `replay` where many hosts are known: HOSTS hosts that are learned one after another on a datapath with 48
# ports and on a ring of 16 such datapaths, each batch answered before the next host is heard; a link of that ring that goes down and
# comes up again; the gateways of ROUTES routes that answer one after another. Prints the processor time of an event and the memory.
# Status 1 where the last thousand hosts took more than 1.3 times as long as the first, or a run ended otherwise than with 0. It ends what
# it started, by its process id. Needs python3.
# Usage: bench/grown.sh [HOSTS [ROUTES [PROGRAM]]]    HOSTS is 16384 and ROUTES 1024 else; PROGRAM is another one than bin/faucet
set -eu
top=$(cd "$(dirname "$0")/.." && pwd)
work=$(mktemp -d)
trap 'rm -rf "$work"' EXIT
program=${3:-$top/crates/faucet/out/faucet}
if [ $# -lt 3 ]; then
  "$top/bin/faucet" check "$top/examples/quick-start/faucet.yaml" >/dev/null
fi
grep -m 1 'model name' /proc/cpuinfo | sed 's/^.*: /processor: /'
timeout 3600 python3 "$top/bench/grown.py" "$program" "$work" "${1:-16384}" "${2:-1024}"
