#!/usr/bin/env bash
# Runs `faucet serve` with two real switches: Open vSwitch in user space, a daemon each, with hosts that are network
# namespaces, all in a namespace of this script's own, in which nothing else of the machine is seen or touched. Shows
# that hosts reach each other, the gateway and a host of another VLAN; that each switch holds just the entries of the
# cold start; and what follows on a host that moves, a port that goes down, reloads, a refused reload, a switch and the
# controller that are killed. A proxy between keeps what the switches say as a recording; replayed, it has to lead to
# the entries that the switches hold. Then hosts speak IPv6 between two VLANs (live6.py): one is solicited, resolved, moves,
# and is forgotten once it is gone, which takes five minutes. At last gauge.sh polls switches by `gauge-serve` of the same
# program. Status 1 where one of these fails. Takes ten minutes, and ends what it started.
# Needs root, python3, iproute2 and Debian's openvswitch-switch.
# With RECORDER, the program faucet_recorded, that runs in the place of `serve`: what a replay of its recordings says on
# each connection has to be, byte for byte, what went over the wire; their size an hour is told.
# Usage: bench/live.sh [PROGRAM [RECORDER]]    PROGRAM is another one than bin/faucet, with the same words
set -eu
top=$(cd "$(dirname "$0")/.." && pwd)
work=$(mktemp -d)
trap 'rm -rf "$work"' EXIT
program=${1:-$top/crates/faucet/out/faucet}
if [ $# -eq 0 ]; then
  "$top/bin/faucet" check "$top/examples/quick-start/faucet.yaml" >/dev/null
fi
ovs-vswitchd --version | head -n 1
timeout 900 unshare --net -- python3 "$top/bench/live.py" "$program" "$work" ${2:+"$2"}
mkdir "$work/ipv6"
timeout 900 unshare --net -- python3 -B "$top/bench/live6.py" "$program" "$work/ipv6"
"$top/bench/gauge.sh" "$program"
