#!/usr/bin/env bash
# Runs `faucet gauge-serve` with two real switches: Open vSwitch in user space, a daemon each, with hosts that are network
# namespaces, all in a namespace of this script's own, in which nothing else of the machine is seen or touched. Shows
# that each poll gives twelve lines for each port and file, in their order; that polls lie an interval apart; that while
# nothing is sent, the values are those of `ovs-ofctl dump-ports`; and that a port that goes down, comes up or is deleted
# gives its line, a switch that is killed is polled anew, and each end has its status. Then it runs it on the
# configuration of examples/gauge with one switch: a proxy between keeps what that says as a recording, and a replay by
# `faucet gauge` has to give the same lines, but for their moments. Status 1 where one of these fails. Takes about a
# minute, and ends what it started.
# Needs root, python3, iproute2 and Debian's openvswitch-switch, which it installs where it isn't there.
# Usage: bench/gauge.sh [PROGRAM [RECORDING]]    PROGRAM, or else the variable FAUCET_PROGRAM, is another one than
#                                                bin/faucet, with the same words; RECORDING is where the recording is put
set -eu
top=$(cd "$(dirname "$0")/.." && pwd)
work=$(mktemp -d)
trap 'rm -rf "$work"' EXIT
program=${1:-${FAUCET_PROGRAM:-}}
if [ -z "$program" ]; then
  program=$top/crates/faucet/out/faucet
  "$top/bin/faucet" check "$top/examples/quick-start/faucet.yaml" >/dev/null
fi
if ! command -v ovs-vswitchd >/dev/null; then
  apt-get update >/dev/null
  apt-get install -y openvswitch-switch >/dev/null
fi
ovs-vswitchd --version | head -n 1
timeout 300 unshare --net -- python3 "$top/bench/gauge.py" "$program" "$work" "$top/examples/gauge/gauge.yaml" "${2:-$work/switch.rec}"
