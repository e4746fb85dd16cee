#!/usr/bin/env bash
# Has Prometheus watch a real switch by `faucet gauge-serve`. Open vSwitch in user space, with two hosts that are network
# namespaces, has the plan of the configuration of examples/monitoring; what gauge-serve tells by that example's file, every
# two seconds, goes through tools/textfile and node_exporter into Prometheus, all in a namespace of this script's own, in which
# nothing else of the machine is seen or touched. Shows that promtool reads the file without an error, and lists its
# remarks; that while nothing is sent, Prometheus has the counters of `ovs-ofctl dump-ports`, and by table the entries,
# packets and bytes of `ovs-ofctl dump-flows`; and that each query of dashboard.json is answered, of which a picture is drawn.
# Then it loads the plan of each datapath of each example, and gauge-serve has to give a line and a sample of each counter
# for each entry. Status 1 where one of these fails. Takes some two minutes, and ends what it started.
# Needs root, python3, iproute2 and Debian's openvswitch-switch, prometheus and prometheus-node-exporter, which it installs
# where they aren't there; their services aren't used.
# Usage: bench/monitor.sh [PROGRAM [PICTURE]]    PROGRAM, or else the variable FAUCET_PROGRAM, is another one than
#                                                bin/faucet, with the same words; PICTURE is where the picture (SVG) is put
set -eu
top=$(cd "$(dirname "$0")/.." && pwd)
work=$(mktemp -d)
trap 'rm -rf "$work"' EXIT
program=${1:-${FAUCET_PROGRAM:-}}
if [ -z "$program" ]; then
  program=$top/crates/faucet/out/faucet
  "$top/bin/faucet" check "$top/examples/quick-start/faucet.yaml" >/dev/null
fi
missing=()
for each in ovs-vswitchd:openvswitch-switch prometheus:prometheus prometheus-node-exporter:prometheus-node-exporter; do
  command -v "${each%%:*}" >/dev/null || missing+=("${each#*:}")
done
if [ ${#missing[@]} -gt 0 ]; then
  apt-get update >/dev/null
  apt-get install -y --no-install-recommends "${missing[@]}" >/dev/null
fi
ovs-vswitchd --version | head -n 1
prometheus --version 2>&1 | sed -n '1s/ (.*//p'
timeout 400 unshare --net -- python3 -B "$top/bench/monitor.py" "$program" "$work" "$top" "${2:-$work/dashboard.svg}"
