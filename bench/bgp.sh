#!/usr/bin/env bash
# Has two real peers of BGP, bird2 and frr, speak with `faucet bgp-serve`, each in its turn. The peer runs on a router that is
# a network namespace, with a link for the session and another to a port of Open vSwitch in user space, where it has the
# address of the next hop; all in a namespace of this script's own, in which nothing else of the machine is seen or touched.
# Shows that sessions are established; that what is announced and withdrawn stands in the texts, but for a route whose next
# hop lies elsewhere; that tools/bgp2file and `faucet serve` bring it to the switch, so that a host behind it reaches the
# announced networks and no longer those that are withdrawn; what follows on a peer that is killed, that falls silent, that
# says goodbye, and that has another number than the configuration says; and that a further connection is turned away. What
# came over the link is kept as a recording: of it `faucet bgp` has to give the same texts, and `faucet replay` has to take
# them. Status 1 where one of these fails. Takes some minutes, and ends what it started.
# Needs root, python3, iproute2 and Debian's openvswitch-switch, bird2 and frr, which it installs where they aren't there;
# their services aren't used.
# Usage: bench/bgp.sh [PROGRAM [KEEP]]    PROGRAM, or else the variable FAUCET_PROGRAM, is another one than bin/faucet, with
#                                         the same words; in the folder KEEP the recordings bird.rec and frr.rec are put
set -eu
top=$(cd "$(dirname "$0")/.." && pwd)
work=$(mktemp -d)
trap 'rm -rf "$work"' EXIT
program=${1:-${FAUCET_PROGRAM:-}}
if [ -z "$program" ]; then
  program=$top/crates/faucet/out/faucet
  "$top/bin/faucet" check "$top/examples/quick-start/faucet.yaml" >/dev/null
fi
missing=()
for each in /usr/sbin/ovs-vswitchd:openvswitch-switch /usr/sbin/bird:bird2 /usr/lib/frr/bgpd:frr; do
  [ -x "${each%%:*}" ] || missing+=("${each#*:}")
done
if [ ${#missing[@]} -gt 0 ]; then
  apt-get update >/dev/null
  apt-get install -y --no-install-recommends "${missing[@]}" >/dev/null
fi
ovs-vswitchd --version | head -n 1
/usr/sbin/bird --version 2>&1
/usr/lib/frr/bgpd --version | head -n 1
timeout 900 unshare --net -- python3 -B "$top/bench/bgp.py" "$program" "$work" "$top" ${2:+"$2"}
