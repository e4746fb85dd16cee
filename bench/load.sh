#!/usr/bin/env bash
# Measures how many PACKET_INs a second `faucet serve` takes over loopback, beside Debian's ovs-testcontroller, a controller in C that
# learns hosts: packets of known hosts on 1, 16 and 64 connections, and of new hosts on one, each batch that follows answered at once.
# ovs-testcontroller takes 16 connections at most: beside 64 it is given these.
# load.c plays the switches: an ECHO_REQUEST stands behind each hundred packets, and its reply says that they were taken. Each is run
# SECONDS seconds, in turn, three times; the greatest figure of the three counts. Prints both, and the processor time of faucet for a
# packet. Status 1 where faucet took fewer packets a second than ovs-testcontroller, or one of them ended. What it started it ends, by
# its process id. Needs gcc, and installs openvswitch-testcontroller by apt-get where it isn't there.
# Usage: bench/load.sh [SECONDS [PROGRAM]]    SECONDS is 3 else; PROGRAM is another one than bin/faucet, with the same words
set -eu
top=$(cd "$(dirname "$0")/.." && pwd)
work=$(mktemp -d)
seconds=${1:-3}
program=${2:-$top/crates/faucet/out/faucet}
running=
trap 'if [ -n "$running" ]; then kill "$running" 2>/dev/null || :; fi; rm -rf "$work"' EXIT
if [ $# -lt 2 ]; then
  "$top/bin/faucet" check "$top/examples/quick-start/faucet.yaml" >/dev/null
fi
command -v ovs-testcontroller >/dev/null || { apt-get update -q; apt-get install -q -y --no-install-recommends openvswitch-testcontroller; } >"$work/apt" 2>&1
gcc -O2 -Wall -o "$work/load" "$top/bench/load.c"
grep -m 1 'model name' /proc/cpuinfo | sed 's/^.*: /processor: /'

# the switches of the greatest number of connections, each with four ports in one VLAN
{
  echo 'vlans: {100: {max_hosts: 16384}}'
  echo 'dps:'
  for dp in $(seq 1 64); do
    echo "  sw$dp:"
    echo "    dp_id: $dp"
    echo '    interfaces:'
    for port in 1 2 3 4; do echo "      $port: {native_vlan: 100, max_hosts: 16384}"; done
  done
} >"$work/faucet.yaml"

start() {
  if [ "$1" = faucet ]; then
    "$program" serve "$work/faucet.yaml" --events 1000000000 --listen 127.0.0.1:7663 >/dev/null 2>"$work/lines" &
  else
    ovs-testcontroller --unixctl="$work/control" -O OpenFlow13 ptcp:7663:127.0.0.1 >/dev/null 2>&1 &
  fi
  running=$!
  for _ in $(seq 100); do
    if (exec 3<>/dev/tcp/127.0.0.1/7663) 2>/dev/null; then return; fi
    sleep 0.1
  done
}

# one run: packets a second, and how many
measure() {
  local setup=none connections=$2
  if [ "$1" = faucet ]; then
    setup=barrier
  elif [ "$2" -gt 16 ]; then
    connections=16
  fi
  start "$1"
  timeout $((60 + 2 * seconds)) "$work/load" 7663 "$connections" "$seconds" 64 "$3" $setup >"$work/told"
  ticks=$(awk '{print $14 + $15}' "/proc/$running/stat")
  kill "$running"
  wait "$running" 2>/dev/null || :
  running=
  rate=$(sed 's/.*, \([0-9]*\) a second/\1/' "$work/told")
  packets=$(sed 's/ packets.*//' "$work/told")
}

status=0
for case in "1 known" "16 known" "64 known" "1 new"; do
  set -- $case
  for who in faucet ovs-testcontroller; do
    best=0
    for _ in 1 2 3; do
      measure "$who" "$1" "$2"
      if [ "$rate" -gt "$best" ]; then best=$rate cost=$(awk "BEGIN {printf \"%.2f\", $ticks * 10000 / $packets}"); fi
    done
    if [ "$who" = faucet ]; then ours=$best taken=$cost; else theirs=$best; fi
  done
  echo "$1 connections, $2 hosts: faucet $ours packets a second ($taken microseconds of a processor each), ovs-testcontroller $theirs"
  if [ "$ours" -lt "$theirs" ]; then status=1; fi
done
exit $status
