#!/usr/bin/env bash
# Makes a recording of a busy ring of three switches, with a moment each second for DAYS days: each ten seconds a host is heard, a new
# one or one that moved, each ten minutes a port goes down and comes back. The script plays the switches to a `replay` that reads the
# recording as it is made, and answers what that says; then all hosts are left alone until they are forgotten, and each switch has to
# hold the entries of `plan`. Then the recording is replayed by itself, whole and its first seventh alone: prints its size, records,
# seconds and memory, and whether the same was said. Status 1 where something is otherwise. A day takes about a minute. Needs python3.
# Usage: bench/week.sh [DAYS [PROGRAM]]    DAYS is 7 else; PROGRAM is another one than bin/faucet
set -eu
top=$(cd "$(dirname "$0")/.." && pwd)
work=$(mktemp -d)
trap 'rm -rf "$work"' EXIT
program=${2:-$top/crates/faucet/out/faucet}
if [ $# -lt 2 ]; then
  "$top/bin/faucet" check "$top/examples/quick-start/faucet.yaml" >/dev/null
fi
grep -m 1 'model name' /proc/cpuinfo | sed 's/^.*: /processor: /'
timeout 3600 python3 "$top/bench/week.py" "$program" "$work" "${1:-7}"
