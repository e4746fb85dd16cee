#!/usr/bin/env bash
# Runs `faucet` on what is made of real files, recordings and streams by chance: bits turned, bytes cut, repeated, moved and
# lengthened. `check` reads COUNT files, `replay` COUNT recordings, and `serve`, at 127.0.0.1:7655 (or PORT), hears COUNT streams
# beside a switch that stays, which this script plays; `replay` and `serve` get as many of a datapath of a ring that hands on LLDP
# and frames of IPv6, whole and cut, and of one with gateways of both families; `bgp` reads COUNT recordings of peers, and
# `bgp-serve` hears COUNT streams of theirs; `gauge` reads COUNT files of its own and COUNT recordings of replies with counters of
# ports and of flow entries, and `gauge-serve` hears COUNT streams of them. Prints how many runs ended in which way, their times and
# their memory. Status 1 where a run ended otherwise than docs/reference/commands.md says, took more than ten times the median of
# its kind and a second, or more than 64 MB; where `serve` ended, or left its switch unanswered; where `bgp-serve` ended, or doesn't
# greet the next peer. It ends what it started, by its process id. Needs python3.
# Usage: [ONLY="KIND.."] [PORT=N] bench/hostile.sh [COUNT [SEED [PROGRAM]]]    COUNT is 2000 and SEED 1 else; PROGRAM is another one
# than bin/faucet; a KIND is file, recording, serve, long-serve, stack-recording, stack-serve, routed-recording, routed-serve,
# bgp-recording, bgp-serve, gauge-file, gauge-recording or gauge-serve
set -eu
top=$(cd "$(dirname "$0")/.." && pwd)
work=$(mktemp -d)
trap 'rm -rf "$work"' EXIT
program=${3:-$top/crates/faucet/out/faucet}
if [ $# -lt 3 ]; then
  "$top/bin/faucet" check "$top/examples/quick-start/faucet.yaml" >/dev/null
fi
grep -m 1 'model name' /proc/cpuinfo | sed 's/^.*: /processor: /'
timeout 10800 python3 "$top/bench/hostile.py" "$program" "$top/examples" "$work" "${1:-2000}" "${2:-1}"
