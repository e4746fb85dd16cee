#!/usr/bin/env bash
# Measures the proved program: reading a text of a million bytes, and the plan of a configuration at its
# limits (1,024 VLANs, 256 interfaces). Prints seconds and sizes; checks nothing.
set -eu
top=$(cd "$(dirname "$0")/.." && pwd)
work=$(mktemp -d)
trap 'rm -rf "$work"' EXIT
"$top/bin/faucet" plan "$top/examples/quick-start/faucet.yaml" sw1 >/dev/null

# one-line entries: read whole, and then refused at the first key
awk 'BEGIN { for (i = 0; i < 60000; i++) printf "key%05d: %d\n", i, i }' >"$work/entries.yaml"

awk 'BEGIN {
  print "vlans:"
  for (v = 1; v <= 1024; v++) printf "  v%d: {vid: %d}\n", v, v
  print "dps:\n  sw1:\n    dp_id: 1\n    interfaces:"
  for (p = 1; p <= 256; p++) printf "      %d: {native_vlan: v%d}\n", p, 1 + p % 1024
}' >"$work/limits.yaml"

for name in entries limits; do
  size=$(wc -c <"$work/$name.yaml")
  start=$(date +%s.%N)
  "$top/bin/faucet" plan "$work/$name.yaml" sw1 >"$work/out" 2>"$work/err" || true
  end=$(date +%s.%N)
  printf '%s: %s bytes read, %s bytes written, %.3f s%s\n' "$name" "$size" "$(wc -c <"$work/out")" \
    "$(echo "$end - $start" | bc)" "$(sed 's/^.*\/[a-z]*\.yaml/ (/; s/$/)/' "$work/err")"
done
