#!/usr/bin/env bash
# Runs the gate from nothing and prints what each crate costs of it, in processor minutes: the rows of docs/GATE.md.
# Nothing else should run beside it. Its status is the gate's.
# Usage: bench/gate.sh
cd "$(dirname "$0")/.." || exit 1
exec python3 bench/gate.py rt ci
