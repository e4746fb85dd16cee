#!/usr/bin/env bash
# Measures the reading of a recording: how fast the turns of a file of so many records come, of which
# all but the first and the last are pieces of so many bytes on one connection, and how much memory
# that takes. A program of this script's own calls the checkout's crates. Prints seconds and rates;
# checks nothing.
# Usage: bench/recording.sh [RECORDS [BYTES]]
set -eu
top=$(cd "$(dirname "$0")/.." && pwd)
records=${1:-1000000}
size=${2:-200}
work=$(mktemp -d)
trap 'rm -rf "$work"' EXIT
rt=$(command -v rt || echo /opt/rattle/bin/rt)
libraries=(net_base fg_outside recording real_outside)

# a repository with copies of the checkout's libraries, and of the proofs that it keeps, and the program
mkdir -p "$work/crates/recording_bench/src"
for name in "${libraries[@]}"; do
  cp -a --reflink=auto "$top/crates/$name" "$work/crates/$name"
  grep "^$name:" "$top/crates.txt"
done >"$work/crates.txt"
echo "recording_bench: net_base fg_outside recording real_outside" >>"$work/crates.txt"

cat >"$work/crates/recording_bench/src/main.rt" <<'PROGRAM'
//! Takes all turns of a recording in a file, and prints how many happenings and heard bytes they gave.
#![tactic(auto)]

use fg_outside::{FileSource, Happening, Hub, Turn};
use net_base::Text;
use real_outside::RealFiles;
use recording::ScriptHub;
use std::{env, io};

/// How many happenings, and how many bytes that were heard.
fn count<H: Hub>(hub: &mut H) -> (u64, u64) {
    let mut happenings: u64 = 0;
    let mut bytes: u64 = 0;
    for _ in 0..u64::MAX {
        match hub.turn() {
            Turn::Happened(happening) => {
                happenings = happenings.wrapping_add(1);
                if let Happening::Heard { piece, .. } = happening {
                    bytes = bytes.wrapping_add(piece.len() as u64);
                }
            }
            Turn::Done | Turn::Failed | Turn::Memory => break,
        }
    }
    (happenings, bytes)
}

fn main(rt: HostRuntime) -> io::Result<()> {
    let mut name = Text::new(rt.alloc());
    for arg in env::args(&rt)?.skip(1) {
        name = Text::from_str(rt.alloc(), arg.as_str())?;
    }
    let source = FileSource::new(RealFiles::new(&rt), name);
    let mut hub = ScriptHub::new(rt.alloc(), source);
    let (happenings, bytes) = count(&mut hub);
    println!(rt; "{happenings} {bytes}")
}
PROGRAM

: >"$work/crates/recording_bench/stdin"
echo "0 0" >"$work/crates/recording_bench/stdout"
echo "building and proving the program" >&2
if ! (cd "$work/crates/recording_bench" && "$rt" run) >"$work/build" 2>&1 </dev/null; then
  tail -n 20 "$work/build" >&2
  exit 1
fi
program=$work/crates/recording_bench/out/recording_bench

# connection 1 opens at moment 0, hears a piece at each moment from 1 on, and ends
python3 - "$records" "$size" >"$work/recording" <<'RECORDING'
import struct
import sys

records, size = int(sys.argv[1]), int(sys.argv[2])
header = struct.Struct('>QBII')
out = sys.stdout.buffer
out.write(header.pack(0, 1, 1, 0))
for moment in range(1, records - 1):
    out.write(header.pack(moment, 2, 1, size) + bytes(size))
out.write(header.pack(records, 3, 1, 0))
RECORDING

grep -m 1 'model name' /proc/cpuinfo | sed 's/^.*: /processor: /'
bytes=$(stat -c %s "$work/recording")
start=$(date +%s.%N)
"$program" "$work/recording" >"$work/done" &
reader=$!
most=0
while kill -0 "$reader" 2>"$work/null"; do
  now=$(awk '/VmHWM/ { print $2 }' "/proc/$reader/status" 2>"$work/null" || echo 0)
  if [ "${now:-0}" -gt "$most" ]; then most=$now; fi
  sleep 0.02
done
wait "$reader"
taken=$(echo "$(date +%s.%N) - $start" | bc)
awk -v taken="$taken" -v bytes="$bytes" -v records="$records" -v most="$most" '{
  printf "%d records, %d bytes: %d happenings, %d heard bytes, %.3f s, %.0f MB/s, %d records/s, at most %d kB of memory\n",
    records, bytes, $1, $2, taken, bytes / taken / 1e6, records / taken, most
}' "$work/done"
