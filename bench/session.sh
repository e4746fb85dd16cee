#!/usr/bin/env bash
# Measures the frames of a stream: how fast frames of 8 bytes are read from it, where the stream is
# fed in one piece, in pieces of 64 KB and byte by byte. A program of this script's own calls the
# checkout's crates. Prints seconds and rates; checks nothing.
# Usage: bench/session.sh [FRAMES]
set -eu
top=$(cd "$(dirname "$0")/.." && pwd)
frames=${1:-8000000}
work=$(mktemp -d)
trap 'rm -rf "$work"' EXIT
rt=$(command -v rt || echo /opt/rattle/bin/rt)
libraries=(net_base of_match of_wire of13_codec switch_session)

# a repository with copies of the checkout's libraries, and of the proofs that it keeps, and the program
mkdir -p "$work/crates/session_bench/src"
for name in "${libraries[@]}"; do
  cp -a --reflink=auto "$top/crates/$name" "$work/crates/$name"
  grep "^$name:" "$top/crates.txt"
done >"$work/crates.txt"
echo "session_bench: switch_session" >>"$work/crates.txt"

cat >"$work/crates/session_bench/src/main.rt" <<'PROGRAM'
//! Feeds a stream of frames of 8 bytes in pieces of some size, and prints how many frames came out.
#![tactic(auto)]

use std::alloc::{AllocError, Global};
use std::{env, io};
use switch_session::{Got, Stream};

/// A BARRIER_REPLY.
const FRAME: [u8; 8] = [4, 21, 0, 8, 0, 0, 0, 1];

/// So many frames in a row.
fn frames_in_a_row(alloc: Global, frames: u64) -> Result<Vec<u8>, AllocError> {
    let mut bytes = Vec::new(alloc);
    for _ in 0..frames {
        bytes.extend_from_slice(&FRAME)?;
    }
    Ok(bytes)
}

/// Takes the frames that are whole, at most so many, and counts them.
fn take(stream: &mut Stream, most: u64) -> u64 {
    let mut taken: u64 = 0;
    for _ in 0..most {
        if !matches!(stream.next(), Got::Frame(_)) {
            break;
        }
        taken = taken.wrapping_add(1);
    }
    taken
}

/// Feeds the bytes in pieces, and takes the frames behind each.
fn read(alloc: Global, bytes: &[u8], size: usize) -> Result<u64, AllocError> {
    let mut stream = Stream::new(alloc);
    let mut taken: u64 = 0;
    let mut rest = bytes;
    for _ in 0..bytes.len() {
        let (piece, behind) = rest.split_at(size.min(rest.len()));
        stream.feed(piece)?;
        taken = taken.wrapping_add(take(&mut stream, u64::MAX));
        rest = behind;
        if rest.is_empty() {
            break;
        }
    }
    Ok(taken)
}

fn main(rt: HostRuntime) -> io::Result<()> {
    let mut numbers = [0u64; 2];
    for (number, arg) in numbers.iter_mut().zip(env::args(&rt)?.skip(1)) {
        *number = arg.as_str().parse::<u64>().unwrap_or(0);
    }
    let bytes = frames_in_a_row(rt.alloc(), numbers[0])?;
    let size = usize::try_from(numbers[1]).unwrap_or(usize::MAX).max(1);
    let taken = read(rt.alloc(), bytes.as_slice(), size)?;
    println!(rt; "{taken}")
}
PROGRAM

: >"$work/crates/session_bench/stdin"
echo 0 >"$work/crates/session_bench/stdout"
echo "building and proving the program" >&2
if ! (cd "$work/crates/session_bench" && "$rt" run) >"$work/build" 2>&1 </dev/null; then
  tail -n 20 "$work/build" >&2
  exit 1
fi
program=$work/crates/session_bench/out/session_bench

# the seconds of a run, with what it writes in $work/done
seconds() {
  local start
  start=$(date +%s.%N)
  "$program" "$@" >"$work/done"
  echo "$(date +%s.%N) - $start" | bc
}

grep -m 1 'model name' /proc/cpuinfo | sed 's/^.*: /processor: /'
for size in $((8 * frames)) 65536 1; do
  taken=$(seconds "$frames" "$size")
  awk -v size="$size" -v taken="$taken" -v frames="$(cat "$work/done")" 'BEGIN {
    printf "pieces of %d bytes: %d frames, %.3f s, %d frames/s\n", size, frames, taken, frames / taken
  }'
done
