#!/usr/bin/env bash
# Measures the hub over links: how long it takes to say 64 MiB to a link that takes nothing yet, in
# pieces of 64 KiB, and to write them away in pieces of 1 KiB; and how many turns a second it gives
# where 1 and where 256 links are ready in turn, a byte each. A program of this script's own calls the
# checkout's crates. Prints seconds and rates; checks nothing.
# Usage: bench/links.sh [TURNS]
set -eu
top=$(cd "$(dirname "$0")/.." && pwd)
turns=${1:-1000000}
work=$(mktemp -d)
trap 'rm -rf "$work"' EXIT
rt=$(command -v rt || echo /opt/rattle/bin/rt)
libraries=(net_base fg_outside fg_links link_hub)

# a repository with copies of the checkout's libraries, and of the proofs that it keeps, and the program
mkdir -p "$work/crates/links_bench/src"
for name in "${libraries[@]}"; do
  cp -a --reflink=auto "$top/crates/$name" "$work/crates/$name"
  grep "^$name:" "$top/crates.txt"
done >"$work/crates.txt"
echo "links_bench: net_base fg_outside fg_links link_hub" >>"$work/crates.txt"
mkdir "$work/crates/links_bench/proofs"
cp "$top/crates/test_links/proofs/FewLinks.antt" "$work/crates/links_bench/proofs"
echo "pub mod FewLinks" >"$work/crates/links_bench/proofs/Lib.antt"

mkdir "$work/crates/links_bench/proofs/cut"
cat >"$work/crates/links_bench/proofs/cut/Answers.antt" <<'PROOF'
use Rattle.std.proofs.Common.{length, ap, arith}
use Rattle.std.proofs.lemmas.List.{length-take}
use Rattle.links_bench.proofs.FewLinks.{links_in_le}
use Rattle.links_bench.proofs.cut.Goals as goal

pub returns : goal.returns
returns c =
    let few = links_in_le c.truncate.new.self in
    omega (arith, few, ap length c.truncate.ensures, length-take 100000000 c.args.nexts.now)
PROOF

cat >"$work/crates/links_bench/src/main.rt" <<'PROGRAM'
//! Serves links that give a byte at each read, and prints how many turns were given. Three numbers:
//! how many links there are, how many turns they are ready for, and how many pieces of 65,536 bytes
//! are said to the first before, while it takes none.
#![tactic(auto)]

ghost use Rattle.std.specs.Prelude.{◌≤◌, ◌-◌, ◌^◌};
ghost use Rattle.fg_links.specs.Nexts.{links_in};

use fg_links::{Gave, Link, MemNext, MemNexts, SurePoller, Took};
use fg_outside::{Hub, Turn};
use link_hub::LinkHub;
use net_base::NoMemory;
use std::alloc::Global;
use std::{env, io};

/// A link that takes nothing at so many writes, and then 1,024 bytes at each.
#[derive(Drop)]
struct Slow {
    shut: u64,
    waits: u64,
}

impl Link for Slow {
    ghost use Rattle.std.specs.Prelude.{None};

    ghost left = { λ _. None };

    ghost wrote = { λ _. None };

    ghost faults = { λ _. 0 };

    ghost unread = { λ _. 0 };

    ghost unwritten = { λ it. it.waits };

    fn read(&mut self, buf: &mut [u8]) -> Took {
        Took::Some(buf.len().min(1))
    }

    fn write(&mut self, piece: &[u8]) -> Gave {
        if self.shut == 0 {
            return Gave::Some(piece.len().min(1_024));
        }
        self.shut -= 1;
        self.waits = self.waits.saturating_add(1);
        Gave::NotYet
    }
}

/// Cuts a list to as many answers as a poller in memory may give.
fn cut(nexts: &mut MemNexts<Slow>)
    ensures { links_in nexts.new ≤ 2 ^ 32 - 1 }
{
    nexts.truncate(100_000_000);
}

/// A hub over so many links, which are ready in turn so many times.
fn hub(
    alloc: Global,
    links: u32,
    turns: u64,
    shut: u64,
) -> Result<LinkHub<SurePoller<Slow>>, NoMemory> {
    let mut nexts = MemNexts::new(alloc);
    for _ in 0..links {
        nexts.push(MemNext::New(Slow { shut, waits: 0 }))?;
    }
    let mut link = 0;
    for _ in 0..turns {
        link = if link >= links { 1 } else { link + 1 };
        nexts.push(MemNext::Ready(link))?;
    }
    cut(&mut nexts);
    Ok(LinkHub::new(alloc, SurePoller::new(alloc, nexts, 0)?))
}

/// Takes turns until the hub is done, and counts those that gave something.
fn serve(hub: &mut LinkHub<SurePoller<Slow>>) -> u64 {
    let mut given: u64 = 0;
    for _ in 0..u64::MAX {
        match hub.turn() {
            Turn::Happened(_) => given = given.wrapping_add(1),
            Turn::Done | Turn::Failed | Turn::Memory => break,
        }
    }
    given
}

fn main(rt: HostRuntime) -> io::Result<()> {
    let mut numbers = [0u64; 3];
    for (number, arg) in numbers.iter_mut().zip(env::args(&rt)?.skip(1)) {
        *number = arg.as_str().parse::<u64>().unwrap_or(0);
    }
    let links = u32::try_from(numbers[0]).unwrap_or(256);
    let mut hub = hub(rt.alloc(), links, numbers[1], numbers[2])?;
    let _ = hub.turn();
    let piece = Vec::from_elem(rt.alloc(), 0, 65_536)?;
    for _ in 0..numbers[2] {
        let _ = hub.say(1, piece.as_slice());
    }
    let given = serve(&mut hub);
    println!(rt; "{given}")
}
PROGRAM

: >"$work/crates/links_bench/stdin"
echo 0 >"$work/crates/links_bench/stdout"
echo "building and proving the program" >&2
if ! (cd "$work/crates/links_bench" && "$rt" run) >"$work/build" 2>&1 </dev/null; then
  tail -n 20 "$work/build" >&2
  exit 1
fi
program=$work/crates/links_bench/out/links_bench

# the seconds of a run, with what it writes in $work/done
seconds() {
  local start
  start=$(date +%s.%N)
  "$program" "$@" >"$work/done"
  echo "$(date +%s.%N) - $start" | bc
}

grep -m 1 'model name' /proc/cpuinfo | sed 's/^.*: /processor: /'
taken=$(seconds 1 1 1024)
awk -v taken="$taken" 'BEGIN { printf "64 MiB said and written away in pieces of 1 KiB: %.3f s\n", taken }'
for links in 1 256; do
  taken=$(seconds "$links" "$turns" 0)
  awk -v links="$links" -v taken="$taken" -v turns="$(cat "$work/done")" 'BEGIN {
    printf "%d links in turn: %d turns, %.3f s, %d turns/s\n", links, turns, taken, turns / taken
  }'
done
