#!/usr/bin/env bash
# Measures the proved codec: how fast flow mods are written and read, and what the flood entries of
# four datapaths cost, each of 256 interfaces in 64 VLANs. A program of this script's own calls the
# checkout's crates. Prints seconds and rates; checks nothing.
# Usage: bench/codec.sh [FLOW_MODS [PLANS]]
set -eu
top=$(cd "$(dirname "$0")/.." && pwd)
flow_mods=${1:-1000000}
plans=${2:-100}
work=$(mktemp -d)
trap 'rm -rf "$work"' EXIT
rt=$(command -v rt || echo /opt/rattle/bin/rt)
libraries=(net_base of_match of_wire of13_codec)

# a repository with copies of the checkout's libraries, and of the proofs that it keeps, and the program
mkdir -p "$work/crates/codec_bench/src"
for name in "${libraries[@]}"; do
  cp -a --reflink=auto "$top/crates/$name" "$work/crates/$name"
  grep "^$name:" "$top/crates.txt"
done >"$work/crates.txt"
echo "codec_bench: net_base of_match of13_codec" >>"$work/crates.txt"

cat >"$work/crates/codec_bench/src/main.rt" <<'PROGRAM'
//! Does one kind of work so many times, and prints how many messages and bytes that were.
#![tactic(auto)]

mod flood;
mod flow_mods;

use std::alloc::{AllocError, Global};
use std::{env, io};

/// How much work was done.
#[derive(Clone, Copy, Debug)]
pub struct Done {
    pub messages: u64,
    pub bytes: u64,
}

impl Done {
    pub fn none() -> Done {
        Done {
            messages: 0,
            bytes: 0,
        }
    }

    /// Counts a message of so many bytes.
    pub fn count(&mut self, bytes: usize) {
        self.messages = self.messages.wrapping_add(1);
        self.bytes = self.bytes.wrapping_add(bytes as u64);
    }
}

fn work(alloc: Global, kind: &str, times: u32) -> Result<Done, AllocError> {
    match kind {
        "write" => flow_mods::write(alloc, times),
        "read" => flow_mods::read(alloc, times),
        "flood" => flood::plan(alloc, times),
        _ => Ok(Done::none()),
    }
}

fn main(rt: HostRuntime) -> io::Result<()> {
    let mut kind = String::new(rt.alloc());
    let mut times = 0;
    for arg in env::args(&rt)?.skip(1) {
        match arg.as_str().parse::<u32>() {
            Ok(number) => times = number,
            Err(_) => kind = arg,
        }
    }
    let done = work(rt.alloc(), kind.as_str(), times)?;
    println!(rt; "{} {}", done.messages, done.bytes)
}
PROGRAM

cat >"$work/crates/codec_bench/src/flow_mods.rt" <<'FLOW_MODS'
//! A flow mod of an entry that sends a host's packets of a VLAN to a port without their tag.

use crate::Done;
use net_base::{Bytes, Field, FieldId, Fields, NoMemory};
use of_match::{Action, Actions, Instr, Instrs};
use of13_codec::{FlowMod, Message, decode, encode};
use std::alloc::Global;

/// An add of an entry of table 8.
pub fn add(fields: Fields, instrs: Instrs) -> Message {
    Message::FlowMod(FlowMod {
        cookie: 0x5adc_15c0,
        cookie_mask: 0,
        table: 8,
        command: 0,
        idle: 0,
        hard: 0,
        priority: 20,
        buffer: 0xffff_ffff,
        out_port: 0xffff_ffff,
        out_group: 0xffff_ffff,
        flags: 0,
        fields,
        instrs,
    })
}

fn host(alloc: Global) -> Result<Message, NoMemory> {
    let fields = [
        Field::exact(FieldId::EthDst, 0x0e00_0000_0102),
        Field::exact(FieldId::VlanVid, 0x1064),
    ];
    let port = Action::Output {
        port: 7,
        max_len: 0,
    };
    let mut instrs = Instrs::new(alloc);
    instrs.push(Instr::Apply(Actions::from_slice(alloc, &[Action::PopVlan, port])?))?;
    Ok(add(Fields::from_slice(alloc, &fields)?, instrs))
}

pub fn write(alloc: Global, times: u32) -> Result<Done, NoMemory> {
    let message = host(alloc)?;
    let mut done = Done::none();
    for xid in 0..times {
        let mut out = Bytes::new(alloc);
        encode(alloc, &message, xid, &mut out)?;
        done.count(out.len());
    }
    Ok(done)
}

pub fn read(alloc: Global, times: u32) -> Result<Done, NoMemory> {
    let mut frame = Bytes::new(alloc);
    encode(alloc, &host(alloc)?, 1, &mut frame)?;
    let mut done = Done::none();
    for _ in 0..times {
        if let Ok((Message::FlowMod(_), _)) = decode(alloc, frame.as_slice()) {
            done.count(frame.len());
        }
    }
    Ok(done)
}
FLOW_MODS

cat >"$work/crates/codec_bench/src/flood.rt" <<'FLOOD'
//! The flood entries of datapaths: two for each VLAN, to every interface in it.

use crate::Done;
use crate::flow_mods::add;
use net_base::{Bytes, Field, FieldId, Fields, NoMemory};
use of_match::{Action, Actions, Instr, Instrs};
use of13_codec::encode;
use std::alloc::Global;

const VLANS: u32 = 64;

const MEMBERS: u32 = 4;

/// The bit that tells a group address from one of a single station.
const GROUP_BIT: u128 = 0x0100_0000_0000;

/// Takes the tag off and sends the packet out of each interface in the VLAN.
fn outputs(alloc: Global, vlan: u32) -> Result<Instrs, NoMemory> {
    let mut actions = Actions::new(alloc);
    actions.push(Action::PopVlan)?;
    for member in 0..MEMBERS {
        let port = vlan.wrapping_add(VLANS.wrapping_mul(member));
        actions.push(Action::Output { port, max_len: 0 })?;
    }
    let mut instrs = Instrs::new(alloc);
    instrs.push(Instr::Apply(actions))?;
    Ok(instrs)
}

fn flood(alloc: Global, group: bool, vlan: u32, out: &mut Bytes) -> Result<(), NoMemory> {
    let mut fields = Fields::new(alloc);
    if group {
        fields.push(Field::bits(FieldId::EthDst, GROUP_BIT))?;
    }
    let tag = u128::from(vlan).wrapping_add(0x1000);
    fields.push(Field::exact(FieldId::VlanVid, tag))?;
    encode(alloc, &add(fields, outputs(alloc, vlan)?), vlan, out)
}

fn datapath(alloc: Global, done: &mut Done) -> Result<(), NoMemory> {
    let mut out = Bytes::new(alloc);
    for group in [false, true] {
        for vlan in 1..VLANS + 1 {
            let before = out.len();
            flood(alloc, group, vlan, &mut out)?;
            done.count(out.len().wrapping_sub(before));
        }
    }
    Ok(())
}

pub fn plan(alloc: Global, times: u32) -> Result<Done, NoMemory> {
    let mut done = Done::none();
    for _ in 0..times {
        for _ in 0..4 {
            datapath(alloc, &mut done)?;
        }
    }
    Ok(done)
}
FLOOD

: >"$work/crates/codec_bench/stdin"
echo "0 0" >"$work/crates/codec_bench/stdout"
echo "building and proving the program" >&2
if ! (cd "$work/crates/codec_bench" && "$rt" run) >"$work/build" 2>&1 </dev/null; then
  tail -n 20 "$work/build" >&2
  exit 1
fi
program=$work/crates/codec_bench/out/codec_bench

# the seconds of a run, with what it writes in $work/done
seconds() {
  local start
  start=$(date +%s.%N)
  "$program" "$@" >"$work/done"
  echo "$(date +%s.%N) - $start" | bc
}

grep -m 1 'model name' /proc/cpuinfo | sed 's/^.*: /processor: /'
empty=$(seconds none)
for kind in write read flood; do
  if [ "$kind" = flood ]; then times=$plans; else times=$flow_mods; fi
  taken=$(echo "$(seconds "$kind" "$times") - $empty" | bc)
  read -r messages bytes <"$work/done"
  awk -v kind="$kind" -v times="$times" -v taken="$taken" -v messages="$messages" -v bytes="$bytes" 'BEGIN {
    printf "%s: %d flow mods, %d bytes, %.3f s, %d flow mods/s, %.1f MB/s", kind, messages, bytes, taken,
      messages / taken, bytes / taken / 1e6
    if (kind == "flood")
      printf "; a plan of 4 datapaths: %d flow mods, %d bytes, %.3f ms", messages / times, bytes / times,
        1000 * taken / times
    printf "\n"
  }'
done
