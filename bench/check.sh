#!/usr/bin/env bash
# Measures the check of a configuration at its limits: 64 datapaths with 256 interfaces each, 1,024 VLANs, 8,192
# pairs of VLAN and port and 20,000 ACL entries a datapath, in 64 files that the main one includes. A program of this
# script's own calls the checkout's crates on the files in memory. Prints the microseconds of each part, with VLANs
# that interfaces name by numbers and by names, at an eighth of the datapaths and at all of them; checks nothing.
# Usage: bench/check.sh
set -eu
top=$(cd "$(dirname "$0")/.." && pwd)
work=$(mktemp -d)
trap 'rm -rf "$work"' EXIT
rt=$(command -v rt || echo /opt/rattle/bin/rt)
libraries=(net_base fg_outside yaml_tree yaml_subset conf_types conf_shape conf_resolve conf_rules conf_names conf_limits law_checks conf_check conf_gather)

mkdir -p "$work/crates/check_bench/src"
for name in "${libraries[@]}"; do
  cp -a --reflink=auto "$top/crates/$name" "$work/crates/$name"
  grep "^$name:" "$top/crates.txt"
done >"$work/crates.txt"
echo "check_bench: ${libraries[*]}" >>"$work/crates.txt"

cat >"$work/crates/check_bench/src/main.rt" <<'PROGRAM'
//! Checks the configuration whose files are named, the main one first, and prints a line for each part: its name and
//! the microseconds that it took.
#![tactic(auto)]

use conf_check::find_broken_rule;
use conf_gather::gather;
use conf_resolve::{arrange, resolve};
use conf_shape::{RawConf, shape};
use fg_outside::{Folder, Folders, HeldFile, HeldFiles, SureFiles};
use net_base::{Bytes, Text};
use std::time::Instant;
use std::{env, fs, io};
use yaml_tree::Tree;

fn part(rt: &HostRuntime, name: &str, start: Instant) -> io::Result<()> {
    let spent = start.elapsed(rt)?;
    println!(rt; "{name}: {}", spent.as_micros())
}

/// Orders, resolves and checks.
fn check(rt: &HostRuntime, raw: &RawConf) -> io::Result<()> {
    let start = Instant::now(rt)?;
    let ordered = arrange(rt.alloc(), raw)?;
    part(rt, "put in order", start)?;
    let start = Instant::now(rt)?;
    let conf = resolve(rt.alloc(), &ordered)?;
    part(rt, "resolved", start)?;
    let start = Instant::now(rt)?;
    let found = find_broken_rule(rt.alloc(), &ordered, &conf)?.is_some();
    part(rt, "checked", start)?;
    println!(rt; "faults: {}", u8::from(found))
}

fn shape_and_check(rt: &HostRuntime, tree: &Tree) -> io::Result<()> {
    let start = Instant::now(rt)?;
    let Ok(raw) = shape(rt.alloc(), tree) else {
        return println!(rt; "refused by its shape");
    };
    part(rt, "shape", start)?;
    check(rt, &raw)
}

fn main(rt: HostRuntime) -> io::Result<()> {
    let mut held = HeldFiles::new(rt.alloc());
    for arg in env::args(&rt)?.skip(1) {
        let bytes = fs::read(&rt, arg.as_str())?;
        held.push(HeldFile {
            name: Text::from_str(rt.alloc(), arg.as_str())?,
            bytes: Bytes::from_slice(rt.alloc(), bytes.as_slice())?,
        })?;
    }
    let mut folders = Folders::new(rt.alloc());
    folders.push(Folder { held })?;
    let mut files = SureFiles::new(folders);
    let start = Instant::now(&rt)?;
    let Ok(tree) = gather(rt.alloc(), &mut files, "main.yaml") else {
        return println!(rt; "refused by its text");
    };
    part(&rt, "read and joined", start)?;
    shape_and_check(&rt, &tree)
}
PROGRAM

: >"$work/crates/check_bench/stdin"
: >"$work/crates/check_bench/stdout"
echo "building and proving the program" >&2
if ! (cd "$work/crates/check_bench" && "$rt" run) >"$work/build" 2>&1 </dev/null; then
  tail -n 20 "$work/build" >&2
  exit 1
fi
program=$work/crates/check_bench/out/check_bench

cd "$work"
python3 - <<'FILES'
def interface(port, named):
    tags = ", ".join(named(1 + (port * 32 + k) % 1024) for k in range(31))
    acl = ", acl_in: a" if port <= 19 else ""
    return f"{port}: {{native_vlan: {named(1 + (port * 32 + 31) % 1024)}, tagged_vlans: [{tags}]{acl}}}"

rules = "\n".join(f"        - rule: {{dl_type: 0x800, nw_proto: 6, tcp_dst: {k}, actions: {{allow: 1}}}}" for k in range(1000))
vlans = "\n".join(f"    v{vid}: {{vid: {vid}}}" for vid in range(1, 1025))
for kind, named in (("number", str), ("name", lambda vid: f"v{vid}")):
    ports = "\n".join("            " + interface(port, named) for port in range(1, 257))
    parts = [f"{kind}{place}.yaml" for place in range(64)]
    for place, name in enumerate(parts):
        with open(name, "w") as out:
            print(f"dps:\n    s{place}:\n        dp_id: {place}\n        interfaces:\n{ports}", file=out)
    for count, size in ((8, "few"), (64, "all")):
        with open(f"{kind}-{size}.yaml", "w") as out:
            print(f"include: [{', '.join(parts[:count])}]\nacls:\n    a:\n{rules}\nvlans:\n{vlans}", file=out)
FILES
grep -m 1 'model name' /proc/cpuinfo | sed 's/^.*: /processor: /'
for kind in number name; do
  for size in few all; do
    cp "$kind-$size.yaml" main.yaml
    "$program" main.yaml "$kind"?.yaml "$kind"??.yaml | sed "s/^/VLANs by $kind, $size: /"
  done
done
