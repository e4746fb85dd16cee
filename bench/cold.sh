#!/usr/bin/env bash
# Measures the cold start and the opening batch of a datapath at a tenth, at half and at the whole of the
# limits: 256 interfaces, 1,024 VLANs, 8,192 pairs of them, 16 interfaces with `hairpin` that four others
# mirror, 20,000 ACL entries, VIPs and routes. A program of this script's own calls the checkout's crates.
# Prints the number of entries, the seconds of `cold` with nothing learned and with hosts and gateways learned,
# the seconds and the bytes of the opening batch, and the most memory of each process; checks nothing. Seeing
# that a state of 16,384 hosts is valid takes a minute more, which isn't counted.
# Usage: bench/cold.sh [HOSTS]
set -eu
top=$(cd "$(dirname "$0")/.." && pwd)
hosts=${1:-16384}
work=$(mktemp -d)
trap 'rm -rf "$work"' EXIT
rt=$(command -v rt || echo /opt/rattle/bin/rt)
reading=(net_base yaml_tree yaml_subset of_match stack_paths conf_types conf_shape conf_resolve conf_rules conf_names conf_limits law_checks conf_check)
compiling=(host_list packet_way state_check plan_base vlan_compile acl_compile route_compile law_runs plan_units cold_start)
laws=(law_tables law_tables law_tables law_tables law_tables law_tables law_entries law_plans law_plans)
writing=(of_wire of13_codec flow_messages opening_batch)
libraries=("${reading[@]}" "${compiling[@]}" "${laws[@]}" "${writing[@]}")

# a repository with copies of the checkout's libraries, and of the proofs that it keeps, and the program
mkdir -p "$work/crates/cold_bench/src"
for name in "${libraries[@]}"; do
  cp -a --reflink=auto "$top/crates/$name" "$work/crates/$name"
  grep "^$name:" "$top/crates.txt"
done >"$work/crates.txt"
echo "cold_bench: net_base of_match stack_paths conf_types conf_check host_list packet_way state_check cold_start opening_batch" >>"$work/crates.txt"

cat >"$work/crates/cold_bench/src/main.rt" <<'PROGRAM'
//! Reads a configuration of the datapath 1, `a`, and does what the first argument names: `cold`, its cold
//! start with as many hosts learned as the second argument says, in its first VLANs by its first ports, and
//! then the gateways of all routes; or `batch`, its opening batch. Prints how many entries or bytes there are,
//! and the nanoseconds.
#![tactic(auto)]

mod learned;

use conf_check::conf_of_bytes;
use conf_types::{Conf, Tally};
use cold_start::cold;
use learned::learned;
use net_base::DpId;
use opening_batch::opening_batch;
use state_check::is_valid;
use std::time::Instant;
use std::{env, io};

/// Units of work, counted up to the greatest number.
#[derive(Drop)]
struct Units(u64);

impl Tally for Units {
    ghost count = { λ units. units.0 };

    fn tick(&mut self) {
        self.0 = self.0.saturating_add(1);
    }
}

fn read(rt: &HostRuntime) -> io::Result<String> {
    let mut text = String::new(rt.alloc());
    for line in rt.lines(rt.alloc()) {
        text.push_str(line?.as_str())?;
        text.push_str("\n")?;
    }
    Ok(text)
}

/// The entries of the cold start.
fn start(rt: &HostRuntime, conf: &Conf, hosts: u32) -> io::Result<()> {
    let known = learned(rt.alloc(), conf, hosts)?;
    let now = known.now();
    if !is_valid(rt.alloc(), conf, &now)? {
        return println!(rt; "no valid state");
    }
    let begun = Instant::now(rt)?;
    let tables = cold(rt.alloc(), conf, &now, DpId(1), &mut Units(0))?;
    let spent = begun.elapsed(rt)?;
    println!(rt; "{} {}", tables.len(), spent.as_nanos())
}

/// The bytes of the opening batch.
fn open(rt: &HostRuntime, conf: &Conf) -> io::Result<()> {
    let begun = Instant::now(rt)?;
    let Some(batch) = opening_batch(rt.alloc(), conf, "a", &mut Units(0))? else {
        return println!(rt; "no datapath");
    };
    let spent = begun.elapsed(rt)?;
    println!(rt; "{} {}", batch.len(), spent.as_nanos())
}

fn main(rt: HostRuntime) -> io::Result<()> {
    let mut is_cold = false;
    let mut hosts = 0;
    for arg in env::args(&rt)?.skip(1) {
        match arg.as_str() {
            "cold" => is_cold = true,
            word => hosts = word.parse::<u32>().unwrap_or(0),
        }
    }
    let text = read(&rt)?;
    let Ok(conf) = conf_of_bytes(rt.alloc(), text.as_bytes()) else {
        return println!(rt; "refused");
    };
    if is_cold {
        start(&rt, &conf, hosts)
    } else {
        open(&rt, &conf)
    }
}
PROGRAM

cat >"$work/crates/cold_bench/src/learned.rt" <<'PROGRAM'
use conf_types::{Conf, Dp, DpIds, HostRec, HostRecs, NeighRec, NeighRecs, UpRec, UpRecs, Vlan};
use host_list::Hosts;
use net_base::{DpId, Mac, Moment, NoMemory};
use packet_way::Now;
use std::alloc::Global;

/// What is learned, for a state to lend.
#[derive(Drop)]
pub struct Learned {
    running: DpIds,
    ups: UpRecs,
    hosts: Hosts,
    neighbours: NeighRecs,
}

impl Learned {
    /// The state of this.
    pub fn now(&self) -> Now<'_> {
        Now {
            moment: Moment(0),
            running: &self.running,
            ups: &self.ups,
            hosts: &self.hosts,
            neighbours: self.neighbours.as_slice(),
        }
    }
}

/// The datapath with all enabled ports up.
fn ups(alloc: Global, dp: &Dp) -> Result<UpRecs, NoMemory> {
    let mut ups = UpRecs::new(alloc);
    for port in dp.ports.as_slice() {
        if port.enabled {
            let (dp, port) = (dp.id, port.no);
            ups.push(UpRec { dp, port })?;
        }
    }
    Ok(ups)
}

/// The hosts of a list; none of one that is too long.
fn looked_up(alloc: Global, list: &[HostRec]) -> Result<Hosts, NoMemory> {
    if list.len() < 0x1_0000_0000 {
        Hosts::from_slice(alloc, list)
    } else {
        Ok(Hosts::new(alloc))
    }
}

/// A host in each of the VLANs in turn, by the first 16 ports.
fn hosts(alloc: Global, dp: &Dp, vlans: &[Vlan], count: u32) -> Result<Hosts, NoMemory> {
    let mut hosts = HostRecs::new(alloc);
    for number in 0..count {
        let [a, b, c, d] = number.to_be_bytes();
        let place = number as usize;
        if let (Some(port), Some(vlan)) = (dp.ports.get(place % 16), vlans.get(place / 16 % 32)) {
            hosts.push(HostRec {
                dp: dp.id,
                port: port.no,
                vid: vlan.vid,
                mac: Mac([2, 0, a, b, c, d]),
                learned: Moment(0),
            })?;
        }
    }
    looked_up(alloc, hosts.as_slice())
}

/// The gateways of a VLAN's routes, each resolved.
fn push_gateways(neighbours: &mut NeighRecs, group: DpId, vlan: &Vlan) -> Result<(), NoMemory> {
    for route in vlan.routes.as_slice() {
        let [a, b, c, d] = route.gw.0.to_be_bytes();
        neighbours.push(NeighRec {
            group,
            vid: vlan.vid,
            ip: route.gw,
            mac: Some(Mac([2, 1, a, b, c, d])),
            tries: 0,
            due: Moment(0),
        })?;
    }
    Ok(())
}

fn neighbours(alloc: Global, conf: &Conf, dp: &Dp, count: u32) -> Result<NeighRecs, NoMemory> {
    let mut neighbours = NeighRecs::new(alloc);
    if count > 0 {
        for vlan in conf.vlans().as_slice() {
            push_gateways(&mut neighbours, conf.group_number(dp.id), vlan)?;
        }
    }
    Ok(neighbours)
}

/// What is learned of the first datapath, which runs: so many hosts, and the gateways if there are any hosts.
pub fn learned(alloc: Global, conf: &Conf, count: u32) -> Result<Learned, NoMemory> {
    let mut known = Learned {
        running: DpIds::new(alloc),
        ups: UpRecs::new(alloc),
        hosts: Hosts::new(alloc),
        neighbours: NeighRecs::new(alloc),
    };
    if let Some(dp) = conf.dps().as_slice().first() {
        known.running.push(dp.id)?;
        known.ups = ups(alloc, dp)?;
        known.hosts = hosts(alloc, dp, conf.vlans().as_slice(), count)?;
        known.neighbours = neighbours(alloc, conf, dp, count)?;
    }
    Ok(known)
}
PROGRAM

: >"$work/crates/cold_bench/stdin"
echo refused >"$work/crates/cold_bench/stdout"
echo "building and proving the program" >&2
if ! (cd "$work/crates/cold_bench" && "$rt" run) >"$work/build" 2>&1 </dev/null; then
  tail -n 20 "$work/build" >&2
  exit 1
fi
program=$work/crates/cold_bench/out/cold_bench

# so many tenths of the limits: VLANs of 16 members and more of two, of one router for each 16 and of none
conf() {
  awk -v t="$1" '
    function net(first, v, rest) { return first "." int(v / 256) "." v % 256 "." rest }
    function members(p,  v, list) {
      for (v = p; v <= pairs; v += ports - 20) list = list (list == "" ? "" : ", ") dense + 1 + v % plain
      return list
    }
    BEGIN {
      dense = 16 * int(2.8 * t); plain = int(51.2 * t); ports = 20 + int(23.6 * t); pairs = 2 * plain
      print "dps:\n  a:\n    dp_id: 1\n    interfaces:"
      for (v = 1; v <= dense; v++) tagged = tagged (v > 1 ? ", " : "") v
      for (p = 1; p <= 16; p++) printf "      %d: {hairpin: true, max_hosts: 16384, tagged_vlans: [%s]}\n", p, tagged
      for (p = 17; p <= 20; p++) printf "      %d: {mirror: [1, 2, 3, 4, 5, 6, 7, 8, 9, 10, 11, 12, 13, 14, 15, 16]}\n", p
      for (p = 21; p <= ports; p++) printf "      %d: {%stagged_vlans: [%s]}\n", p, (p <= 20 + 2 * t ? "acl_in: f, " : ""), members(p - 20)
      print "vlans:"
      for (v = 1; v <= dense; v++)
        printf "  %d: {max_hosts: 16384, faucet_vips: [%s/25, %s/25], routes: [{route: {ip_dst: %s/24, ip_gw: %s}}, {route: {ip_dst: %s/24, ip_gw: %s}}]}\n", v, net(10, v, 1), net(10, v, 129), net(20, v, 0), net(10, v, 2), net(30, v, 0), net(10, v, 130)
      for (; v <= dense + plain; v++) printf "  %d: {faucet_vips: [%s/24]}\n", v, net(40, v, 1)
      for (; v <= dense + plain + int(6.4 * t); v++) printf "  %d: {}\n", v
      print "routers:"
      for (v = 1; v <= dense; v += 16) {
        printf "  r%d: {vlans: [%d", v, v
        for (w = v + 1; w < v + 16; w++) printf ", %d", w
        print "]}"
      }
      print "acls:\n  f:"
      for (r = 1; r <= 999; r++)
        printf "    - rule: {eth_type: 0x0800, ip_proto: 17, ipv4_src: %s, udp_dst: %d, actions: {allow: 1, output: {ports: [1, 2, 3]}}}\n", net(50, r, 1), r
    }'
}

# the answer to so many tenths, and the most memory in KiB
measured() {
  local tenths=$1
  shift
  /usr/bin/time -f %M -o "$work/memory" "$program" "$@" <"$work/$tenths.yaml"
  cat "$work/memory"
}

grep -m 1 'model name' /proc/cpuinfo | sed 's/^.*: /processor: /'
for tenths in 1 5 10; do
  conf "$tenths" >"$work/$tenths.yaml"
  echo "$tenths nothing $(measured "$tenths" cold 0 | tr '\n' ' ')"
  echo "$tenths hosts $(measured "$tenths" cold "$((hosts * tenths / 10))" | tr '\n' ' ')"
  echo "$tenths batch $(measured "$tenths" batch | tr '\n' ' ')"
done >"$work/done"
awk '
  $4 !~ /^[0-9]+$/ { print "at " $1 " tenths of the limits, " $2 ": " $3 " " $4 " " $5; next }
  $2 == "batch" { printf "at %d tenths of the limits: %d bytes of the opening batch in %.3f s, %d KiB at most, %.1f times the bytes\n", $1, $3, $4 / 1e9, $5, $5 * 1024 / $3; next }
  { printf "at %d tenths of the limits, %s learned: %d entries in %.3f s, %.2f us an entry, %d KiB at most\n", $1, ($2 == "hosts" ? "hosts and gateways" : $2), $3, $4 / 1e9, $4 / 1000 / $3, $5 }
' "$work/done"
