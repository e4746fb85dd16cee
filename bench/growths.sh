#!/usr/bin/env bash
# Refuses each growth in turn, one at a time, in `Session::feed` with the messages that are heard, `load`, what is read of frames of
# IPv6 and made of them, `Controller::turn`, `Gauge::turn` and a `LinkHub`. A program of this script's own calls the checkout's crates,
# and goes on behind a refusal. A session is then as it was, and a file loads, and a frame is read or made, when it is asked for again, so
# that all comes to what it comes to without the refusal; a controller, a Gauge and a hub answer as ever up to the refusal, and from it on
# that they are spent. Prints how many runs ended in which way: `own` are those in which an allocation of the program itself failed, which
# tell nothing. Status 1 where one ended otherwise. Needs gcc and python3.
# Usage: bench/growths.sh [STEP]    every STEP-th allocation alone fails (1 else)
set -eu
top=$(cd "$(dirname "$0")/.." && pwd)
work=$(mktemp -d)
trap 'rm -rf "$work"' EXIT
rt=$(command -v rt || echo /opt/rattle/bin/rt)
named="net_base fg_outside fg_links link_hub yaml_subset conf_types conf_check conf_gather conf_load conf_json gauge_conf ctl_life ctl_core gauge_poll of13_codec switch_session of_match pkt_view test_lines test_turns"

# a repository with the checkout's libraries, and the proofs that it keeps, and the program
mkdir -p "$work/crates/growths/src"
python3 - "$top/crates.txt" $named >"$work/crates.txt" <<'CLOSURE'
import sys

lines = [line.split("#")[0].strip() for line in open(sys.argv[1])]
stands_on = {name: rest.split() for name, _, rest in (line.partition(":") for line in lines if line)}
found, rest = set(), sys.argv[2:]
while rest:
    name = rest.pop()
    if name in stands_on and name not in found:
        found.add(name)
        rest += stands_on[name]
for name in stands_on:
    if name in found:
        print(f"{name}: {' '.join(stands_on[name])}".rstrip())
CLOSURE
cut -d: -f1 "$work/crates.txt" | while read -r name; do
  mkdir -p "$work/crates/$name/out"
  for part in src specs proofs; do
    if [ -d "$top/crates/$name/$part" ]; then
      cp -a "$top/crates/$name/$part" "$work/crates/$name"
    fi
  done
  if [ -d "$top/crates/$name/out/rlib" ]; then
    cp -a --reflink=auto "$top/crates/$name/out/rlib" "$work/crates/$name/out"
  fi
done
echo "growths: $named hex" >>"$work/crates.txt"

cat >"$work/crates/growths/src/main.rt" <<'PROGRAM'
//! What calls answer where an allocation may fail: each line of the input is a call, and is printed with its answer. Behind a refusal
//! it goes on.
#![tactic(auto)]

mod bench;
mod files;
mod frames;
mod hubs;
mod sessions;

use bench::Bench;
use std::io;
use test_lines::answered;

fn main(rt: HostRuntime) -> io::Result<()> {
    let table = io::read_to_string(rt.alloc(), rt.stdin())?;
    let text = answered(rt.alloc(), &mut Bench::new(rt.alloc()), table.as_str())?;
    print!(rt; "{text}")
}
PROGRAM

cat >"$work/crates/growths/src/bench.rt" <<'PROGRAM'
use crate::files::{file_of, load_text};
use crate::frames::frame_text;
use crate::hubs::{Links, call, hub_of};
use crate::sessions::feed;
use conf_check::conf_of_bytes;
use conf_types::{Conf, Tally};
use ctl_core::Controller;
use fg_outside::{Happening, HeldFiles};
use gauge_conf::{read_gauge, resolve_gauge};
use gauge_poll::Gauge;
use net_base::{Moment, NoMemory};
use std::alloc::Global;
use std::mem::replace;
use switch_session::Session;
use test_lines::{Answers, bytes_of, write_escaped};
use test_turns::{happening, put_saying};
use yaml_subset::read_yaml;

/// What is told of a refusal.
pub const REFUSED: &str = " => no memory";

/// Units of work that nobody counts.
#[derive(Drop)]
struct Uncounted;

impl Tally for Uncounted {
    ghost count = { λ u. 18446744073709551615 };

    fn tick(&mut self) {}
}

/// What the lines before made.
#[derive(Drop)]
pub struct Bench {
    session: Session,
    held: HeldFiles,
    conf: Option<Conf>,
    controller: Option<Controller>,
    gauge: Option<Gauge>,
    hub: Option<Links>,
}

fn steer(alloc: Global, controller: &mut Controller, what: &Happening) -> Result<String, NoMemory> {
    let Ok(sayings) = controller.turn(what, &mut Uncounted) else {
        return String::from_str(alloc, REFUSED);
    };
    let mut out = String::new(alloc);
    for saying in sayings.as_slice() {
        put_saying(alloc, &mut out, saying)?;
    }
    Ok(out)
}

fn watch(alloc: Global, gauge: &mut Gauge, what: &Happening) -> Result<String, NoMemory> {
    let Ok(given) = gauge.turn(what) else {
        return String::from_str(alloc, REFUSED);
    };
    let mut out = String::new(alloc);
    for saying in given.sayings.as_slice() {
        put_saying(alloc, &mut out, saying)?;
    }
    for line in given.lines.as_slice() {
        out.push_str("\n  gives ")?;
        write_escaped(&mut out, line.as_str())?;
    }
    Ok(out)
}

fn conf_of(alloc: Global, text: &str) -> Result<Conf, NoMemory> {
    match conf_of_bytes(alloc, text.as_bytes()) {
        Ok(conf) => Ok(conf),
        Err(_) => Err(std::alloc::AllocError),
    }
}

fn gauge_of(alloc: Global, text: &str, conf: Conf) -> Result<Option<Gauge>, NoMemory> {
    let Ok(tree) = read_yaml(alloc, text.as_bytes()) else {
        return Err(std::alloc::AllocError);
    };
    let Ok(raw) = read_gauge(alloc, &tree) else {
        return Err(std::alloc::AllocError);
    };
    let Ok(watched) = resolve_gauge(alloc, &raw, conf) else {
        return Err(std::alloc::AllocError);
    };
    Ok(Some(Gauge::new(alloc, watched)?))
}

impl Bench {
    /// Nothing yet.
    pub fn new(alloc: Global) -> Bench {
        Bench {
            session: Session::open(alloc, Moment(0)),
            held: HeldFiles::new(alloc),
            conf: None,
            controller: None,
            gauge: None,
            hub: None,
        }
    }

    /// What happens to the controller or to the Gauge.
    fn happens(&mut self, alloc: Global, name: &str, rest: &str) -> Result<String, NoMemory> {
        match (happening(alloc, name, rest)?, &mut self.controller, &mut self.gauge) {
            (Some(what), Some(controller), _) => steer(alloc, controller, &what),
            (Some(what), None, Some(gauge)) => watch(alloc, gauge, &what),
            _ => Ok(String::new(alloc)),
        }
    }
}

impl Answers for Bench {
    fn answer(&mut self, alloc: Global, line: &str) -> Result<String, NoMemory> {
        let (name, rest) = line.split_once(' ').unwrap_or((line, ""));
        match name {
            "feed" => {
                let piece = bytes_of(alloc, rest)?;
                return feed(alloc, &mut self.session, piece.as_slice());
            }
            "file" => self.held.push(file_of(alloc, rest)?)?,
            "load" => return load_text(alloc, &self.held, rest),
            "frame" => return frame_text(alloc, rest),
            "conf" => self.conf = Some(conf_of(alloc, rest)?),
            "steer" => {
                if let Some(conf) = replace(&mut self.conf, None) {
                    self.controller = Some(Controller::new(alloc, conf)?);
                }
            }
            "gauge" => {
                if let Some(conf) = replace(&mut self.conf, None) {
                    self.gauge = gauge_of(alloc, rest, conf)?;
                }
            }
            "hub" => self.hub = Some(hub_of(alloc, rest)?),
            "call" => {
                if let Some(hub) = &mut self.hub {
                    return call(alloc, hub, rest);
                }
            }
            _ => return self.happens(alloc, name, rest),
        }
        Ok(String::new(alloc))
    }
}
PROGRAM

cat >"$work/crates/growths/src/sessions.rt" <<'PROGRAM'
use net_base::{Moment, NoMemory};
use of13_codec::{Message, WireRefused, decode};
use std::alloc::Global;
use std::fmt::Write;
use switch_session::{Got, Session};

/// What can be seen of a session.
fn put_seen(out: &mut String, session: &Session) -> Result<(), NoMemory> {
    write!(out, "{:?}, heard at {}", session.stage(), session.heard().0)?;
    write!(out, ", {:?} awaited, {} unread", session.awaited(), session.unread_len())?;
    for port in session.ports() {
        write!(out, ", {} {}", port.no.get(), if port.up { "up" } else { "down" })?;
    }
    Ok(())
}

fn seen(alloc: Global, session: &Session) -> Result<String, NoMemory> {
    let mut out = String::new(alloc);
    put_seen(&mut out, session)?;
    Ok(out)
}

/// Whether a session is as it was, where a call was refused.
fn put_refusal(
    alloc: Global,
    out: &mut String,
    before: &str,
    session: &Session,
) -> Result<(), NoMemory> {
    let after = seen(alloc, session)?;
    if after.as_str() == before {
        out.push_str("no memory, as it was; ")
    } else {
        out.push_str("no memory, OTHERWISE; ")
    }
}

/// Feeds a piece, a second time where the first was refused.
fn feed_surely(
    alloc: Global,
    out: &mut String,
    session: &mut Session,
    piece: &[u8],
) -> Result<(), NoMemory> {
    let before = seen(alloc, session)?;
    if session.feed(piece, Moment(7)).is_err() {
        put_refusal(alloc, out, before.as_str(), session)?;
        session.feed(piece, Moment(7))?;
    }
    Ok(())
}

/// The message of the next frame, if there is one.
fn next_message(alloc: Global, session: &mut Session) -> Result<Option<(Message, u32)>, NoMemory> {
    match session.next() {
        Got::Frame(frame) => match decode(alloc, frame.bytes) {
            Ok(heard) => Ok(Some(heard)),
            Err(WireRefused::Memory) => Err(std::alloc::AllocError),
            Err(_) => Ok(None),
        },
        Got::NotYet | Got::Bad => Ok(None),
    }
}

/// Hears a message, a second time where the first was refused.
fn hear_surely(
    alloc: Global,
    out: &mut String,
    session: &mut Session,
    message: &Message,
    xid: u32,
) -> Result<(), NoMemory> {
    let before = seen(alloc, session)?;
    match session.hear(message, xid) {
        Ok(step) => write!(out, "{step:?}; "),
        Err(_) => {
            put_refusal(alloc, out, before.as_str(), session)?;
            let step = session.hear(message, xid)?;
            write!(out, "{step:?}; ")
        }
    }
}

/// Hears what a piece brings.
pub fn feed(alloc: Global, session: &mut Session, piece: &[u8]) -> Result<String, NoMemory> {
    let mut out = String::from_str(alloc, " => ")?;
    session.asked(7);
    feed_surely(alloc, &mut out, session, piece)?;
    for _ in 0..piece.len() {
        match next_message(alloc, session)? {
            Some((message, xid)) => hear_surely(alloc, &mut out, session, &message, xid)?,
            None => break,
        }
    }
    put_seen(&mut out, session)?;
    Ok(out)
}
PROGRAM

cat >"$work/crates/growths/src/files.rt" <<'PROGRAM'
use conf_gather::LoadRefused;
use conf_json::json;
use conf_load::load;
use fg_outside::{Folder, Folders, HeldFile, HeldFiles, SureFiles};
use net_base::{NoMemory, Text, TryCopy};
use std::alloc::Global;
use test_lines::unescaped;

/// A file: its name, and its text.
pub fn file_of(alloc: Global, line: &str) -> Result<HeldFile, NoMemory> {
    let (name, text) = line.split_once(' ').unwrap_or((line, ""));
    Ok(HeldFile {
        name: Text::from_str(alloc, name)?,
        bytes: unescaped(alloc, text)?,
    })
}

/// What a file comes to, and whether it is loaded; where memory ran out it isn't.
fn put_loaded(
    alloc: Global,
    out: &mut String,
    files: &mut SureFiles,
    name: &str,
) -> Result<bool, NoMemory> {
    match load(alloc, files, name) {
        Ok(conf) => {
            out.push_str(json(alloc, &conf)?.as_str())?;
            Ok(true)
        }
        Err(LoadRefused::Memory) => {
            out.push_str("no memory; ")?;
            Ok(false)
        }
        Err(_) => {
            out.push_str("refused")?;
            Ok(true)
        }
    }
}

/// What a file comes to, which is loaded a second time where memory ran out.
pub fn load_text(alloc: Global, held: &HeldFiles, name: &str) -> Result<String, NoMemory> {
    let mut folders = Folders::new(alloc);
    folders.push(Folder {
        held: held.copy(alloc)?,
    })?;
    let mut files = SureFiles::new(folders);
    let mut out = String::from_str(alloc, " => ")?;
    if !put_loaded(alloc, &mut out, &mut files, name)? {
        put_loaded(alloc, &mut out, &mut files, name)?;
    }
    Ok(out)
}
PROGRAM

cat >"$work/crates/growths/src/frames.rt" <<'PROGRAM'
use net_base::{Bytes, Ip6, Mac, NoMemory};
use of_match::Packet;
use pkt_view::{echo_reply, nd_advert, nd_solicit, packet_of, view};
use std::alloc::Global;
use std::fmt::Write;
use test_lines::bytes_of;

const ROUTER: Mac = Mac([0x0e, 0, 0, 0, 0, 1]);

const STATION: Mac = Mac([2, 0, 0, 0, 0, 1]);

const GATEWAY: Ip6 = Ip6(0xfd00_0000_0000_0000_0000_0000_0000_00fe);

const HOST: Ip6 = Ip6(0xfd00_0000_0000_0000_0000_0000_0000_0001);

/// The frame that is asked for: of a neighbour, or an answer.
fn make(alloc: Global, kind: &str, frame: &[u8]) -> Result<Option<Bytes>, NoMemory> {
    match (kind, view(frame)) {
        ("solicit", _) => Ok(Some(nd_solicit(alloc, ROUTER, GATEWAY, HOST)?)),
        ("advert", _) => Ok(Some(nd_advert(alloc, ROUTER, GATEWAY, STATION, HOST)?)),
        (_, Some(view)) => echo_reply(alloc, ROUTER, &view),
        (_, None) => Ok(None),
    }
}

/// Asks for it a second time where the first was refused.
fn make_surely(
    alloc: Global,
    out: &mut String,
    kind: &str,
    frame: &[u8],
) -> Result<Option<Bytes>, NoMemory> {
    match make(alloc, kind, frame) {
        Ok(made) => Ok(made),
        Err(_) => {
            out.push_str("no memory; ")?;
            make(alloc, kind, frame)
        }
    }
}

/// Reads a packet, a second time where the first was refused.
fn read_surely(alloc: Global, out: &mut String, frame: &[u8]) -> Result<Option<Packet>, NoMemory> {
    match packet_of(alloc, frame) {
        Ok(packet) => Ok(packet),
        Err(_) => {
            out.push_str("no memory; ")?;
            packet_of(alloc, frame)
        }
    }
}

/// What is read of a frame, or made of it.
pub fn frame_text(alloc: Global, line: &str) -> Result<String, NoMemory> {
    let (kind, digits) = line.split_once(' ').unwrap_or((line, ""));
    let frame = bytes_of(alloc, digits)?;
    let mut out = String::from_str(alloc, " => ")?;
    if kind == "packet" {
        let packet = read_surely(alloc, &mut out, frame.as_slice())?;
        write!(out, "{packet:?}")?;
        return Ok(out);
    }
    match make_surely(alloc, &mut out, kind, frame.as_slice())? {
        Some(made) => out.push_str(hex::encode(alloc, made.as_slice())?.as_str())?,
        None => out.push_str("nothing")?,
    }
    Ok(out)
}
PROGRAM

cat >"$work/crates/growths/src/hubs.rt" <<'PROGRAM'
ghost use Rattle.std.specs.Prelude.{◌≤◌, IfOk};
ghost use Rattle.fg_links.specs.Nexts.{links_in};

use crate::bench::REFUSED;
use fg_links::{MemLink, MemNext, MemNexts, MemPoller};
use fg_outside::{CallNos, Happening, Hub, Said, Turn};
use link_hub::LinkHub;
use net_base::NoMemory;
use std::alloc::Global;
use test_lines::bytes_of;

/// A hub over links in memory.
pub type Links = LinkHub<MemPoller<MemLink>>;

/// A link with this input, whose first write waits.
fn link_of(alloc: Global, digits: &str) -> Result<MemLink, NoMemory> {
    let input = bytes_of(alloc, digits)?;
    let wait = CallNos::from_slice(alloc, &[1])?;
    MemLink::new(alloc, input, 10_000, CallNos::new(alloc), wait)
}

/// What a poller gives that opens three links, which are ready in turn.
fn nexts_of(alloc: Global, digits: &str) -> Result<MemNexts<MemLink>, NoMemory>
    ensures { IfOk result (λ nexts. links_in nexts ≤ 3) }
{
    let mut nexts = MemNexts::new(alloc);
    nexts.push(MemNext::New(link_of(alloc, digits)?))?;
    nexts.push(MemNext::New(link_of(alloc, digits)?))?;
    nexts.push(MemNext::New(link_of(alloc, digits)?))?;
    nexts.push(MemNext::Ready(1))?;
    nexts.push(MemNext::Ready(2))?;
    nexts.push(MemNext::Moment(5))?;
    nexts.push(MemNext::Ready(3))?;
    nexts.push(MemNext::Ready(1))?;
    nexts.push(MemNext::Ready(2))?;
    Ok(nexts)
}

/// A hub over such a poller.
pub fn hub_of(alloc: Global, digits: &str) -> Result<Links, NoMemory> {
    let poller = MemPoller::new(alloc, nexts_of(alloc, digits)?, 10, CallNos::new(alloc))?;
    Ok(LinkHub::new(alloc, poller))
}

fn turn_text(alloc: Global, turn: &Turn) -> Result<String, NoMemory> {
    match turn {
        Turn::Happened(Happening::Heard { conn, piece }) => {
            format!(in alloc; " => heard {conn} {}", hex::encode(alloc, piece.as_slice())?)
        }
        Turn::Happened(Happening::Opened(conn)) => format!(in alloc; " => opened {conn}"),
        Turn::Happened(Happening::Closed { conn, cause }) => format!(in alloc; " => closed {conn} {cause:?}"),
        Turn::Happened(_) => String::from_str(alloc, " => a moment"),
        Turn::Done => String::from_str(alloc, " => done"),
        Turn::Failed => String::from_str(alloc, " => failed"),
        Turn::Memory => String::from_str(alloc, REFUSED),
    }
}

/// The answer to `turn`, or to `say N DIGITS`.
pub fn call(alloc: Global, hub: &mut Links, line: &str) -> Result<String, NoMemory> {
    let mut words = line.split_whitespace();
    if words.next() == Some("turn") {
        return turn_text(alloc, &hub.turn());
    }
    let conn = words.next().unwrap_or("").parse::<u32>().unwrap_or(0);
    let piece = bytes_of(alloc, words.next().unwrap_or(""))?;
    match hub.say(conn, piece.as_slice()) {
        Said::Taken => String::from_str(alloc, " => taken"),
        Said::Gone => String::from_str(alloc, " => gone"),
        Said::Memory => String::from_str(alloc, REFUSED),
    }
}
PROGRAM

: >"$work/crates/growths/stdin"
: >"$work/crates/growths/stdout"
echo "building and proving the program" >&2
if ! (cd "$work/crates/growths" && "$rt" run) >"$work/build" 2>&1 </dev/null; then
  tail -n 20 "$work/build" >&2
  exit 1
fi
gcc -O2 -shared -fPIC -o "$work/fail.so" "$top/bench/fail.c"
timeout 3600 python3 "$top/bench/growths.py" "$work/crates/growths/out/growths" "$work" "${1:-1}"
