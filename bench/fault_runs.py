#!/usr/bin/env python3
"""Writes the runs among those of crates/test_runs in which each call of what is outside fails in turn: of files, of both streams, of
a hub, of a poller and of a link, in each command: python3 bench/fault_runs.py stdin, or stdout.

The answers are worked out here and by the models of one_vlan.py, gauge_cases.py and bgp_cases.py, with none of the program's code.
"""
import json
import struct
import sys

import bgp_cases
import bgp_runs
from gauge_cases import HELLO as GAUGE_HELLO
from gauge_cases import Gauge, stats, status, upto
from gauge_cases import features as gauge_features
from gauge_runs import DPS, FAUCET, GAUGE, WATCHERS, escaped
from one_vlan import HELLO, Controller, barrier_reply, cold, descriptions, features, flow_mod, message, wipe

USAGE = "usage: faucet check, plan, replay, serve, gauge, gauge-serve, bench, trace, walk, bgp or bgp-serve"
OFF = "drop_spoofed_faucet_mac: false, drop_broadcast_source_address: false, drop_lldp: false, drop_bpdu: false"
BARE = f"{{dps: {{a: {{dp_id: 1, {OFF}, interfaces: {{}}}}}}}}"
READ_LEN = 4096  # of files, at once

# ---- what is outside


class Fault(Exception):
    """A call failed."""


class Refused(Exception):
    """A status, and the line that says why in pieces."""

    def __init__(self, code, *pieces):
        super().__init__()
        self.code, self.pieces = code, pieces


class Calls:
    def __init__(self, failing=0):
        self.count, self.failing = 0, failing

    def call(self):
        self.count += 1
        if self.count == self.failing:
            raise Fault


class Sink:
    def __init__(self, failing, room=100_000):
        self.calls, self.room, self.taken = Calls(failing), room, b""

    def write(self, piece):
        """The whole piece; a call takes what there is room for."""
        while piece:
            self.calls.call()
            count = min(len(piece), self.room - len(self.taken))
            if not count:
                raise Fault
            self.taken, piece = self.taken + piece[:count], piece[count:]


class File:
    """A file: its text or its bytes; what it includes; why it is refused, by its text or by what it says; a line of JSON."""

    def __init__(self, text, includes=(), optional=(), text_fault=None, fault=None, line=None):
        self.text, self.includes, self.optional = text, includes, optional
        self.text_fault, self.fault, self.line = text_fault, fault, line


class Files:
    def __init__(self, held, later, failing):
        self.held, self.later, self.calls = held, later, Calls(failing)

    def refresh(self):
        self.held = {**self.held, **self.later}

    def read(self, name):
        """One call for the file's bytes, and one for its end; None where it isn't there."""
        self.calls.call()
        if name not in self.held:
            return None
        assert len(self.held[name].text) < READ_LEN
        self.calls.call()
        return self.held[name]


class MemHub:
    """Gives turns, in the words of test_runs, and keeps its story."""

    def __init__(self, turns, failing):
        self.turns, self.calls, self.open, self.story = list(turns), Calls(failing), set(), []

    def turn(self):
        self.calls.call()
        if not self.turns:
            return None
        words = self.turns.pop(0)
        self.story.append(" hub gave a turn")
        if words[0] == "open":
            self.open.add(words[1])
        elif words[0] == "end":
            self.open.discard(words[1])
        return words

    def say(self, conn, digits):
        if conn in self.open:
            self.story.append(f"  said {conn} {digits}")

    def close(self, conn):
        if conn in self.open:
            self.open.discard(conn)
            self.story.append(f"  closed {conn}")

    def told(self):
        return self.story


class LinkHub:
    """A hub over a poller that opens a link, which is ready, shows a moment, has the link ready again, and stops."""

    def __init__(self, failing, source, link_failing, waiting):
        self.calls, self.nexts = Calls(failing), ["new", "ready", "moment", "ready"]
        self.link, self.waiting, self.left = Calls(link_failing), waiting, source
        self.open, self.ended, self.unsent, self.wrote = False, False, b"", b""

    def flush(self):
        """As much of what is unsent as the link takes: all of it, but where the call waits."""
        if self.unsent:
            self.link.call()
            if self.link.count != self.waiting:
                self.wrote, self.unsent = self.wrote + self.unsent, b""

    def ready(self):
        try:
            self.flush()
            self.link.call()
        except Fault:
            self.open = False
            return ["fault", "1"]
        if self.link.count == self.waiting:
            return None
        if not self.left:
            self.open = False
            return ["end", "1"]
        piece, self.left = self.left, b""
        return ["bytes", "1", piece.hex()]

    def turn(self):
        if self.ended:
            self.ended = False
            return ["fault", "1"]
        words = None
        while words is None:
            self.calls.call()
            if not self.nexts:
                return None
            name = self.nexts.pop(0)
            if name == "new":
                self.open, words = True, ["open", "1"]
            elif name == "moment":
                words = ["moment", "1000"]
            elif self.open:
                words = self.ready()
        return words

    def say(self, conn, digits):
        if not self.open:
            return
        self.unsent += bytes.fromhex(digits)
        try:
            self.flush()
        except Fault:
            self.open, self.ended = False, True

    def close(self, conn):
        self.open = self.ended = False

    def told(self):
        return [" link 1 holds"] + rows(self.wrote, message_length) if self.open else []


# ---- what the program does


class Program:
    def __init__(self, held, later=(), read=0, out=0, err=0, room=100_000):
        self.files, self.out, self.err = Files(held, dict(later), read), Sink(out, room), Sink(err)

    def line(self, *pieces):
        for piece in pieces + ("\n",):
            self.err.write(piece.encode())

    def run(self, job, *words):
        """The status."""
        try:
            try:
                return job(self, *words)
            except Refused as why:
                self.line(*why.pieces)
                return why.code
        except Fault:
            return 4

    # files
    def gather(self, name, needed=True):
        """The files that are read, the main one first."""
        try:
            file = self.files.read(name)
        except Fault:
            raise Refused(3, name, ": read fault") from None
        if file is None:
            if needed:
                raise Refused(3, name, ": read fault")
            return []
        if file.text_fault:
            raise Refused(2, name, ": line ", *file.text_fault)
        found = [file]
        for include in file.includes:
            found += self.gather(include)
        for include in file.optional:
            found += self.gather(include, False)
        return found

    def load(self, name):
        file = self.gather(name)[0]
        if file.fault:
            raise Refused(2, name, ": ", *file.fault)
        return file

    def load_gauge(self, name):
        self.load(name)
        self.load("f.yaml")

    # commands
    def usage(self):
        raise Refused(1, USAGE)

    def check(self, *names):
        for name in names:
            self.out.write(self.load(name).line.encode() + b"\n")
        return 0

    def plan(self, name, dp):
        self.load(name)
        if dp != "a":
            raise Refused(2, name, ": dps.", dp, ": Unresolved")
        adds = [flow_mod(3 + place, 0, *key, it) for place, (key, it) in enumerate(sorted(cold([], 100).items()))]
        self.out.write(b"".join([wipe(1), message(20, b"", 2), *adds, message(20, b"", 3 + len(adds))]))
        return 0

    def records(self, name):
        """The records of a recording, up to its end or to the first that is refused."""
        try:
            self.files.calls.call()
            if name not in self.files.held:
                raise Fault
            self.files.calls.call()
            rest, number = self.files.held[name].text, 0
            while rest:
                number += 1
                if rest[8] not in range(1, 6):
                    raise Refused(5, "recording: record ", str(number), ": ", "Kind")
                length = 17 + struct.unpack(">I", rest[13:17])[0]
                yield rest[:length]
                rest = rest[length:]
            self.files.calls.call()
        except Fault:
            raise Refused(3, name, ": read fault") from None

    def story(self, name):
        last = 0
        for record in self.records(name):
            moment, kind, conn, _ = struct.unpack(">QBII", record[:17])
            if moment > last or kind == 5:
                yield ["moment", str(moment)]
            last = moment
            words = {1: ["open", str(conn)], 2: ["bytes", str(conn), record[17:].hex()], 3: ["end", str(conn)]}.get(kind)
            if words:
                yield words

    def replay(self, name, recording):
        self.load(name)
        controller = Controller({1: []})
        for words in self.story(recording):
            said = controller.turn(words)
            self.out.write(b"".join(written(controller.now, one) for one in said))
            self.err.write(lines_of(said))
        return 0

    def gauge(self, name, recording):
        self.load_gauge(name)
        gauge = Gauge(DPS, WATCHERS)
        for words in self.story(recording):
            said, lines = gauge.turn(words)
            self.out.write("".join(lines).encode())
            self.err.write(lines_of(said))
        return 0

    def load_peer(self, name, router):
        self.load(name)
        if router != "edge":
            raise Refused(2, name, ": routers.", router, ": Unresolved")
        return bgp_cases.Driven(bgp_runs.with_routes)

    def bgp(self, name, router, recording):
        speaker = self.load_peer(name, router)
        for words in self.story(recording):
            said, records = spoken(speaker, words)
            self.out.write(records)
            self.err.write(lines_of(said))
        return 0

    def drive(self, turns, take, events):
        """Takes the turns of a hub, so many at most."""
        for _ in range(events):
            try:
                words = turns()
            except Fault:
                raise Refused(6, "hub fault") from None
            if words is None:
                return 0
            take(words)
        raise Refused(7, "events spent")

    def tell(self, hub, said, lines=()):
        for one in said:
            what, conn, *rest = one.split(" ")
            if what == "send":
                hub.say(conn, rest[0])
            elif what == "close":
                hub.close(conn)
        self.out.write(b"".join(line if isinstance(line, bytes) else line.encode() for line in lines))
        self.err.write(lines_of(said))

    def serve(self, name, events, hub):
        last = self.load(name)
        controller, looked, waiting = Controller({1: []}), 0, []

        def look():
            self.files.refresh()
            try:
                return self.gather(name)[0]
            except Refused as why:
                if why.code == 3:
                    return None
            try:
                return self.files.read(name)
            except Fault:
                return None

        def turns():
            nonlocal last, looked
            if waiting:
                return ["reload", waiting.pop()]
            words = hub.turn()
            if words and words[0] == "moment" and int(words[1]) - looked >= 1000:
                looked = int(words[1])
                found = look()
                if found is not None and found is not last:
                    last = found
                    waiting.append(found)
            return words

        def take(words):
            if words[0] == "reload":
                fault = words[1].fault
                why = "line " + "".join(words[1].text_fault) if words[1].text_fault else "".join(fault)
                self.tell(hub, [f"line reload: {why}"])
            else:
                self.tell(hub, controller.turn(words))

        return self.drive(turns, take, events)

    def gauge_serve(self, name, events, hub):
        self.load_gauge(name)
        gauge = Gauge(DPS, WATCHERS)
        return self.drive(hub.turn, lambda words: self.tell(hub, *gauge.turn(words)), events)

    def bgp_serve(self, names, events, hub):
        speaker = self.load_peer(*names.split(" "))

        def take(words):
            said, records = spoken(speaker, words)
            self.tell(hub, said, [records])
        return self.drive(hub.turn, take, events)


def spoken(speaker, words):
    """What a BGP speaker says and closes, with its lines; its records."""
    names = {"open": "open:", "bytes": "", "end": "end:", "fault": "fault:", "moment": "at:"}
    said, records = speaker.turn(names[words[0]] + ":".join(words[1:]))

    def word_of(piece):
        what, rest = piece.split(" ", 1)
        return {"close": piece, "conn": "line " + piece}.get(what) or f"send {what[:-1]} {rest}"
    return [word_of(piece) for piece in said], records


def lines_of(said):
    return "".join(one[len("line "):] + "\n" for one in said if one.startswith("line ")).encode()


def written(moment, one):
    """The record of a saying, if it has one."""
    what, conn, *rest = one.split(" ")
    if what == "send":
        kind, body = 130, bytes.fromhex(rest[0])
    elif what == "close":
        kind, body = 131, {"BadFrame": b"\2"}[rest[0]]
    else:
        return b""
    return struct.pack(">QBII", moment, kind, int(conn), len(body)) + body


# ---- how a run is printed


def message_length(row):
    return struct.unpack(">H", row[2:4])[0] if len(row) >= 4 else 0


def record_length(row):
    return 17 + int.from_bytes(row[14:17], "big") if len(row) >= 17 else 0


def rows(taken, length):
    out = []
    while taken:
        count = min(max(length(taken), 1), len(taken))
        out.append("  " + taken[:count].hex())
        taken = taken[count:]
    return out


def shown(name, taken):
    if not taken:
        return []
    if taken[0] in (0, 4):
        return [f" {name}, {len(taken)} bytes:"] + rows(taken, record_length if taken[0] == 0 else message_length)
    return [f" {name}: {escaped(taken.decode())}"]


class Runs:
    def __init__(self):
        self.input, self.output, self.held, self.later = [], [], {}, {}

    def put(self, line, *answer):
        self.input.append(line)
        self.output += [line + (answer[0] if answer else ""), *answer[1:]]

    def no_files(self):
        self.put("no files")
        self.held, self.later = {}, {}

    def file(self, name, file, later=False):
        (self.later if later else self.held)[name] = file
        if isinstance(file.text, bytes):
            self.put(f"hex {name} {file.text.hex()}")
        else:
            self.put(f"{'later' if later else 'file'} {name} {escaped(file.text)}")

    def one(self, job, line, *words, hub=None, told=None, **failing):
        """A run, and what it counts."""
        for what, number in failing.items():
            self.put(f"fail {what} {number}")
        if told:
            self.put(told)
        program = Program(self.held, self.later, **failing)
        code = program.run(job, *words, *([hub] if hub else []))
        self.put(f"run {line}".rstrip(), f" => {code}", *shown("out", program.out.taken), *shown("err", program.err.taken),
                 *(hub.told() if hub else []))
        return program

    def each(self, job, line, *words, make=None, told=None):
        """Each call of files and of both streams fails in turn, and then one that isn't made."""
        def go(**failing):
            return self.one(job, line, *words, hub=make and make(), told=told, **failing)
        whole = go()
        for what, calls in (("read", whole.files.calls), ("out", whole.out.calls), ("err", whole.err.calls)):
            for number in range(1, calls.count + 1):
                go(**{what: number})
        go(read=whole.files.calls.count + 1)
        return whole


# ---- cases

JSON = {"acls": {}, "dps": {"a": {
    "arp_neighbor_timeout": 30, "description": "a", "dp_id": 1, "drop_bpdu": False, "drop_broadcast_source_address": False,
    "drop_lldp": False, "drop_spoofed_faucet_mac": False, "hardware": "Open vSwitch", "interfaces": {}, "stack_priority": None,
    "timeout": 300}}, "routers": {}, "vlans": {}}
LINE = json.dumps(JSON, separators=(",", ":"), sort_keys=True)
EMPTY_LINE = json.dumps({"acls": {}, "dps": {}, "routers": {}, "vlans": {}}, separators=(",", ":"))
PLAIN = File(BARE, line=LINE)
TAB = File("a: 1\n\tb: 2\n", text_fault=("2", ": ", "Tab"))
RULE = File("{dps: {a: {dp_id: x, interfaces: {}}}}", fault=("dps.a.dp_id", ": ", "WrongType"))
SWITCH = [HELLO, features(1), descriptions([]), barrier_reply(5), barrier_reply(11)]


def record(moment, kind, conn, body=b""):
    return struct.pack(">QBII", moment, kind, conn, len(body)) + body


def commands_without_a_hub(r):
    r.put("# words; several files with includes; a file that isn't there, and two that are refused")
    r.each(Program.usage, "")
    r.no_files()
    r.file("m.yaml", File("{include: [b.yaml], include-optional: [gone.yaml], dps: {}}", ["b.yaml"], ["gone.yaml"], line=EMPTY_LINE))
    r.file("b.yaml", File("{acls: {}}"))
    r.file("f.yaml", PLAIN)
    r.file("tab.yaml", TAB)
    r.file("rule.yaml", RULE)
    r.each(Program.check, "check m.yaml f.yaml", "m.yaml", "f.yaml")
    for name in ("nofile", "tab.yaml", "rule.yaml"):
        r.each(Program.check, f"check f.yaml {name}", "f.yaml", name)
    r.put("# a plan, and one of a datapath that isn't there; standard output is full")
    whole = r.each(Program.plan, "plan f.yaml a", "f.yaml", "a")
    r.each(Program.plan, "plan f.yaml z", "f.yaml", "z")
    for room in (0, 1, 57, len(whole.out.taken) - 1, len(whole.out.taken)):
        r.one(Program.plan, "plan f.yaml a", "f.yaml", "a", room=room)
    r.put("# a recording, and one with a record that is refused")
    begun = record(0, 1, 1) + b"".join(record(0, 2, 1, piece) for piece in SWITCH)
    ended = begun + record(20_000, 5, 0) + record(20_000, 2, 1, bytes.fromhex("0400000700000001"))
    r.file("r.rec", File(ended))
    r.file("bad.rec", File(begun + record(20_000, 6, 0)))
    r.each(Program.replay, "replay f.yaml r.rec", "f.yaml", "r.rec")
    r.each(Program.replay, "replay f.yaml bad.rec", "f.yaml", "bad.rec")
    r.each(Program.replay, "replay f.yaml nofile", "f.yaml", "nofile")


def hub_line(turns):
    names = {"open": "opened", "bytes": "heard", "end": "closed", "moment": "moment"}
    return "hub " + " ".join(":".join([names[words[0]], *words[1:]]) for words in turns)


def over_hubs(r, job, line, name, turns, links):
    """Over a hub in memory each call fails in turn; over a link each call of the poller and of the link, and each of the link waits."""
    events = 99
    line = f"{line} {name} --events {events}"
    r.each(job, line, name, events, make=lambda: MemHub(turns, 0), told=hub_line(turns))
    for number in range(1, len(turns) + 2):
        r.one(job, line, name, events, hub=MemHub(turns, number), told=hub_line(turns) + f" fail:{number}")
    r.put("# a poller, whose calls fail in turn; a link, whose calls fail in turn, and wait in turn")
    digits = b"".join(links).hex()
    for number in range(1, 7):
        r.one(job, line, name, events, hub=LinkHub(number, b"".join(links), 0, 0), told=f"links {number} {digits}")
    whole = LinkHub(0, b"".join(links), 0, 0)
    r.one(job, line, name, events, hub=whole, told=f"links - {digits}")
    for number in range(1, whole.link.count + 1):
        r.one(job, line, name, events, hub=LinkHub(0, b"".join(links), number, 0), told=f"links - {digits}/{number}")
    for number in range(1, whole.link.count + 1):
        r.one(job, line, name, events, hub=LinkHub(0, b"".join(links), 0, number), told=f"links - {digits}/-/{number}")


def commands_with_a_hub(r):
    r.put("# `serve`, with looks that find another file")
    r.no_files()
    r.file("f.yaml", PLAIN)
    turns = [["open", "1"], ["bytes", "1", b"".join(SWITCH).hex()], ["moment", "1000"], ["moment", "2000"],
             ["bytes", "1", "0400000700000001"], ["open", "2"], ["end", "2"]]
    r.file("f.yaml", RULE, later=True)
    r.each(Program.serve, "serve f.yaml --events 99", "f.yaml", 99, make=lambda: MemHub(turns[2:4], 0), told=hub_line(turns[2:4]))
    r.no_files()
    r.file("f.yaml", PLAIN)
    r.file("f.yaml", TAB, later=True)
    over_hubs(r, Program.serve, "serve", "f.yaml", turns, SWITCH)
    r.put("# Gauge, on a recording and on hubs")
    r.no_files()
    r.file("f.yaml", File(FAUCET))
    r.file("g.yaml", File(GAUGE))
    switch = [GAUGE_HELLO, gauge_features(1), stats(3, [(1, upto(1))]), status(2, 2, 1)]
    r.file("r.rec", File(record(0, 1, 1) + b"".join(record(0, 2, 1, piece) for piece in switch) + record(20_500, 3, 1)))
    r.each(Program.gauge, "gauge g.yaml r.rec", "g.yaml", "r.rec")
    turns = [["open", "1"], *(["bytes", "1", piece.hex()] for piece in switch), ["moment", "10000"], ["end", "1"]]
    over_hubs(r, Program.gauge_serve, "gauge-serve", "g.yaml", turns, switch)
    r.put("# the speaker of a BGP peer, on a recording and on hubs")
    r.no_files()
    r.file("f.yaml", File(bgp_runs.document()))
    peer = [bgp_cases.message(bgp_cases.OPEN, bgp_cases.opening()), bgp_cases.message(bgp_cases.KEEPALIVE), bgp_runs.announced("172.16.0.0/16")]
    r.file("r.rec", File(record(0, 1, 1) + record(0, 2, 1, b"".join(peer)) + record(30_000, 5, 0) + record(30_000, 3, 1)))
    r.each(Program.bgp, "bgp f.yaml edge r.rec", "f.yaml", "edge", "r.rec")
    r.each(Program.bgp, "bgp f.yaml core r.rec", "f.yaml", "core", "r.rec")
    turns = [["open", "1"], *(["bytes", "1", piece.hex()] for piece in peer), ["moment", "30000"], ["moment", "90000"], ["open", "2"], ["end", "2"]]
    over_hubs(r, Program.bgp_serve, "bgp-serve", "f.yaml edge", turns, peer)


def runs():
    r = Runs()
    r.put("")
    r.put("# Each call of what is outside fails in turn, in each command, and at the end one that isn't made")
    commands_without_a_hub(r)
    commands_with_a_hub(r)
    return r


if __name__ == "__main__":
    made = runs()
    print("\n".join(made.input if sys.argv[1:] == ["stdin"] else made.output))
