#!/usr/bin/env python3
"""Writes the cases of crates/test_monitor: python3 bench/gauge_cases.py stdin, or stdout.

The answers are worked out here, from the rules, with none of the program's code.
"""
import json
import struct
import sys

from wire_cases import MESSAGES, is_message, lying

COUNTERS = ["rx_packets", "tx_packets", "rx_bytes", "tx_bytes", "rx_dropped", "tx_dropped", "rx_errors", "tx_errors",
            "rx_frame_err", "rx_over_err", "rx_crc_err", "collisions"]

# ---- messages of a switch


def frame(kind, xid, body=b"", version=4):
    return struct.pack(">BBHI", version, kind, 8 + len(body), xid) + body


def features(dp, auxiliary=0, xid=2):
    return frame(6, xid, struct.pack(">QIBBHII", dp, 256, 254, auxiliary, 0, 0x4F, 0))


def stats(xid, ports, more=False):
    body = struct.pack(">HHI", 4, 1 if more else 0, 0)
    for number, counters in ports:
        body += struct.pack(">II12QII", number, 0, *counters, 5, 6)
    return frame(19, xid, body)


def flow(table, priority, packets, nbytes, fields=b"", instructions=b"", cookie=0):
    """An item of flow statistics, with fields as they stand in a match."""
    match = struct.pack(">HH", 1, 4 + len(fields)) + fields
    match += bytes(-len(match) % 8)
    body = struct.pack(">BxIIHHHH4xQQQ", table, 7, 8, priority, 9, 10, 1, cookie, packets, nbytes) + match + instructions
    return struct.pack(">H", 2 + len(body)) + body


def flows(xid, items, more=False):
    return frame(19, xid, struct.pack(">HHI", 1, 1 if more else 0, 0) + b"".join(items))


def status(reason, number, config=0, state=0):
    body = struct.pack(">B7x", reason)
    body += struct.pack(">I4x6s2x16sII24x", number, bytes([2, 0, 0, 0, 0, 1]), b"p", config, state)
    return frame(12, 9, body)


HELLO = frame(0, 1)
ANY = 0xFFFFFFFF
LOCAL = 0xFFFFFFFE

# a db in the place of a file: one for Prometheus
PROM = None

# of a reply so many different ports count, and so many different flow entries
MOST_PORTS, MOST_FLOWS = 4096, 65536


# ---- flow statistics


def cut_flows(body):
    """The flow entries of a body of flow statistics; None where one of them is wrong."""
    at, found = 8, []
    while at < len(body):
        item = body[at:]
        length = int.from_bytes(item[:2], "big")
        if len(item) < 2 or length < 56 or length > len(item) or item[48:50] != b"\0\1":
            return None
        match = int.from_bytes(item[50:52], "big")
        if match < 4 or 48 + (match + 7) // 8 * 8 > length:
            return None
        table, priority = item[2], int.from_bytes(item[12:14], "big")
        packets, nbytes = struct.unpack(">QQ", item[32:48])
        found.append((table, priority, item[48:48 + match].hex(), packets, nbytes))
        at += length
    return found


def is_flow_reply(kind, body):
    return kind == 19 and len(body) >= 8 and body[:2] == b"\0\1"


# ---- blocks


def label(value):
    return value.replace("\\", "\\\\").replace('"', '\\"').replace("\n", "\\n")


def block(kind, names, rows):
    """Of rows with their labels, and a value for each name."""
    lines = []
    for at, name in enumerate(names):
        lines.append(f"# TYPE {name} {kind}")
        for labels, values in rows:
            lines.append("%s{%s} %d" % (name, ",".join(f'{key}="{label(str(value))}"' for key, value in labels), values[at]))
    return "".join(line + "\n" for line in lines + [""])


def firsts(items, most):
    """The first item of each key."""
    found = {}
    for key, item in items:
        if key not in found and len(found) < most:
            found[key] = item
    return found.values()

# ---- what a Gauge does


class Conn:
    def __init__(self, now):
        self.stage, self.dp, self.xid, self.heard, self.echoed, self.buffer = "greeting", None, 0, now, False, b""


class Gauge:
    def __init__(self, dps, watchers):
        self.dps, self.now, self.conns, self.polls, self.waits = dps, 0, {}, {}, {}
        self.watchers = sorted(watchers, key=lambda w: w["name"].encode())

    # what is said
    def send(self, number, kind, body=b"", xid=None):
        conn = self.conns[number]
        if xid is None:
            conn.xid = conn.xid % 0xFFFFFFFF + 1
            xid = conn.xid
        self.said.append(f"send {number} {frame(kind, xid, body).hex()}")
        return xid

    def end(self, number, cause, told=None, by_us=True):
        if by_us:
            self.said.append(f"close {number} {cause}")
        self.said.append(f"line conn {number}: {told or cause}")
        del self.conns[number]
        self.polls = {at: poll for at, poll in self.polls.items() if at[0] != number}
        self.waits = {at: items for at, items in self.waits.items() if at[0] != number}

    def conn_of(self, dp):
        return next((n for n in sorted(self.conns) if self.conns[n].dp == dp), None)

    # polls
    def poll(self, place, dp):
        number = self.conn_of(dp)
        if number is None:
            return
        last = self.polls.get((number, place))
        if last is None or self.now - last[1] >= 1000 * self.watchers[place]["interval"]:
            if self.watchers[place]["type"] == "flow_table":
                body = struct.pack(">HHIB3xII4xQQHH4x", 1, 0, 0, 0xFF, ANY, ANY, 0, 0, 1, 4)
            else:
                body = struct.pack(">HHIII", 4, 0, 0, ANY, 0)
            self.polls[number, place] = (self.send(number, 18, body), self.now)
            self.waits[number, place] = []

    def poll_all(self, only=None):
        for place, watcher in enumerate(self.watchers):
            if watcher["type"] != "port_state":
                for dp in sorted(watcher["dps"]):
                    if only in (None, dp):
                        self.poll(place, dp)

    # lines
    def give(self, watcher, dp, source, counter, value):
        for file in watcher["files"]:
            if file is not PROM:
                self.lines.append("\t".join([file, str(self.now), self.dps[dp][0], source, counter, str(value)]) + "\n")

    # blocks
    def give_block(self, watcher, text):
        self.lines += [text for file in watcher["files"] if file is PROM]

    def port_name(self, dp, port):
        return self.dps[dp][1].get(port, str(port))

    def port_labels(self, dp, port):
        return [("dp_id", dp), ("dp_name", self.dps[dp][0]), ("port", port), ("port_name", self.port_name(dp, port))]

    def gather(self, place, number, items, more):
        """The items of all parts, with the last one; None before."""
        waits = self.waits[number, place] + items
        self.waits[number, place] = waits if more else []
        return None if more else waits

    def places(self, kind, number, xid):
        for place, watcher in enumerate(self.watchers):
            if watcher["type"] == kind and self.polls.get((number, place), (None,))[0] == xid:
                yield place, watcher

    def hear_stats(self, number, xid, body):
        dp = self.conns[number].dp
        for place, watcher in self.places("port_stats", number, xid):
            parts = []
            for at in range(8, len(body), 112):
                port, _, *counters = struct.unpack(">II12Q", body[at:at + 104])
                parts.append((port, (port, counters)))
                for counter, value in zip(COUNTERS, counters):
                    self.give(watcher, dp, self.port_name(dp, port), counter, value)
            items = self.gather(place, number, parts, body[3] & 1)
            if items is not None:
                rows = [(self.port_labels(dp, port), counters) for port, counters in firsts(items, MOST_PORTS)]
                self.give_block(watcher, block("counter", ["of_port_" + name for name in COUNTERS], rows))

    def hear_flows(self, number, xid, body):
        dp = self.conns[number].dp
        for place, watcher in self.places("flow_table", number, xid):
            parts = []
            for table, priority, match, packets, nbytes in cut_flows(body):
                parts.append(((table, priority, match), (table, priority, match, packets, nbytes)))
                self.give(watcher, dp, f"{table}:{priority}:{match}", "packets", packets)
                self.give(watcher, dp, f"{table}:{priority}:{match}", "bytes", nbytes)
            items = self.gather(place, number, parts, body[3] & 1)
            if items is not None:
                rows = [([("dp_id", dp), ("dp_name", self.dps[dp][0]), ("table", table), ("priority", priority), ("match", match)], values)
                        for table, priority, match, *values in firsts(items, MOST_FLOWS)]
                self.give_block(watcher, block("counter", ["of_flow_packets", "of_flow_bytes"], rows))

    def hear_status(self, number, body):
        dp = self.conns[number].dp
        port, = struct.unpack(">I", body[8:12])
        config, state = struct.unpack(">II", body[40:48])
        up = body[0] != 1 and not config & 1 and not state & 1
        for watcher in self.watchers:
            if watcher["type"] == "port_state" and dp in watcher["dps"]:
                self.give(watcher, dp, self.port_name(dp, port), "state", int(up))
                self.give_block(watcher, block("gauge", ["of_port_state"], [(self.port_labels(dp, port), [int(up)])]))

    # messages
    def hear_features(self, number, body):
        dp, auxiliary = struct.unpack(">Q", body[:8])[0], body[13]
        self.conns[number].stage = "on"
        if dp not in self.dps:
            self.end(number, "UnknownDp")
        elif auxiliary:
            self.end(number, "Auxiliary")
        else:
            other = self.conn_of(dp)
            if other is not None:
                self.end(other, "Replaced")
            self.conns[number].dp = dp
            self.poll_all(dp)

    def hear(self, number, version, kind, xid, body):
        conn = self.conns[number]
        if version != 4 and kind == 0 and conn.stage == "greeting":
            self.send(number, 1, bytes(4), xid)
            self.end(number, "WrongVersion")
        elif version != 4 or not is_message(kind, body) or is_flow_reply(kind, body) and cut_flows(body) is None:
            self.end(number, "BadFrame")
        elif kind == 1:
            self.end(number, "SwitchError", "SwitchError %d %d" % struct.unpack(">HH", body[:4]))
        elif kind == 2:
            self.send(number, 3, body, xid)
        elif kind == 0 and conn.stage == "greeting":
            conn.stage = "features"
            self.send(number, 5)
        elif kind == 6 and conn.stage == "features":
            self.hear_features(number, body)
        elif kind == 12 and conn.dp is not None:
            self.hear_status(number, body)
        elif kind == 19 and body[:2] == b"\0\4" and conn.dp is not None:
            self.hear_stats(number, xid, body)
        elif is_flow_reply(kind, body) and conn.dp is not None:
            self.hear_flows(number, xid, body)

    def bytes(self, number, piece):
        conn = self.conns[number]
        if piece:
            conn.heard, conn.echoed = self.now, False
        conn.buffer += piece
        while number in self.conns and len(conn.buffer) >= 8:
            length, = struct.unpack(">H", conn.buffer[2:4])
            if length < 8:
                self.end(number, "BadFrame")
            elif len(conn.buffer) < length:
                return
            else:
                version, kind, _, xid = struct.unpack(">BBHI", conn.buffer[:8])
                body, conn.buffer = conn.buffer[8:length], conn.buffer[length:]
                self.hear(number, version, kind, xid, body)

    def moment(self, now):
        self.now = max(self.now, now)
        for number in sorted(self.conns):
            quiet = self.now - self.conns[number].heard
            if quiet >= 60000:
                self.end(number, "Silent")
            elif quiet >= 20000 and not self.conns[number].echoed:
                self.conns[number].echoed = True
                self.send(number, 2)
        self.poll_all()

    def turn(self, words):
        self.said, self.lines = [], []
        name, *rest = words
        number = int(rest[0]) if name != "reload" else None
        if name == "open" and number not in self.conns:
            self.conns[number] = Conn(self.now)
            self.send(number, 0, bytes.fromhex("0001000800000010"))
        elif name == "bytes" and number in self.conns:
            self.bytes(number, bytes.fromhex(rest[1]))
        elif name in ("end", "fault", "overfull") and number in self.conns:
            self.end(number, {"end": "End", "fault": "LinkFault", "overfull": "Overfull"}[name], by_us=False)
        elif name == "moment":
            self.moment(number)
        return self.said, self.lines


# ---- cases

DPS = {1: ("sw1", {1: "host1", 2: "host2"}), 2: ("sw2", {1: "east"})}

# names that need escapes in labels
ODD = {1: ("s\\w \"1\"", {1: "ho\nst{1}", 2: "a\\nb,", 3: "\u00e9="})}


def word(text):
    return text if text.isalnum() else json.dumps(text, ensure_ascii=False)


def conf(switches):
    dps = ", ".join(
        f"{word(name)}: {{dp_id: {dp}, hardware: \"Open vSwitch\", interfaces: {{"
        + ", ".join(f"{no}: {{name: {word(port)}, native_vlan: office}}" for no, port in ports.items()) + "}}"
        for dp, (name, ports) in switches.items())
    return f"conf {{vlans: {{office: {{vid: 100}}}}, dps: {{{dps}}}}}"


def gauge(switches, watchers):
    parts, dbs = [], []
    for w in watchers:
        names = []
        for file in w["files"]:
            names.append(f"db{len(dbs)}")
            dbs.append((names[-1], file))
        dps = ", ".join(word(switches[dp][0]) for dp in w["dps"])
        parts.append(f"{w['name']}: {{type: {w['type']}, dps: [{dps}], dbs: [{', '.join(names)}], interval: {w['interval']}}}")
    files = ", ".join(f"{name}: {{type: prometheus}}" if file is PROM else f"{name}: {{type: text, file: {file}}}" for name, file in dbs)
    return f"gauge {{faucet_configs: [faucet.yaml], watchers: {{{', '.join(parts)}}}, dbs: {{{files}}}}}"


def watcher(name, kind, dps, files, interval=10):
    return {"name": name, "type": kind, "dps": dps, "files": files, "interval": interval}


def escaped(text):
    return text.replace("\\", "\\\\").replace("\t", "\\t").replace("\n", "\\n")


class Cases:
    def __init__(self):
        self.input, self.output, self.gauge = [], [], None

    def put(self, line, *more):
        self.input.append(line)
        self.output.append(line + (more[0] if more else ""))

    def begin(self, title, *watchers, switches=DPS):
        self.put("")
        self.put(f"# {title}")
        self.put(conf(switches), " => accepted")
        self.put(gauge(switches, watchers), " => accepted")
        self.gauge = Gauge(switches, watchers)

    def do(self, *lines):
        for line in lines:
            self.put(line)
            said, given = self.gauge.turn(line.split(" "))
            self.output += [f"  {one}" for one in said]
            self.output += ["  gives " + escaped(one) for one in given]

    def heard(self, number, *messages):
        for message in messages:
            self.do(f"bytes {number} {message.hex()}")

    def run(self, number, dp):
        self.do(f"open {number}")
        self.heard(number, HELLO, features(dp))


def upto(n):
    return list(range(n, n + 12))


def field(number, value, mask=b""):
    """A field of a match."""
    return struct.pack(">HBB", 0x8000, number << 1 | bool(mask), len(value) + len(mask)) + value + mask


IN_PORT, VLAN, ETH_DST = field(0, b"\0\0\0\1"), field(6, b"\x10\x64"), field(3, bytes(6), b"\1" + bytes(5))


def blocks(c):
    """Flow tables, and dbs for Prometheus."""
    ports = watcher("ports", "port_stats", [1], [PROM])
    table = watcher("flows", "flow_table", [1], ["f.log", PROM])
    states = watcher("states", "port_state", [1], [PROM])

    c.begin("a reply with the counters 1 to 12 of one port gives a block of 25 lines, the last one empty", ports)
    c.do("moment 10000")
    c.run(1, 1)
    c.heard(1, stats(3, [(1, upto(1))]))

    c.begin("a reply with one flow entry gives two lines and a block; the poll is one for all flow entries", table)
    c.do("moment 10000")
    c.run(1, 1)
    c.heard(1, flows(3, [flow(0, 1, 5, 320)]))

    c.begin("states of ports as blocks: down, up, deleted, of a port that isn't configured, of LOCAL", states)
    c.run(1, 1)
    c.heard(1, status(2, 1, 0, 1), status(2, 1), status(1, 2), status(0, 9), status(2, LOCAL, 1))

    c.begin("flow entries with matches, instructions and greatest counters; the key is the match without its padding", table)
    c.run(1, 1)
    c.heard(1, flows(3, [flow(255, 65535, 2 ** 64 - 1, 2 ** 64 - 1, IN_PORT, bytes(8), 2 ** 64 - 1), flow(1, 20, 0, 0, IN_PORT + VLAN),
                         flow(3, 30, 7, 8, ETH_DST + VLAN, struct.pack(">HHB3x", 1, 8, 4))]))

    c.begin("a block comes with the last part, and has the items of all; lines come with each part", table, ports)
    c.run(1, 1)
    c.heard(1, flows(3, [flow(0, 1, 5, 320)], True), stats(4, [(1, upto(1))], True), flows(3, [flow(0, 2, 6, 330)], True), stats(4, [], True),
            stats(4, [(2, upto(101))]), flows(3, [flow(7, 1, 7, 340)]))

    c.begin("of items of one port, or of one table, priority and match, the first counts, over all parts; lines come of each", table, ports)
    c.run(1, 1)
    c.heard(1, flows(3, [flow(0, 1, 5, 320), flow(0, 1, 6, 330)], True), flows(3, [flow(0, 1, 7, 340), flow(1, 1, 8, 350), flow(0, 2, 9, 360),
            flow(0, 1, 10, 370, IN_PORT)]), stats(4, [(1, upto(1)), (2, upto(21)), (1, upto(41))], True), stats(4, [(2, upto(61)), (3, upto(81))]))

    c.begin("parts of a reply that a newer poll overtakes go", table, ports)
    c.run(1, 1)
    c.heard(1, flows(3, [flow(0, 1, 5, 320)], True), stats(4, [(1, upto(1))], True))
    c.do("moment 10000")
    c.heard(1, flows(3, [flow(0, 2, 6, 330)]), stats(4, [(2, upto(21))]), flows(5, [flow(0, 3, 7, 340)]), stats(6, [(2, upto(41))]))

    c.begin("after a last part the next one with the same transaction id begins a block anew", table, ports)
    c.run(1, 1)
    c.heard(1, flows(3, [flow(0, 1, 5, 320)]), flows(3, [flow(0, 2, 6, 330)], True), flows(3, []), stats(4, [(1, upto(1))]), stats(4, [(2, upto(21))]))

    c.begin("a reply of nothing: a block with no samples, and no line", table, ports)
    c.run(1, 1)
    c.heard(1, flows(3, []), stats(4, []), flows(3, [], True), flows(3, []))

    c.begin("what was asked for counts alone: a reply of the other kind gives nothing, whichever transaction id it has", table, ports)
    c.run(1, 1)
    c.heard(1, flows(4, [flow(0, 1, 5, 320)]), stats(3, [(1, upto(1))]), flows(5, [flow(0, 1, 5, 320)]), flows(2, [flow(0, 1, 5, 320)]))

    c.begin("of one watcher the lines come before the blocks, whatever the order of its dbs; watchers by their names",
            watcher("b", "port_state", [1], [PROM, "s.log", PROM, "t.log"]), watcher("a", "port_stats", [1], [PROM, "p.log", PROM]),
            watcher("C", "port_state", [1], ["u.log", PROM]))
    c.run(1, 1)
    c.heard(1, stats(3, [(1, upto(1))]), status(2, 1))

    c.begin("parts wait for each watcher and each connection by themselves; those of a connection that ends go with it",
            watcher("a", "flow_table", [1, 2], [PROM], 20), watcher("b", "flow_table", [1], [PROM], 10))
    c.run(1, 1)
    c.run(2, 2)
    c.heard(1, flows(3, [flow(0, 1, 1, 1)], True), flows(4, [flow(0, 2, 2, 2)], True))
    c.heard(2, flows(3, [flow(0, 3, 3, 3)], True))
    c.do("moment 10000")
    c.heard(1, flows(3, [flow(0, 4, 4, 4)]), flows(5, [flow(0, 5, 5, 5)]))
    c.heard(2, flows(3, [flow(0, 6, 6, 6)], True))
    c.do("end 2")
    c.run(2, 2)
    c.heard(2, flows(3, [flow(0, 7, 7, 7)]))

    c.begin("a datapath's second connection takes the place of the first, whose parts go", table)
    c.run(1, 1)
    c.heard(1, flows(3, [flow(0, 1, 1, 1)], True))
    c.run(2, 1)
    c.heard(2, flows(3, [flow(0, 2, 2, 2)]))
    c.heard(1, flows(3, [flow(0, 3, 3, 3)]))

    c.begin("in labels a backslash, a double quote and a line feed are escaped", ports, states, table, switches=ODD)
    c.run(1, 1)
    c.heard(1, status(2, 1), status(2, 3), flows(3, [flow(0, 1, 5, 320)]), stats(4, [(1, upto(1)), (2, upto(21)), (3, upto(41)), (4, upto(61)), (LOCAL, upto(81))]))

    c.begin("watchers with no db poll, and give nothing", watcher("f", "flow_table", [1], []), watcher("p", "port_stats", [1], []))
    c.run(1, 1)
    c.heard(1, flows(3, [flow(0, 1, 5, 320)]), stats(4, [(1, upto(1))]))
    c.do("moment 10000")

    c.begin("a flow table of another datapath isn't polled; one in a piece with what follows, cut anywhere", table)
    c.run(2, 2)
    c.run(1, 1)
    whole = flows(3, [flow(0, 1, 5, 320, IN_PORT)], True) + flows(3, [flow(0, 2, 6, 330)]) + frame(2, 8)
    c.heard(1, whole[:9], whole[9:90], whole[90:])


def wrong(c):
    """Flow entries that are wrong: each closes its connection, whatever its stage, as what spells no message does."""
    good = flow(0, 1, 5, 320)
    fields = flow(0, 1, 5, 320, IN_PORT + VLAN)
    faults = [("one byte is left", b"\0"), ("a length of 55", b"\0\x37" + good[2:]), ("a length of 0", b"\0\0" + good[2:]),
              ("a length that passes the body", b"\0\x39" + good[2:]), ("a match of type 0", good[:48] + b"\0\0" + good[50:]),
              ("a match of length 3", good[:50] + b"\0\3" + good[52:]), ("a match that passes with its padding", fields[:50] + b"\0\x11" + fields[52:])]
    table = watcher("flows", "flow_table", [1], ["f.log", PROM])
    for title, item in faults:
        c.begin(f"a flow reply in which the second entry is wrong: {title}", table)
        c.do("open 1")
        c.heard(1, flows(3, [good, item]))
        c.do("open 2")
        c.heard(2, HELLO, flows(3, [good, item]))
        c.run(3, 1)
        c.heard(3, flows(3, [good], True), flows(9, [good, item]))
        c.run(4, 1)
        c.heard(4, flows(3, [item]), flows(3, [good]))
    c.begin("a length that ends within its last fields, and lengths that just fit", table)
    c.run(1, 1)
    c.heard(1, flows(3, [fields[:50] + b"\0\x10" + fields[52:], good[:50] + b"\0\x08" + good[52:], b"\0\x40" + good[2:] + bytes(8)]))
    c.begin("multipart replies that aren't of flow statistics, or are too short for one", table)
    c.run(1, 1)
    c.heard(1, frame(19, 3, struct.pack(">HHI", 2, 0, 0) + b"\0"), frame(19, 3, struct.pack(">HHI", 0, 0, 0)), frame(18, 3, struct.pack(">HHI", 1, 0, 0) + b"\0"))
    c.heard(1, frame(19, 3, b"\0\1\0\0\0\0\0"))


def cases():
    c = Cases()
    c.put("# What happens to a Gauge, a line each, with what it says and gives: `conf` is a configuration of switches, `gauge` a new Gauge")
    c.put("# over it; `open N`, `bytes N HEX`, `end N`, `fault N` and `overfull N` are of connection N, `moment MS` is the clock, `reload TEXT` a")
    c.put("# new configuration. A line or a block that is given has `\\t` for a tab and `\\n` for the end of a line.")
    one = watcher("stats", "port_stats", [1], ["p.log"])

    c.begin("a reply with the counters 1 to 12 of one port gives twelve lines", one)
    c.do("moment 10000")
    c.run(1, 1)
    c.heard(1, stats(3, [(1, upto(1))]))

    c.begin("the next poll comes at the first moment that is at or past due, and again then; an older transaction id gives nothing", one)
    c.run(1, 1)
    c.do("moment 9999", "moment 10000", "moment 10001")
    c.heard(1, stats(3, [(1, upto(1))]), stats(4, [(1, upto(1))]))
    c.do("moment 23456", "moment 30000", "moment 33455", "moment 33456")

    c.begin("a counted reply may come again, and before the next poll only", one)
    c.run(1, 1)
    c.heard(1, stats(3, [(1, upto(1))]), stats(3, [(1, upto(21))]))
    c.do("moment 10000")
    c.heard(1, stats(3, [(1, upto(41))]))

    c.begin("a port that isn't configured has its number, and a counter its greatest value", one)
    c.run(1, 1)
    c.heard(1, stats(3, [(7, [2 ** 64 - 1] * 12), (LOCAL, upto(0)), (0, upto(0))]))

    c.begin("a reply in parts, of which the last says that no more follow; one part is missing", one)
    c.run(1, 1)
    c.heard(1, stats(3, [(1, upto(1))], True), stats(3, [(2, upto(101))]))
    c.do("moment 10000")
    c.heard(1, stats(4, [(2, upto(301))]))

    c.begin("a reply of no ports", one)
    c.run(1, 1)
    c.heard(1, stats(3, []))

    states = watcher("states", "port_state", [1], ["s.log"])
    c.begin("states of ports: up, down by its config, down by its state, new, deleted while polled", states, one)
    c.run(1, 1)
    c.heard(1, status(2, 1), status(2, 1, 1, 0), status(2, 1, 0, 1), status(0, 2), status(1, 2))
    c.heard(1, stats(3, [(1, upto(1)), (2, upto(13))]))

    c.begin("a state of LOCAL and of a port that isn't configured", states)
    c.run(1, 1)
    c.heard(1, status(2, LOCAL), status(0, 9), status(1, LOCAL))

    c.begin("a state before the features gives nothing, nor does a reply", states, one)
    c.do("open 1")
    c.heard(1, status(2, 1), HELLO, status(2, 1), stats(3, [(1, upto(1))]), features(1), status(2, 1))

    c.begin("two watchers by the bytes of their names, two files each; the one has two datapaths, polled by their numbers",
            watcher("b", "port_stats", [1], ["x.log", "y.log"], 5), watcher("B", "port_stats", [2, 1], ["z.log"], 10),
            watcher("a", "port_state", [1, 2], ["u.log", "x.log"]))
    c.run(2, 2)
    c.run(1, 1)
    c.heard(1, stats(3, [(1, upto(1))]), stats(4, [(1, upto(1)), (2, upto(13))]), status(2, 2))
    c.heard(2, stats(3, [(1, upto(1))]), stats(4, [(1, upto(1))]), status(2, 1))
    c.do("moment 5000", "moment 10000", "moment 12000", "moment 15000")

    c.begin("two dbs of one watcher with one file: each line twice", watcher("stats", "port_stats", [1], ["p.log", "p.log"]))
    c.run(1, 1)
    c.heard(1, stats(3, [(2, upto(5))]))

    c.begin("nothing is polled before the features, and the interval counts from the first poll", one)
    c.do("open 1", "moment 5000")
    c.heard(1, HELLO)
    c.do("moment 10000")
    c.heard(1, features(1))
    c.do("moment 15000", "moment 19999", "moment 20000")

    c.begin("an interval of one second; a moment that comes late, and the next poll an interval after that",
            watcher("stats", "port_stats", [1], ["p.log"], 1))
    c.run(1, 1)
    c.do("moment 999", "moment 1000", "moment 1999", "moment 2500", "moment 3499", "moment 3500")

    c.begin("an interval of 59 seconds, and one of 60: connections are looked after first, so the silent one isn't polled",
            watcher("long", "port_stats", [1], ["p.log"], 60), watcher("short", "port_stats", [1], ["p.log"], 59))
    c.run(1, 1)
    c.do("moment 58999", "moment 59000", "moment 60000", "moment 120000")

    c.begin("a datapath's second connection takes the place of the first, and is polled at once", one)
    c.do("moment 1000")
    c.run(1, 1)
    c.do("moment 2000")
    c.run(2, 1)
    c.heard(1, stats(3, [(1, upto(1))]))
    c.heard(2, stats(3, [(1, upto(1))]))
    c.do("moment 11000", "moment 12000")

    c.begin("auxiliary connections and datapaths that aren't configured are turned away; one that isn't watched runs", one)
    c.do("open 1")
    c.heard(1, HELLO, features(1, 1))
    c.do("open 2")
    c.heard(2, HELLO, features(3))
    c.run(3, 2)
    c.do("moment 10000")

    c.begin("an ERROR; a header of less than its own length; a reply cut within a port; a HELLO of version 1", one)
    c.run(1, 1)
    c.heard(1, frame(1, 5, struct.pack(">HH", 1, 6)))
    c.run(2, 1)
    c.heard(2, bytes.fromhex("0400000400000000"))
    c.run(3, 1)
    c.heard(3, frame(19, 3, stats(3, [(1, upto(1))])[8:-8]))
    c.do("open 4")
    c.heard(4, frame(0, 7, b"", 1))

    c.begin("silence: an echo is asked for after 20 seconds, and the connection closed after 60; the echo of the other side is answered", one)
    c.run(1, 1)
    c.do("moment 20000", "moment 25000", "moment 30000")
    c.heard(1, frame(2, 77, b"hi"))
    c.do("moment 49999", "moment 50000", "moment 89999", "moment 90000", "moment 100000")

    c.begin("a connection's number is used again: its polls begin anew", one)
    c.run(1, 1)
    c.do("moment 4000", "end 1", "moment 5000")
    c.run(1, 1)
    c.heard(1, stats(3, [(1, upto(1))]))
    c.do("moment 14999", "moment 15000", "fault 1", "open 1", "overfull 1", "end 1", "bytes 1 00")

    c.begin("a piece with a reply and what follows it, cut anywhere; a connection that opens twice; a reload", one)
    c.run(1, 1)
    c.do("open 1", "reload {}")
    whole = stats(3, [(1, upto(1))]) + frame(2, 8) + stats(3, [(2, upto(1))])
    c.heard(1, whole[:100], whole[100:123], whole[123:])
    c.do("moment 10000")
    c.heard(1, stats(4, [(1, upto(1))]) + stats(3, [(1, upto(1))]))

    c.begin("a moment below the last one counts as that", one)
    c.do("moment 10000", "moment 3000")
    c.run(1, 1)
    c.do("moment 5000", "moment 19999", "moment 20000")

    blocks(c)
    wrong(c)

    # each message with a length that lies: one too small, and one too large with a byte more; before the HELLO, before the features and
    # behind them
    stages = [("the HELLO", []), ("the features", [HELLO]), ("nothing", [HELLO, features(1)])]
    for title, setup in stages:
        c.begin(f"a length one too small, and one too large, where a switch has yet to say {title}", one, states)
        number = 0
        for _, message in MESSAGES:
            for pieces in ([lying(message, -1)], [lying(message, 1), b"\0"]):
                number += 1
                c.do(f"open {number}")
                c.heard(number, *setup, *pieces)
                c.do(f"end {number}")
    return c


if __name__ == "__main__":
    made = cases()
    text = {"stdin": made.input, "stdout": made.output}[sys.argv[1]]
    sys.stdout.write("\n".join(text) + "\n")
