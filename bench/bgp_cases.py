#!/usr/bin/env python3
"""Writes the cases of crates/test_bgp: python3 bench/bgp_cases.py stdin, or stdout.

What a peer hears and says is worked out here, from RFC 4271, with none of the program's code.
"""
import random
import re
import struct
import sys

OPEN, UPDATE, NOTIFICATION, KEEPALIVE = 1, 2, 3, 4
LEAST = {OPEN: 29, UPDATE: 23, NOTIFICATION: 21, KEEPALIVE: 19}
MARKER = b"\xff" * 16
OURS, THEIRS, ID = 65001, 65002, 0x01010101

# ---- messages


def message(kind, body=b"", length=None, marker=MARKER):
    return marker + struct.pack(">HB", 19 + len(body) if length is None else length, kind) + body


def opening(version=4, asn=THEIRS, hold=90, ident=0x02020202, parameters=b"", length=None):
    return struct.pack(">BHHIB", version, asn, hold, ident, len(parameters) if length is None else length) + parameters


def attribute(kind, value, flags=0x40, length=None):
    length = len(value) if length is None else length
    return struct.pack(">BBH" if flags & 0x10 else ">BBB", flags, kind, length) + value


def path(*segments):
    return b"".join(struct.pack(">BB%dH" % len(numbers), kind, len(numbers), *numbers) for kind, numbers in segments)


def prefix(text):
    address, length = text.split("/")
    whole = bytes(int(part) for part in address.split("."))
    return bytes([int(length)]) + whole[:(int(length) + 7) // 8]


def prefixes(*texts):
    return b"".join(prefix(text) for text in texts)


def update(withdrawn=b"", attributes=b"", announced=b"", w=None, a=None):
    w = len(withdrawn) if w is None else w
    a = len(attributes) if a is None else a
    return struct.pack(">H", w) + withdrawn + struct.pack(">H", a) + attributes + announced


ORIGIN = attribute(1, b"\0")
PATH = attribute(2, path((2, [THEIRS])))
HOP = attribute(3, bytes([10, 0, 100, 1]))
ROUTE = ORIGIN + PATH + HOP

# ---- what is heard


def front(data):
    """The type and the length of the message at the front, a fault, or None."""
    if len(data) < 19:
        return None
    length, kind = struct.unpack(">HB", data[16:19])
    if data[:16] != MARKER:
        return "1/1"
    if not 19 <= length <= 4096:
        return "1/2"
    if kind not in LEAST:
        return "1/3"
    if length < LEAST[kind] or kind == KEEPALIVE and length != 19:
        return "1/2"
    return None if len(data) < length else (kind, length)


def shown_front(data):
    found = front(data)
    if found is None:
        return "not yet"
    return found if isinstance(found, str) else "type %d, %d bytes" % found


def shown_ip(number):
    return ".".join(str(byte) for byte in number.to_bytes(4, "big"))


def read_open(peer, body):
    version, asn, hold, ident, length = struct.unpack(">BHHIB", body[:10])
    rest = body[10:]
    if version != 4:
        return "2/1"
    if asn != peer:
        return "2/2"
    if ident == 0:
        return "2/3"
    if length != len(rest):
        return "2/0"
    kinds = []
    while rest:
        if len(rest) < 2 or len(rest) < 2 + rest[1]:
            return "2/0"
        kinds.append(rest[0])
        rest = rest[2 + rest[1]:]
    if any(kind != 2 for kind in kinds):
        return "2/4"
    if hold in (1, 2):
        return "2/6"
    return {"hold": hold, "text": "AS %d, hold %d, id %d" % (asn, hold, ident)}


def read_prefixes(data):
    found = []
    while data:
        size = (data[0] + 7) // 8
        if data[0] > 32 or len(data) < 1 + size:
            return None
        found.append((int.from_bytes((data[1:1 + size] + bytes(4))[:4], "big"), data[0]))
        data = data[1 + size:]
    return found


def read_path(value):
    numbers = []
    while value:
        if len(value) < 2 or value[0] not in (1, 2) or value[1] == 0 or len(value) < 2 + 2 * value[1]:
            return None
        numbers += struct.unpack(">%dH" % value[1], value[2:2 + 2 * value[1]])
        value = value[2 + 2 * value[1]:]
    return numbers


def read_attributes(data):
    found = []
    while data:
        size = 2 if data[0] & 0x10 else 1
        if len(data) < 2 + size:
            return None
        length = int.from_bytes(data[2:2 + size], "big")
        if len(data) < 2 + size + length:
            return None
        found.append((data[0], data[1], data[2 + size:2 + size + length]))
        data = data[2 + size + length:]
    return found


def attribute_fault(flags, kind, value, seen):
    if kind in seen:
        return "3/1"
    if kind not in range(1, 8) and not flags & 0x80:
        return "3/2"
    if kind in (1, 2, 3) and (flags & 0x80 or not flags & 0x40):
        return "3/4"
    if kind == 1 and len(value) != 1 or kind in (3, 4, 5) and len(value) != 4:
        return "3/5"
    if kind == 1 and value[0] > 2:
        return "3/6"
    if kind == 2 and read_path(value) is None:
        return "3/11"
    return None


def read_update(body):
    length = int.from_bytes(body[:2], "big")
    if len(body) < 4 + length:
        return "3/1"
    withdrawn, rest = body[2:2 + length], body[2 + length:]
    length = int.from_bytes(rest[:2], "big")
    if len(rest) < 2 + length:
        return "3/1"
    attributes, announced = read_attributes(rest[2:2 + length]), read_prefixes(rest[2 + length:])
    withdrawn = read_prefixes(withdrawn)
    if attributes is None:
        return "3/1"
    if withdrawn is None or announced is None:
        return "3/10"
    values = {}
    for flags, kind, value in attributes:
        fault = attribute_fault(flags, kind, value, values)
        if fault:
            return fault
        values[kind] = value
    if announced and not {1, 2, 3} <= set(values):
        return "3/3"
    said = {"withdrawn": withdrawn, "path": read_path(values.get(2, b"")), "hop": int.from_bytes(values.get(3, b""), "big"), "announced": announced}
    nets = {key: "".join(" %s/%d" % (shown_ip(ip), length) for ip, length in said[key]) for key in ("withdrawn", "announced")}
    numbers = "".join(" %d" % number for number in said["path"])
    said["text"] = "withdrawn%s, path%s, by %s, announced%s" % (nets["withdrawn"], numbers, shown_ip(said["hop"]), nets["announced"])
    return said


def read(peer, kind, body):
    """What a body says, or its fault."""
    if kind == OPEN:
        return read_open(peer, body)
    if kind == UPDATE:
        return read_update(body)
    if kind == NOTIFICATION:
        return {"text": "told %d/%d" % (body[0], body[1]), "codes": "%d/%d" % (body[0], body[1])}
    return {"text": "keepalive"}


def shown_heard(peer, kind, body):
    found = read(peer, kind, body)
    return found if isinstance(found, str) else found["text"]

# ---- a speaker


def codes(fault):
    return bytes(int(part) for part in fault.split("/"))


class Speaker:
    """Who waits for the peer: one session at a time, with its connection."""

    def __init__(self):
        self.conn, self.state, self.hold, self.heard, self.said, self.now = None, "Idle", 0, 0, 0, 0
        self.unread, self.routes, self.out = b"", {}, ""

    def say(self, conn, data):
        self.out += "%d: %s; " % (conn, data.hex())

    def speak(self, data):
        self.say(self.conn, data)
        self.said = self.now

    def ends(self, conn, why):
        self.out += "%d %s; " % (conn, why)

    def close(self, why):
        self.ends(self.conn, why)
        self.conn, self.state, self.hold, self.routes = None, "Idle", 0, {}

    def refuse(self, fault):
        self.speak(message(NOTIFICATION, codes(fault)))
        self.close("sent " + fault)

    def opens(self, conn):
        if self.conn is None:
            self.conn, self.state, self.unread = conn, "OpenSent", b""
            self.speak(message(OPEN, opening(asn=OURS, ident=ID)))
        elif self.conn != conn:
            self.say(conn, message(NOTIFICATION, codes("6/0")))
            self.ends(conn, "sent 6/0")

    def hears_update(self, said):
        routes = dict(self.routes)

        def network(net):
            return net[0] >> (32 - net[1]) << (32 - net[1]), net[1]
        for net in said["withdrawn"]:
            routes.pop(network(net), None)
        for net in said["announced"]:
            routes.pop(network(net), None)
            if OURS not in said["path"]:
                routes[network(net)] = said["hop"]
        if len(routes) > 1024:
            return self.refuse("6/0")
        self.routes = routes

    def hears(self, kind, body):
        awaited = {"OpenSent": [OPEN], "OpenConfirm": [KEEPALIVE], "Established": [UPDATE, KEEPALIVE]}[self.state]
        if kind not in awaited and kind != NOTIFICATION:
            return self.refuse("5/0")
        said = read(THEIRS, kind, body)
        if isinstance(said, str):
            return self.refuse(said)
        self.heard = self.now
        if kind == NOTIFICATION:
            self.close("heard " + said["codes"])
        elif kind == OPEN:
            self.state, self.hold = "OpenConfirm", min(90, said["hold"])
            self.speak(message(KEEPALIVE))
        elif kind == KEEPALIVE:
            self.state = "Established"
        else:
            self.hears_update(said)

    def comes(self, data):
        self.unread += data
        while self.conn is not None:
            found = front(self.unread)
            if found is None:
                return
            if isinstance(found, str):
                return self.refuse(found)
            whole, self.unread = self.unread[:found[1]], self.unread[found[1]:]
            self.hears(found[0], whole[19:])

    def moment(self, now):
        self.now = max(self.now, now)
        if not self.hold:
            return
        if self.now - self.heard >= self.hold * 1000:
            self.refuse("4/0")
        elif 3 * (self.now - self.said) >= self.hold * 1000:
            self.speak(message(KEEPALIVE))

    def shows(self):
        self.out += "%d routes" % len(self.routes)
        for (ip, length), hop in sorted(self.routes.items())[:4]:
            self.out += ", %s/%d by %s" % (shown_ip(ip), length, shown_ip(hop))
        self.out += "; "

    def takes(self, word):
        what, _, rest = word.partition(":")
        if what == "routes":
            self.shows()
        elif what == "open":
            self.opens(int(rest))
        elif what in ("end", "fault", "overfull"):
            if self.conn == int(rest):
                self.close({"end": "end", "fault": "link fault", "overfull": "overfull"}[what])
        elif what == "at":
            self.moment(int(rest))
        elif what != "reload" and self.conn == int(what):
            self.comes(bytes.fromhex(rest))


def story(words):
    speaker = Speaker()
    for word in words:
        speaker.takes(word)
    speaker.shows()
    return speaker.out


def record(moment, kind, conn, body):
    return moment.to_bytes(8, "big") + bytes([kind]) + conn.to_bytes(4, "big") + len(body).to_bytes(4, "big") + body


class Driven(Speaker):
    """The same with records, lines, and the texts of a document: `text_of` gives that with routes, or None."""

    def __init__(self, text_of):
        super().__init__()
        self.text_of, self.records = text_of, b""
        self.last = text_of({})

    def say(self, conn, data):
        super().say(conn, data)
        self.records += record(self.now, 130, conn, data)

    def ends(self, conn, why):
        word, _, rest = why.partition(" ")
        if word in ("sent", "heard"):
            self.out += "close %d End; conn %d: Bgp%s %s; " % (conn, conn, word.title(), rest.replace("/", " "))
            self.records += record(self.now, 131, conn, bytes([{"sent": 12, "heard": 13}[word]]) + codes(rest))
        else:
            self.out += "conn %d: %s; " % (conn, {"end": "End", "link": "LinkFault", "overfull": "Overfull"}[word])

    def takes(self, word):
        super().takes(word)
        text = self.text_of(self.routes)
        if text is not None and text != self.last:
            self.last = text
            self.records += record(self.now, 4, 0, text.encode())
        self.out += "at %d: %s; " % (self.now, self.records.hex())
        self.records = b""

    def turn(self, word):
        """What is said and closed, with the lines, in order; the records."""
        self.out = ""
        self.takes(word)
        *said, told = self.out.split("; ")[:-1]
        return said, bytes.fromhex(told.split(": ")[1])


def driven(words, text_of):
    speaker = Driven(text_of)
    for word in words:
        speaker.takes(word)
    return speaker.out


def addressed(words):
    """The words with connections: `connects` opens a new one, bytes and `ends` are of the session's one, or of the last."""
    speaker, last, found = Speaker(), 0, []
    for word in words:
        if word == "connects":
            last += 1
            word = "open:%d" % last
        elif word == "ends":
            word = "end:%d" % (speaker.conn or last)
        elif isinstance(word, bytes):
            word = "%d:%s" % (speaker.conn or last, word.hex())
        found.append(word)
        speaker.takes(word)
    return found

# ---- the cases


def fronts():
    for size in (0, 1, 18):
        yield "fewer than 19 bytes", (message(KEEPALIVE) + b"\0")[:size]
    yield "fewer than 19 bytes, a wrong marker", b"\0" * 18
    for at in range(16):
        yield "a wrong byte in the marker", message(KEEPALIVE, marker=MARKER[:at] + b"\xfe" + MARKER[at + 1:])
    for kind in range(6):
        for length in (0, 18, 19, 20, 21, 22, 23, 28, 29, 4096, 4097, 65535):
            yield "a header alone", message(kind, length=length)
    yield "a wrong marker comes before a wrong length", message(KEEPALIVE, length=0, marker=bytes(16))
    yield "a wrong length comes before a wrong type", message(7, length=18)
    yield "a message that is cut", message(OPEN, opening())[:-1]
    yield "a message and what follows", message(OPEN, opening()) + b"\0\1\2"
    yield "a message of 4096 bytes", message(NOTIFICATION, bytes(4077))


def openings():
    one, two = bytes([2, 2, 1, 4]), bytes([2, 6, 1, 4, 0, 1, 0, 1])
    for hold in (0, 1, 2, 3, 90, 65535):
        yield "hold time %d" % hold, opening(hold=hold)
    for version in (0, 3, 5, 255):
        yield "version %d" % version, opening(version=version)
    for asn in (0, 65001, 65003, 23456):
        yield "AS %d" % asn, opening(asn=asn)
    yield "identifier 0", opening(ident=0)
    yield "capabilities", opening(parameters=one)
    yield "capabilities twice", opening(parameters=one + two)
    yield "empty capabilities", opening(parameters=bytes([2, 0]))
    for kind in (0, 1, 3, 255):
        yield "a parameter of type %d" % kind, opening(parameters=bytes([kind, 1, 0]))
    yield "a parameter of another type behind capabilities", opening(parameters=one + bytes([1, 0]))
    yield "parameters shorter than their length", opening(parameters=one, length=3)
    yield "parameters longer than their length", opening(parameters=one, length=5)
    yield "a length and no parameter", opening(length=1)
    yield "a parameter that is cut", opening(parameters=bytes([2, 3, 1, 4]))
    yield "a parameter of one byte", opening(parameters=one + bytes([2]))
    yield "another type before a parameter that is cut", opening(parameters=bytes([1, 0, 2, 9]))
    yield "version, AS, identifier, parameters, hold time", opening(3, 1, 1, 0, bytes([1, 9]))
    yield "AS, identifier, parameters, hold time", opening(4, 1, 1, 0, bytes([1, 9]))
    yield "identifier, parameters, hold time", opening(4, THEIRS, 1, 0, bytes([1, 9]))
    yield "lengths, another type, hold time", opening(4, THEIRS, 1, 5, bytes([1, 9]))
    yield "another type, hold time", opening(4, THEIRS, 1, 5, bytes([1, 0]))


def lengths():
    yield "nothing", update()
    yield "withdrawn routes alone", update(prefixes("10.0.0.0/8", "10.1.2.3/32"))
    yield "withdrawn routes beyond the end", update(w=1)
    yield "attributes beyond the end", update(a=1)
    yield "attributes end with the message", update(attributes=ROUTE)
    yield "withdrawn routes take the length of the attributes", update(b"\x08\x0a", w=4)
    yield "an attribute that is cut", update(attributes=ROUTE[:-1])
    yield "an attribute without a length", update(attributes=ROUTE + b"\x40\x06")
    yield "an attribute of one byte", update(attributes=b"\x40")
    yield "an attribute longer than the rest", update(attributes=attribute(6, b"", length=1))
    yield "an extended length", update(attributes=attribute(1, b"\0", 0x50) + PATH + HOP, announced=prefixes("10.0.0.0/8"))
    yield "an extended length that is cut", update(attributes=b"\x50\x01\x00")
    yield "an extended length of 256", update(attributes=attribute(99, bytes(256), 0xd0))
    yield "attributes that disagree come before a prefix of 33 bits", update(b"\x21\0\0\0\0\0", b"\x40")


def networks():
    for length in (0, 1, 7, 8, 9, 15, 16, 17, 23, 24, 25, 31, 32):
        yield "a prefix of %d bits" % length, update(attributes=ROUTE, announced=prefixes("203.0.113.129/%d" % length))
    for data in (b"\x21\1\2\3\4\5", b"\xff\1\2\3\4\5", b"\x08", b"\x09\x0a", b"\x20\1\2\3", b"\x10\x0a\x01\x08"):
        yield "a prefix above 32 bits or cut", update(attributes=ROUTE, announced=data)
        yield "the same, withdrawn", update(data)
    yield "a prefix above 32 bits comes before an attribute that comes twice", update(attributes=ROUTE + HOP, announced=b"\x21\1\2\3\4\5")
    yield "a withdrawn one, and missing attributes", update(b"\x21\1\2\3\4\5", announced=prefixes("10.0.0.0/8"))


def attributes():
    net = prefixes("172.16.0.0/16")
    for one in (ORIGIN, PATH, HOP, attribute(6, b""), attribute(99, b"", 0xc0)):
        yield "an attribute that comes twice", update(attributes=ROUTE + one + one, announced=net)
    for kind in range(11):
        for flags in (0x00, 0x40, 0x80, 0xc0, 0xe0, 0x4f):
            rest = b"".join(one for at, one in ((1, ORIGIN), (2, PATH), (3, HOP)) if at != kind)
            value = {1: b"\0", 2: path((2, [THEIRS])), 3: bytes([10, 0, 0, 1]), 6: b""}.get(kind, bytes(4))
            yield "type %d with the flags %02x" % (kind, flags), update(attributes=attribute(kind, value, flags) + rest, announced=net)
    for kind in (1, 3, 4, 5):
        for size in (0, 1, 2, 3, 4, 5):
            yield "type %d with %d bytes" % (kind, size), update(attributes=attribute(kind, bytes(size), 0x40))
    for origin in range(5):
        yield "origin %d" % origin, update(attributes=attribute(1, bytes([origin])) + PATH + HOP, announced=net)
    for value in (b"", b"\2", b"\2\0", b"\0\1\0\1", b"\3\1\0\1", b"\2\1\0", b"\2\2\0\1", b"\2\1\0\1\1", b"\2\1\0\1\1\1\0\2", b"\1\2\0\1\0\2\2\1\0\3", b"\2\1\0\1\0"):
        yield "an AS path", update(attributes=ORIGIN + attribute(2, value) + HOP, announced=net)
    for rest in (ORIGIN + PATH, ORIGIN + HOP, PATH + HOP, b"", ORIGIN):
        yield "a mandatory one is missing", update(attributes=rest, announced=net)
        yield "the same without a prefix", update(attributes=rest)
    yield "the first attribute decides", update(attributes=attribute(1, b"\3") + attribute(2, b"\0"), announced=net)
    yield "flags come before the length", update(attributes=attribute(1, b"", 0x80))
    yield "an unknown one comes before a missing one", update(attributes=attribute(9, b"", 0x40), announced=net)
    yield "twice comes before unknown", update(attributes=attribute(9, b"", 0x80) + attribute(9, b"", 0x40))


ALIVE = message(KEEPALIVE)
UP = ["connects", message(OPEN, opening()), ALIVE]
OFFICE = message(UPDATE, update(attributes=ROUTE, announced=prefixes("172.16.0.0/16")))


def announces(count, first=0):
    nets = b"".join(bytes([16]) + struct.pack(">H", first + at) for at in range(count))
    return message(UPDATE, update(attributes=ROUTE, announced=nets))


def withdraws(*texts):
    return message(UPDATE, update(prefixes(*texts)))


def sessions():
    yield "a session, a route, the same again, and the end", [*UP, "routes", OFFICE, "routes", OFFICE, "routes", "ends"]
    yield "the AS is another one", ["connects", message(OPEN, opening(asn=65003))]
    yield "a NOTIFICATION in each state", ["connects", message(NOTIFICATION, b"\6\2data"), "connects", UP[1], message(NOTIFICATION, b"\0\0"), *UP, OFFICE, message(NOTIFICATION, b"\xff\xff")]
    for kind, body in ((OPEN, opening()), (UPDATE, update()), (KEEPALIVE, b"")):
        for state in range(4):
            yield "type %d in the state %d" % (kind, state), [*UP[:state], message(kind, body)]
    for kind, body in ((OPEN, opening(3)), (UPDATE, update(w=9))):
        for state in (1, 2, 3):
            yield "a faulty type %d in the state %d" % (kind, state), [*UP[:state], message(kind, body)]
    for header in (message(KEEPALIVE, marker=bytes(16)), message(KEEPALIVE, length=20), message(5), message(OPEN, b"", 28)):
        for state in (1, 2, 3):
            yield "a faulty header in the state %d" % state, [*UP[:state], header, "connects"]
    whole = b"".join(UP[1:]) + OFFICE
    yield "all in one piece", ["connects", whole]
    yield "byte by byte", ["connects", *[bytes([byte]) for byte in whole]]
    yield "what came before a fault counts, what comes behind it doesn't", ["connects", whole + message(5) + OFFICE, "connects", "routes", UP[1]]
    yield "another connection changes nothing", [*UP, OFFICE, "connects", "routes", OFFICE[:9], "connects", OFFICE[9:]]
    yield "no connection", [OFFICE, "at:100000", ALIVE]
    yield "routes by address and length, host bits cleared", [*UP, message(UPDATE, update(attributes=ROUTE, announced=prefixes("172.16.5.9/24", "172.16.5.9/16", "10.9.9.9/8", "172.16.4.1/24")))]
    yield "the same network twice in one UPDATE", [*UP, message(UPDATE, update(prefixes("10.1.0.0/16"), ROUTE, prefixes("10.1.0.0/16", "10.1.7.0/16")))]
    other = ORIGIN + PATH + attribute(3, bytes([10, 0, 100, 2]))
    yield "another next hop", [*UP, OFFICE, message(UPDATE, update(attributes=other, announced=prefixes("172.16.0.0/16")))]
    yield "withdrawn", [*UP, OFFICE, withdraws("172.16.9.9/16"), "routes", withdraws("172.16.0.0/16")]
    yield "withdrawn with another length", [*UP, OFFICE, withdraws("172.16.0.0/15", "172.16.0.0/17", "172.17.0.0/16")]
    looped = ORIGIN + attribute(2, path((2, [THEIRS]), (1, [7, OURS]))) + HOP
    yield "our AS in the path", [*UP, OFFICE, message(UPDATE, update(attributes=looped, announced=prefixes("172.16.0.0/16", "10.0.0.0/8")))]
    yield "our AS in the path of an UPDATE that withdraws", [*UP, OFFICE, message(UPDATE, update(prefixes("172.16.0.0/16"), looped))]
    yield "a faulty UPDATE changes nothing but that the session ends", [*UP, OFFICE, message(UPDATE, update(attributes=ROUTE, announced=b"\x21\0\0\0\0\0"))]
    yield "1,024 routes", [*UP, announces(1024), "routes", announces(1024), "routes", withdraws("0.0.0.0/16")]
    yield "one more", [*UP, announces(1024), "routes", announces(1, 1024), "routes"]
    yield "one more for one that goes", [*UP, announces(1024), message(UPDATE, update(prefixes("0.7.0.0/16"), ROUTE, prefixes("5.0.0.0/16"))), "routes"]


def each_fault():
    """One for each fault that is answered: what its NOTIFICATION tells, the state in which it comes, and the bytes."""
    def updated(*parts, **lengths):
        return message(UPDATE, update(*parts, **lengths))
    net = prefixes("10.0.0.0/8")
    yield "1/1", 3, message(KEEPALIVE, marker=MARKER[:-1] + b"\0")
    yield "1/2", 3, message(KEEPALIVE, length=18)
    yield "1/3", 3, message(9)
    yield "5/0", 3, message(OPEN, opening())
    for fault, body in (("2/1", opening(5)), ("2/2", opening(asn=65003)), ("2/3", opening(ident=0)), ("2/0", opening(length=9)), ("2/4", opening(parameters=b"\1\0")), ("2/6", opening(hold=2))):
        yield fault, 1, message(OPEN, body)
    yield "3/1", 3, updated(w=99)
    yield "3/10", 3, updated(attributes=ROUTE, announced=b"\x21\0\0\0\0\0")
    yield "3/1", 3, updated(attributes=ROUTE + HOP, announced=net)
    yield "3/2", 3, updated(attributes=ROUTE + attribute(8, b""), announced=net)
    yield "3/4", 3, updated(attributes=attribute(1, b"\0", 0xc0) + PATH + HOP, announced=net)
    yield "3/5", 3, updated(attributes=ORIGIN + PATH + attribute(3, b"\0"), announced=net)
    yield "3/6", 3, updated(attributes=attribute(1, b"\3") + PATH + HOP, announced=net)
    yield "3/11", 3, updated(attributes=ORIGIN + attribute(2, b"\2\0") + HOP, announced=net)
    yield "3/3", 3, updated(attributes=ORIGIN + PATH, announced=net)
    yield "6/0", 3, announces(1025)


def faults():
    for fault, state, data in each_fault():
        words = addressed([*UP[:state], *([OFFICE] if state == 3 else []), "routes", data + ALIVE, "routes", *UP, OFFICE])
        assert "sent " + fault in story(words), fault
        yield fault + ", and a session behind it", words
    yield "4/0, and a session behind it", [*UP, OFFICE, "routes", "at:90000", "routes", *UP, OFFICE]


def connections():
    for state in (1, 2, 3):
        yield "a further connection, and what comes on it, in the state %d" % state, [*UP[:state], "open:7", "7:" + UP[1].hex(), "7:" + message(5).hex(), "end:7", "routes", *UP[state:], OFFICE]
    yield "further connections while the timers run", [*UP, "at:29999", "open:7", "at:30000", "open:8", "at:59999", "at:60000", "at:89999", "open:9", "at:90000"]
    yield "the same connection opens again", [*UP, OFFICE, "open:1", "routes"]
    yield "connection 0, and the greatest one", ["open:0", "0:" + UP[1].hex(), "open:4294967295", "end:0", "open:4294967295", "4294967295:" + UP[1].hex()]
    yield "a number that comes again", ["open:3", "3:" + UP[1].hex(), "open:4", "end:3", "open:4", "4:" + UP[1].hex(), "end:4", "open:3", "3:" + UP[1].hex()]
    for end in ("end", "fault", "overfull"):
        yield "an end: %s" % end, [*UP, OFFICE, "routes", end + ":1", "routes", end + ":1", "1:" + ALIVE.hex(), "at:500000", *UP, "routes"]
        yield "an end of another connection: %s" % end, [*UP, OFFICE, end + ":2", "routes"]
    yield "bytes that were left by a connection aren't heard on the next", ["connects", UP[1][:20], "ends", "connects", UP[1][20:], UP[1]]
    yield "bytes behind the end of a session", [*UP, message(NOTIFICATION, b"\6\4") + b"".join(UP[1:]), "connects", UP[1]]
    yield "an empty piece", ["connects", b"", UP[1], b"", ALIVE, b"", "routes"]
    yield "a reload", [*UP, OFFICE, "reload:", "routes"]
    yield "nothing is heard: the connection stays, and keeps others out", ["connects", "at:86400000", "open:2", "at:172800000"]
    yield "what is said on a connection counts from its opening", ["at:1000", *UP, "at:31000", "ends", "at:40000", *UP, "at:69999", "at:70000"]


def timers():
    for hold in (0, 3, 4, 10, 30, 90, 91, 65535):
        up = ["connects", message(OPEN, opening(hold=hold)), ALIVE]
        agreed = min(90, hold) * 1000
        third = -(-agreed // 3)
        at = [third - 1, third, third + 1, 2 * third - 1, 2 * third, agreed - 1, agreed, agreed + 1]
        yield "a hold time of %d" % hold, [*up, *["at:%d" % max(0, now) for now in at]]
        yield "a hold time of %d, and a message" % hold, [*up, "at:%d" % max(0, agreed - 1), ALIVE, "at:%d" % agreed, "at:%d" % max(0, 2 * agreed - 2), "at:%d" % max(0, 2 * agreed - 1)]
        yield "a hold time of %d before a KEEPALIVE is heard" % hold, [*up[:2], "at:%d" % third, "at:%d" % agreed]
        yield "a hold time of %d, late" % hold, [*up, "at:%d" % (10 * agreed)]
    yield "no OPEN is heard", ["connects", "at:1000000", "at:2000000"]
    yield "moments count from the last OPEN", ["at:500000", *UP, "at:529999", "at:530000", "at:589999", "at:590000"]
    yield "an UPDATE is heard too, a cut message isn't", [*UP, "at:60000", OFFICE, "at:149999", OFFICE[:-1], "at:150000"]
    yield "moments that fall", ["at:100000", *UP, "at:50000", "at:129999", "at:130000"]
    yield "a second session has its own hold time", ["connects", message(OPEN, opening(hold=3)), ALIVE, "at:3000", *UP, "at:3001", "at:33000", "at:93000"]


def chance():
    draw = random.Random(4271)
    nets = ["10.%d.0.0/16" % at for at in range(6)] + ["10.0.0.0/8", "0.0.0.0/0", "192.0.2.77/26"]
    for at in range(120):
        words, now = ["connects"], 0
        hold = draw.choice([0, 3, 9, 30, 90])
        if draw.random() < 0.95:
            words += [message(OPEN, opening(hold=hold))]
        if draw.random() < 0.95:
            words += [ALIVE]
        for _ in range(draw.randrange(3, 14)):
            now += draw.choice([1, 400, 1000, 2999, 10000, 30000])
            body = update(
                prefixes(*draw.sample(nets, draw.randrange(3))),
                ORIGIN + attribute(2, path((draw.choice([1, 2]), [draw.choice([THEIRS, 7, OURS] if draw.random() < 0.3 else [THEIRS])]))) + attribute(3, bytes([10, 0, 100, draw.randrange(1, 4)])),
                prefixes(*draw.sample(nets, draw.randrange(4))))
            if draw.random() < 0.05:
                body = body[:draw.randrange(4, len(body))]
            words += draw.choice([
                ["at:%d" % now], ["at:%d" % now], [ALIVE], ["routes"],
                [message(UPDATE, body)], [message(UPDATE, body)], [message(UPDATE, body) + ALIVE],
                [message(UPDATE, body)[:30], message(UPDATE, body)[30:]]])
            if draw.random() < 0.04:
                words += draw.choice([["ends", *UP], [message(NOTIFICATION, b"\6\4"), *UP], ["connects"]])
            if draw.random() < 0.04:
                words += draw.choice([["open:1", "open:77", "end:77"], ["77:" + ALIVE.hex()], ["fault:1", *UP], ["reload:"]])
        yield "by chance", words


# ---- texts of configurations


def document(vlans, routers=()):
    """A document in its canonical form: VLANs with name, number, addresses and routes; routers with their VLANs."""
    lines = ["vlans:"]
    for name, vid, vips, routes in vlans:
        lines += ["  %s:" % name, "    vid: %d" % vid]
        lines += ["    faucet_vips:", *['      - "%s"' % vip for vip in vips]] if vips else []
        lines += ["    routes:"] if routes else []
        for dst, gw in routes:
            lines += ["      -", "        route:", '          ip_dst: "%s"' % dst, '          ip_gw: "%s"' % gw]
    lines += ["dps:", "  sw1:", "    dp_id: 1", '    hardware: "Open vSwitch"', "    interfaces:"]
    for number, vlan in enumerate(vlans, 1):
        lines += ["      %d:" % number, "        native_vlan: %s" % vlan[0]]
    if routers:
        lines += ["routers:", *[line for name, members in routers for line in ("  %s:" % name, "    vlans:", *["      - %s" % member for member in members])]]
    return "".join(line + "\n" for line in lines)


def texts():
    """Each with the routes that are announced, by address and length, and those of them that are taken."""
    net, hop = "172.16.0.0/16", "10.0.100.1"
    vips = ["10.0.100.254/24"]

    def one(own, announced, taken, vips=vips, name="office", key=None):
        return key or name, announced, document([(name, 100, vips, own)]), document([(name, 100, vips, own + taken)])
    yield "no route", one([], [], [])
    yield "a route", one([], [(net, hop)], [(net, hop)])
    yield "behind the VLAN's own", one([("192.0.2.0/24", hop)], [(net, hop)], [(net, hop)])
    yield "gateways: one in no network of the VLAN, one that is its own address", one([], [("10.0.0.0/8", "10.0.101.1"), (net, "10.0.100.254"), ("192.0.2.0/24", hop)], [("192.0.2.0/24", hop)])
    yield "into the network of the VLAN, and around it", one(
        [], [("0.0.0.0/0", hop), ("10.0.0.0/8", hop), ("10.0.100.0/24", hop), ("10.0.100.0/25", hop), ("10.0.100.7/32", hop), ("10.0.101.0/24", hop)],
        [("0.0.0.0/0", hop), ("10.0.0.0/8", hop), ("10.0.101.0/24", hop)])
    yield "to the network of the VLAN's own route", one([(net, "10.0.100.9")], [("172.16.0.0/15", hop), (net, hop), ("172.16.0.0/17", hop)], [("172.16.0.0/15", hop), ("172.16.0.0/17", hop)])
    yield "a VLAN without addresses", one([], [(net, hop)], [], vips=[])
    yield "a VLAN that isn't there", one([], [(net, hop)], [], key="branch")
    yield "a VLAN by its number", one([], [(net, hop)], [(net, hop)], name="100", key="#100")
    yield "a VLAN by a number that is no key", one([], [(net, hop)], [], key="#100")
    other = ("branch", 200, ["10.0.200.254/24"], [("192.0.2.0/24", "10.0.200.1")])
    announced = [("10.0.200.0/24", hop), (net, hop), ("192.0.2.0/24", hop)]
    for routers, taken in (((), announced), ((("r", ("office", "branch")),), [(net, hop)])):
        yield "the network and the route of another VLAN, %s" % ("which is routed to" if routers else "which isn't routed to"), (
            "office", announced, document([("office", 100, vips, []), other], routers), document([("office", 100, vips, taken), other], routers))


def spoken():
    """Each with the number of a VLAN, what happens, a document, and its text with the routes that there are."""
    vips = ["10.0.100.254/24"]
    begins = ["connects", message(OPEN, opening()), message(KEEPALIVE)]

    def said(net, hop):
        return message(UPDATE, update(b"", ORIGIN + PATH + attribute(3, bytes(int(part) for part in hop.split("."))), prefixes(net)))

    def text_of(routes, own=(), key="office"):
        """Of a VLAN that takes the routes by a neighbour alone."""
        taken = [("%s/%d" % (shown_ip(ip), length), shown_ip(hop)) for (ip, length), hop in sorted(routes.items()) if shown_ip(hop).startswith("10.0.100.")]
        return document([(key, 100, vips, [*own, *taken])])

    def one(words, vid=100, **told):
        return vid, words, text_of({}, **told), lambda routes: text_of(routes if vid == 100 else {}, **told)
    net, near, far = "172.16.0.0/16", "10.0.100.1", "10.0.101.1"
    yield "a route, the same again, and a close", one([*begins, said(net, near), said(net, near), "ends"])
    yield "behind the VLAN's own, by another neighbour, and withdrawn", one([*begins, said(net, near), said(net, "10.0.100.2"), message(UPDATE, update(prefixes(net))), "ends"], own=[("192.0.2.0/24", near)])
    yield "a route that isn't taken, and one that is", one([*begins, said("192.0.2.0/24", far), said(net, near), message(UPDATE, update(prefixes("192.0.2.0/24")))])
    yield "announced and withdrawn in one piece", one([*begins, said(net, near) + message(UPDATE, update(prefixes(net)))])
    yield "a VLAN by its number", one([*begins, said(net, near)], key="100")
    yield "a VLAN that isn't written", one([*begins, said(net, near), "ends"], vid=200)
    yield "another AS", one(["at:0", "connects", message(OPEN, opening(asn=65003))])
    yield "a NOTIFICATION is heard, at a moment", one(["at:1700000000000", *begins, said(net, near), "at:1700000000001", message(NOTIFICATION, codes("6/2"))])
    yield "each end", one(["connects", "fault:1", "open:2", "overfull:2", "open:3", "end:3"])
    yield "a connection beside the session's", one([*begins, said(net, near), "open:7", "end:7"])
    yield "the hold timer", one([*begins, said(net, near), "at:30000", "at:89999", "at:90000"])


def escaped(text):
    return text.replace("\\", "\\\\").replace("\n", "\\n")


# error codes and subcodes (RFC 4271, 4.5)
CODES = [
    "ConnectionNotSynchronized 1/1", "BadMessageLength 1/2", "BadMessageType 1/3",
    "OpenUnspecific 2/0", "UnsupportedVersionNumber 2/1", "BadPeerAs 2/2", "BadBgpIdentifier 2/3",
    "UnsupportedOptionalParameter 2/4", "UnacceptableHoldTime 2/6",
    "MalformedAttributeList 3/1", "UnrecognizedWellKnownAttribute 3/2", "MissingWellKnownAttribute 3/3", "AttributeFlagsError 3/4",
    "AttributeLengthError 3/5", "InvalidOriginAttribute 3/6", "InvalidNetworkField 3/10", "MalformedAsPath 3/11",
    "HoldTimerExpired 4/0", "FiniteStateMachineError 5/0", "Cease 6/0",
]


def cases():
    """Each case with its answer; a title where a part begins."""
    yield "Error codes and subcodes.", None
    yield "faults", "".join(code + "; " for code in CODES)
    yield "What stands at the front of bytes: a header with its type and length, what is wrong with it, or neither yet.", None
    for why, data in fronts():
        yield "front " + data.hex(), shown_front(data)
    for title, kind, found in (
            ("OPENs of AS 65002: what they say, or what is wrong with them.", OPEN, openings),
            ("UPDATEs: their lengths.", UPDATE, lengths),
            ("UPDATEs: their networks.", UPDATE, networks),
            ("UPDATEs: their attributes.", UPDATE, attributes)):
        yield title, None
        last = None
        for why, body in found():
            if why != last:
                yield why, None
            last = why
            yield "heard %d %d %s" % (THEIRS, kind, body.hex()), shown_heard(THEIRS, kind, body)
    yield "The other types.", None
    for kind, body in ((NOTIFICATION, b"\6\2"), (NOTIFICATION, b"\0\xffdata"), (KEEPALIVE, b"")):
        yield ("heard %d %d %s" % (THEIRS, kind, body.hex())), shown_heard(THEIRS, kind, body)
    for title, found in (("Sessions.", sessions), ("Each fault.", faults), ("Connections.", connections), ("The timers.", timers), ("Stories by chance.", chance)):
        yield title, None
        for why, words in found():
            if why != "by chance":
                yield why, None
            words = addressed(words)
            yield "story %d %s %d %s" % (OURS, shown_ip(ID), THEIRS, " ".join(words)), story(words)

    yield "Texts: a VLAN's key, the routes that are announced, and a document, with that with the routes that it takes.", None
    for why, (key, announced, before, after) in texts():
        yield why, None
        yield "text %s %s %s" % (key, ",".join("%s>%s" % route for route in announced) or "none", escaped(before)), escaped(after)
    yield "A router's speaker: what it says, its lines and its records, and records of the texts with its routes.", None
    for why, (vid, words, before, text_of) in spoken():
        yield why, None
        words = addressed(words)
        yield "spoken %d %d %s %d %s in %s" % (vid, OURS, shown_ip(ID), THEIRS, " ".join(words), escaped(before)), driven(words, text_of)


def repeated(line):
    """The line with a byte that comes 16 times or more in a row as the table of cases has it."""
    return re.sub(r"(ff|00)\1{15,}", lambda run: "«%d:%s»" % (len(run[0]) // 2, run[1]), line)


def main():
    answers = {"stdin": False, "stdout": True}[sys.argv[1]]
    for line, answer in cases():
        if answer is None:
            print("# " + line)
        else:
            print(repeated(line) + (" => " + answer if answers else ""))


if __name__ == "__main__":
    main()
