"""What a controller says of datapaths whose interfaces are native in one VLAN, and the messages of their switches, for the scripts
of this folder: from the layouts of OpenFlow 1.3 and docs/reference, with none of the program's code.
"""
import struct

from wire_cases import is_message

COOKIE = 0x5ADC15C0
BROADCAST, GROUP = bytes([255] * 6), bytes([1, 0, 0, 0, 0, 0])
CONTROLLER, NO_PORT = 0xFFFFFFFD, 0xFFFFFFFF
ADD, DELETE, DELETE_STRICT = 0, 3, 4

# ---- what switches say


def message(kind, body=b"", xid=7, version=4):
    return struct.pack(">BBHI", version, kind, 8 + len(body), xid) + body


HELLO = message(0, b"", 1)


def features(dp, tables=254, auxiliary=0, xid=2):
    return message(6, struct.pack(">QIBBHII", dp, 256, tables, auxiliary, 0, 0x4F, 0), xid)


def port(number, state=0, config=0):
    return struct.pack(">I4x6s2x16sII24x", number, bytes([2, 0, 0, 0, 0, 1]), b"p%d" % number, config, state)


def descriptions(numbers, xid=3, more=False):
    return message(19, struct.pack(">HH4x", 13, int(more)) + b"".join(port(number) for number in numbers), xid)


def port_status(number, state=0, reason=2):
    return message(12, struct.pack(">B7x", reason) + port(number, state), 9)


def barrier_reply(xid):
    return message(21, b"", xid)


def frame_of(source, vid, length=60):
    """A frame with a tag, to all, of a type that nothing looks into."""
    return (BROADCAST + source + struct.pack(">HHH", 0x8100, vid, 0x88B5)).ljust(length, b"x")


def packet_in(in_port, data, table=3):
    return message(10, struct.pack(">IHBBQ", NO_PORT, len(data), 1, table, COOKIE) + match(in_port=in_port) + bytes(2) + data, 9)


# ---- flow entries

FIELDS = {"in_port": (0, 4), "eth_dst": (3, 6), "eth_src": (4, 6), "eth_type": (5, 2), "vlan_vid": (6, 2)}


def spelled(number, size, value, mask=None):
    def as_bytes(it):
        return it if isinstance(it, bytes) else it.to_bytes(size, "big")
    body = as_bytes(value) + (b"" if mask is None else as_bytes(mask))
    return struct.pack(">HBB", 0x8000, number << 1 | (mask is not None), len(body)) + body


def match(**fields):
    """A match of these fields; of a pair the second is the mask."""
    body = b"".join(spelled(*FIELDS[name], *(it if isinstance(it, tuple) else (it,))) for name, it in fields.items())
    length = 4 + len(body)
    return struct.pack(">HH", 1, length) + body + bytes(-length % 8)


def goto(table):
    return struct.pack(">HHB3x", 1, 8, table)


def apply(*actions):
    return struct.pack(">HH4x", 4, 8 + len(b"".join(actions))) + b"".join(actions)


def output(number, most=0):
    return struct.pack(">HHIH6x", 0, 16, number, most)


POP = struct.pack(">HH4x", 18, 8)
TO_CONTROLLER = output(CONTROLLER, 0xFFFF)


def admitted(vid):
    """Gets the VLAN's tag."""
    tag = spelled(6, 2, 0x1000 | vid)
    return apply(struct.pack(">HHH2x", 17, 8, 0x8100), struct.pack(">HH", 25, 16) + tag + bytes(12 - len(tag)))


def flow_mod(xid, command, table, priority, matched, instructions=b""):
    cookie = COOKIE if command == ADD else 0
    head = struct.pack(">QQBBHHHIIIH2x", cookie, 0, table, command, 0, 0, priority, NO_PORT, NO_PORT, NO_PORT, 0)
    return message(14, head + matched + instructions, xid)


def wipe(xid):
    return flow_mod(xid, DELETE, 255, 0, match())


def host_entries(number, source, vid, stale=False):
    known = {"eth_src": source, "vlan_vid": 0x1000 | vid}
    dst = {"eth_dst": source, "vlan_vid": 0x1000 | vid}
    return {
        (3, 30, match(in_port=number, **known)): (apply(TO_CONTROLLER) if stale else b"") + goto(4),
        (7, 20, match(in_port=number, **dst)): b"",
        (7, 10, match(**dst)): apply(POP, output(number)),
    }


def dp_entries(drops=(), mac=bytes([14, 0, 0, 0, 0, 1])):
    """The entries of a datapath itself; `drops` names what it drops, of `spoofed`, `broadcast`, `lldp` and `bpdu`."""
    found = {(3, 40, match(eth_src=(GROUP, GROUP))): goto(4)}
    for table in range(4, 8):
        found[table, 0, match()] = goto(table + 1)
    if "spoofed" in drops:
        found[1, 30, match(eth_src=mac)] = b""
    if "broadcast" in drops:
        found[1, 31, match(eth_src=BROADCAST)] = b""
    if "lldp" in drops:
        found[1, 32, match(eth_type=0x88CC)] = b""
    if "bpdu" in drops:
        for last in ("0180c2000000", "01000ccccccd"):
            found[1, 33, match(eth_dst=bytes.fromhex(last))] = b""
    return found


def cold(ports, vid, drops=(), hosts=()):
    """The entries of a datapath whose interfaces have these numbers, by table, priority and match. A host is a port, an address, and
    whether it is stale."""
    found = dp_entries(drops)
    for number in ports:
        found[0, 1, match(in_port=number)] = goto(1)
        found[1, 20, match(in_port=number, vlan_vid=0)] = admitted(vid) + goto(3)
        found[3, 10, match(in_port=number, vlan_vid=0x1000 | vid)] = apply(TO_CONTROLLER) + goto(4)
    if ports:
        flood = apply(POP, *(output(number) for number in sorted(ports)))
        found[8, 10, match(vlan_vid=0x1000 | vid)] = flood
        found[8, 30, match(eth_dst=(GROUP, GROUP), vlan_vid=0x1000 | vid)] = flood
    for number, source, stale in hosts:
        found.update(host_entries(number, source, vid, stale))
    return found


# ---- a controller


class Conn:
    def __init__(self, now):
        self.stage, self.dp, self.xid, self.heard, self.echoed, self.buffer = "Greeting", None, 0, now, False, b""
        self.awaited, self.told, self.sent = None, {}, {}


class Controller:
    """`dps` has the numbers of the interfaces of each datapath; `said` what the last turn said, as the words of test_turns."""

    def __init__(self, dps, vid=100, drops=(), timeout=300):
        self.dps, self.vid, self.drops, self.timeout = dps, vid, drops, 1000 * timeout
        self.now, self.conns, self.hosts, self.said = 0, {}, [], []

    # what is said
    def send(self, number, kind, body=b"", xid=None):
        xid = self.next_xid(number) if xid is None else xid
        self.said.append(f"send {number} {message(kind, body, xid).hex()}")
        return xid

    def next_xid(self, number):
        self.conns[number].xid += 1
        return self.conns[number].xid

    def command(self, number, make):
        self.said.append(f"send {number} {make(self.next_xid(number)).hex()}")

    def end(self, number, cause, told=None, by_us=True):
        if by_us:
            self.said.append(f"close {number} {cause}")
        self.said.append(f"line conn {number}: {told or cause}")
        dp = self.conns.pop(number).dp
        self.hosts = [host for host in self.hosts if host[0] != dp]

    # settling
    def conn_of(self, dp):
        return next((n for n in sorted(self.conns) if self.conns[n].dp == dp), None)

    def settle(self):
        for dp in sorted(self.dps):
            number = self.conn_of(dp)
            if number is not None and self.conns[number].stage == "Running" and self.conns[number].awaited is None:
                self.batch(number, self.conns[number])

    def batch(self, number, conn):
        hosts = [(at, source, self.now >= learned + self.timeout) for dp, at, source, learned in self.hosts if dp == conn.dp]
        wanted = cold(self.dps[conn.dp], self.vid, self.drops, hosts)
        changed = [key for key in sorted(conn.sent.keys() | wanted.keys()) if conn.sent.get(key) != wanted.get(key)]
        for key in changed:
            command = ADD if key in wanted else DELETE_STRICT
            self.command(number, lambda xid: flow_mod(xid, command, *key, wanted.get(key, b"")))
        if changed:
            conn.sent, conn.awaited = wanted, self.send(number, 20)

    # messages
    def hear_features(self, number, body):
        dp, tables, auxiliary = struct.unpack(">Q", body[:8])[0], body[12], body[13]
        cause = "UnknownDp" if dp not in self.dps else "TooFewTables" if tables < 9 else "Auxiliary" if auxiliary else None
        if cause:
            return self.end(number, cause)
        other = self.conn_of(dp)
        if other is not None:
            self.end(other, "Replaced")
        conn = self.conns[number]
        conn.dp, conn.stage = dp, "Ports"
        conn.awaited = self.send(number, 18, struct.pack(">HH4x", 13, 0))

    def tell(self, number, body, gone=False):
        conn, (at,), (config, state) = self.conns[number], struct.unpack(">I", body[:4]), struct.unpack(">II", body[32:40])
        if not 1 <= at <= 0xFFFFFF00:
            return
        up = not gone and not config & 1 and not state & 1
        conn.told[at] = up
        if not up and conn.stage in ("Wiping", "Running"):
            self.hosts = [host for host in self.hosts if host[:2] != (conn.dp, at)]

    def hear_ports(self, number, body):
        conn = self.conns[number]
        for at in range(8, len(body), 64):
            self.tell(number, body[at:at + 64])
        if not body[3] & 1:
            conn.stage = "Wiping"
            self.command(number, wipe)
            conn.awaited = self.send(number, 20)

    def hear_packet(self, number, body):
        conn, length = self.conns[number], struct.unpack(">H", body[18:20])[0]
        matched, data = body[16:16 + length], body[16 + (length + 7) // 8 * 8 + 2:]
        at = struct.unpack(">I", matched[8:12])[0] if matched[4:8] == bytes.fromhex("80000004") else 0
        counts = body[7] == 3 and body[8:16] == COOKIE.to_bytes(8, "big") and at in self.dps[conn.dp] and conn.told.get(at)
        if counts and len(data) >= 18 and data[12:14] == b"\x81\0" and data[16:18] != b"\x81\0":
            if struct.unpack(">H", data[14:16])[0] & 0xFFF == self.vid and not data[6] & 1:
                self.learn(conn.dp, at, data[6:12])

    def learn(self, dp, at, source):
        same = [host for host in self.hosts if (host[0], host[2]) == (dp, source)]
        if same and same[0][1] == at:
            self.hosts[self.hosts.index(same[0])] = (dp, at, source, self.now)
        else:
            self.hosts = [host for host in self.hosts if host not in same] + [(dp, at, source, self.now)]

    def hear(self, number, version, kind, xid, body):
        conn = self.conns[number]
        if version != 4 or not is_message(kind, body):
            self.end(number, "BadFrame")
        elif kind == 1:
            self.end(number, "SwitchError", "SwitchError %d %d" % struct.unpack(">HH", body[:4]))
        elif kind == 2:
            self.send(number, 3, body, xid)
        elif kind == 12:
            self.tell(number, body[8:], body[0] == 1)
        elif kind == 0 and conn.stage == "Greeting":
            conn.stage = "Features"
            self.send(number, 5)
        elif kind == 6 and conn.stage == "Features":
            self.hear_features(number, body)
        elif kind == 19 and body[:2] == b"\0\x0d" and conn.stage == "Ports" and xid == conn.awaited:
            self.hear_ports(number, body)
        elif kind == 21 and conn.stage in ("Wiping", "Running") and xid == conn.awaited:
            conn.stage, conn.awaited = "Running", None
        elif kind == 10 and conn.stage == "Running":
            self.hear_packet(number, body)

    # happenings
    def bytes(self, number, piece):
        conn = self.conns[number]
        if piece:
            conn.heard, conn.echoed = self.now, False
        conn.buffer += piece
        while number in self.conns and len(conn.buffer) >= 8:
            length, = struct.unpack(">H", conn.buffer[2:4])
            if length < 8:
                self.end(number, "BadFrame")
            elif len(conn.buffer) < length:
                break
            else:
                version, kind, _, xid = struct.unpack(">BBHI", conn.buffer[:8])
                body, conn.buffer = conn.buffer[8:length], conn.buffer[length:]
                self.hear(number, version, kind, xid, body)
            self.settle()

    def moment(self, now):
        self.now = max(self.now, now)
        for number in sorted(self.conns):
            quiet = self.now - self.conns[number].heard
            if quiet >= 60_000:
                self.end(number, "Silent")
            elif quiet >= 20_000 and not self.conns[number].echoed:
                self.conns[number].echoed = True
                self.send(number, 2)
        self.hosts = [host for host in self.hosts if self.now < host[3] + self.timeout + 30_000]

    def turn(self, words):
        """What is said of a happening in the words of test_turns."""
        self.said, name, number = [], words[0], int(words[1])
        if name == "open" and number not in self.conns:
            self.conns[number] = Conn(self.now)
            self.send(number, 0, bytes.fromhex("0001000800000010"))
        elif name == "bytes" and number in self.conns:
            self.bytes(number, bytes.fromhex(words[2]) if len(words) > 2 else b"")
        elif name in ("end", "fault", "overfull") and number in self.conns:
            self.end(number, {"end": "End", "fault": "LinkFault", "overfull": "Overfull"}[name], by_us=False)
        elif name == "moment":
            self.moment(number)
        self.settle()
        return self.said
