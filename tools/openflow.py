"""Records, and messages of OpenFlow 1.3, for the tools beside it: cut apart, as text, and made.

The form of records stands in docs/reference/recordings.md. Flow entries are written in the words of `ovs-ofctl ofp-parse`.
"""
import ipaddress, struct, sys

OPENED, HEARD, ENDED, RELOAD, MOMENT, SAID, CLOSED = 1, 2, 3, 4, 5, 130, 131
# OpenFlow 1.3, 7.1
HELLO, ERROR, ECHO_REQUEST, ECHO_REPLY, FEATURES_REQUEST, FEATURES_REPLY = 0, 1, 2, 3, 5, 6
PACKET_IN, PORT_STATUS, PACKET_OUT, FLOW_MOD, MULTIPART_REQUEST, MULTIPART_REPLY, BARRIER_REQUEST, BARRIER_REPLY = 10, 12, 13, 14, 18, 19, 20, 21
NAMES = {
    0: "HELLO", 1: "ERROR", 2: "ECHO_REQUEST", 3: "ECHO_REPLY", 5: "FEATURES_REQUEST", 6: "FEATURES_REPLY", 7: "GET_CONFIG_REQUEST",
    8: "GET_CONFIG_REPLY", 9: "SET_CONFIG", 10: "PACKET_IN", 11: "FLOW_REMOVED", 12: "PORT_STATUS", 13: "PACKET_OUT", 14: "FLOW_MOD",
    18: "MULTIPART_REQUEST", 19: "MULTIPART_REPLY", 20: "BARRIER_REQUEST", 21: "BARRIER_REPLY",
}
# docs/reference/sessions.md, "Why a connection ends"
CAUSES = "? WrongVersion BadFrame UnknownDp TooFewTables Auxiliary Replaced SwitchError Silent Overfull LinkFault End".split()
COMMANDS = {0: "ADD", 1: "MOD", 2: "MOD_STRICT", 3: "DEL", 4: "DEL_STRICT"}
ADD, DELETE, DELETE_STRICT = 0, 3, 4
IN_PORT, TABLE, CONTROLLER, LOCAL, ANY = 0xFFFFFFF8, 0xFFFFFFF9, 0xFFFFFFFD, 0xFFFFFFFE, 0xFFFFFFFF
PORTS = {IN_PORT: "IN_PORT", TABLE: "TABLE", CONTROLLER: "CONTROLLER", LOCAL: "LOCAL", ANY: "ANY"}
# The fields of a match (7.2.3.7): number, bytes, whether a mask may leave out bits.
FIELDS = {
    "in_port": (0, 4, False), "eth_dst": (3, 6, True), "eth_src": (4, 6, True), "eth_type": (5, 2, False), "vlan_vid": (6, 2, True),
    "vlan_pcp": (7, 1, False), "ip_proto": (10, 1, False), "ipv4_src": (11, 4, True), "ipv4_dst": (12, 4, True), "tcp_src": (13, 2, False),
    "tcp_dst": (14, 2, False), "udp_src": (15, 2, False), "udp_dst": (16, 2, False), "icmpv4_type": (19, 1, False),
    "icmpv4_code": (20, 1, False), "arp_op": (21, 2, False), "arp_spa": (22, 4, True), "arp_tpa": (23, 4, True),
    "ipv6_src": (26, 16, True), "ipv6_dst": (27, 16, True), "icmpv6_type": (29, 1, False), "icmpv6_code": (30, 1, False), "ipv6_nd_target": (31, 16, False),
}
BY_NUMBER = {number: name for name, (number, _, _) in FIELDS.items()}


# ---- records


def records(source):
    """Each whole record of a file that stands open: moment, kind, connection, bytes."""
    while head := source.read(17):
        data = b""
        if len(head) == 17:
            moment, kind, conn, length = struct.unpack("!QBII", head)
            data = source.read(length)
        if len(head) < 17 or len(data) < length:
            print("the recording ends inside a record, which is left out", file=sys.stderr)
            return
        yield moment, kind, conn, data


def record(moment, kind, conn=0, data=b""):
    return struct.pack("!QBII", moment, kind, conn, len(data)) + data


def cut(data):
    """The whole messages at the front of some bytes, and what is left behind them."""
    found, at = [], 0
    while len(data) - at >= 8:
        length = max(8, struct.unpack("!H", data[at + 2 : at + 4])[0])
        if len(data) - at < length:
            break
        found.append(data[at : at + length])
        at += length
    return found, data[at:]


def kind_of(frame):
    return frame[1]


def xid_of(frame):
    return struct.unpack("!I", frame[4:8])[0]


# ---- making


def message(kind, xid, body=b""):
    return struct.pack("!BBHI", 4, kind, 8 + len(body), xid) + body


def padded(data):
    return data + bytes(-len(data) % 8)


def field_bytes(name, value, mask=None):
    number, size, _ = FIELDS[name]
    data = value.to_bytes(size, "big") + (b"" if mask is None else mask.to_bytes(size, "big"))
    return struct.pack("!HBB", 0x8000, number << 1 | (mask is not None), len(data)) + data


def match_bytes(fields):
    data = b"".join(field_bytes(*it) for it in fields)
    return padded(struct.pack("!HH", 1, 4 + len(data)) + data)


def action_bytes(action):
    kind, *more = action
    if kind == "output":
        return struct.pack("!HHIH6x", 0, 16, more[0], 0xFFFF if more[0] == CONTROLLER else 0)
    if kind == "push":
        return struct.pack("!HHH2x", 17, 8, more[0])
    if kind == "set":
        data = padded(bytes(4) + field_bytes(*more))
        return struct.pack("!HH", 25, len(data)) + data[4:]
    return struct.pack("!HH4x", {"pop": 18, "dec_ttl": 24}[kind], 8)


def instruction_bytes(actions, goto=None):
    data = b"".join(map(action_bytes, actions))
    applied = struct.pack("!HH4x", 4, 8 + len(data)) + data if data else b""
    return applied + (b"" if goto is None else struct.pack("!HHB3x", 1, 8, goto))


def flow_mod(command, table, priority, fields=(), actions=(), goto=None, cookie=0):
    front = struct.pack("!QQBBHHHIIIHH", cookie, 0, table, command, 0, 0, priority, ANY, ANY, ANY, 0, 0)
    return front + match_bytes(fields) + instruction_bytes(actions, goto)


# ---- reading a match and instructions


def match_of(data):
    """The fields of a match, as name, value and mask or None, and the bytes behind it."""
    length, found = struct.unpack("!H", data[2:4])[0], []
    rest = data[4:length]
    while rest:
        _, number, size = struct.unpack("!HBB", rest[:4])
        half = size // 2 if number & 1 else size
        value = int.from_bytes(rest[4 : 4 + half], "big")
        mask = int.from_bytes(rest[4 + half : 4 + size], "big") if number & 1 else None
        found.append((BY_NUMBER.get(number >> 1, f"field_{number >> 1}"), value, mask))
        rest = rest[4 + size :]
    return found, data[(length + 7) // 8 * 8 :]


def actions_of(data):
    found = []
    while data:
        kind, length = struct.unpack("!HH", data[:4])
        if kind == 0:
            found.append(("output", *struct.unpack("!IH", data[4:10])))
        elif kind == 17:
            found.append(("push", struct.unpack("!H", data[4:6])[0]))
        elif kind == 25:
            size = data[7]
            found.append(("set", BY_NUMBER.get(data[6] >> 1, f"field_{data[6] >> 1}"), int.from_bytes(data[8 : 8 + size], "big")))
        else:
            found.append(({18: "pop", 24: "dec_ttl"}.get(kind, f"action_{kind}"),))
        data = data[max(length, 4) :]
    return found


def instructions_of(data):
    """The actions that are applied, and the table to go to or None."""
    actions, goto = [], None
    while data:
        kind, length = struct.unpack("!HH", data[:4])
        if kind == 1:
            goto = data[4]
        elif kind == 4:
            actions = actions_of(data[8:length])
        data = data[max(length, 4) :]
    return actions, goto


class Entry:
    """A FLOW_MOD's entry, and its command."""

    def __init__(self, frame):
        self.cookie, _, self.table, self.command, _, _, self.priority = struct.unpack("!QQBBHHH", frame[8:32])
        self.fields, rest = match_of(frame[48:])
        self.actions, self.goto = instructions_of(rest)
        self.key = self.table, self.priority, frozenset(self.fields)

    def text(self):
        return entry_text(self.table, self.priority, self.fields, self.actions, self.goto)


# ---- as text


def mac_text(value):
    return ":".join(f"{byte:02x}" for byte in value.to_bytes(6, "big"))


def ip_text(value):
    return ".".join(map(str, value.to_bytes(4, "big")))


def ip_masked(value, mask):
    if mask is None:
        return ip_text(value)
    length = mask.bit_count()
    return f"{ip_text(value)}/{length if mask == (0xFFFFFFFF << 32 - length) & 0xFFFFFFFF else ip_text(mask)}"


def ip6_text(value):
    return str(ipaddress.IPv6Address(value))


def ip6_masked(value, mask):
    if mask is None:
        return ip6_text(value)
    length = mask.bit_count()
    return f"{ip6_text(value)}/{length if mask == (1 << 128) - (1 << 128 - length) else ip6_text(mask)}"


TYPES = {0x0806: "arp", 0x86DD: "ipv6", 0x8035: "rarp", 0x8847: "mpls", 0x8848: "mplsm"}
PROTOCOLS = {1: "icmp", 6: "tcp", 17: "udp", 132: "sctp", 2: "igmp"}
PROTOCOLS_6 = {58: "icmp6", 6: "tcp6", 17: "udp6", 132: "sctp6"}


def vlan_words(vid, mask, pcp):
    if vid is None:
        return []
    if mask not in (None, 0x1FFF) or not vid & 0x1000:
        return [f"vlan_tci=0x{vid:04x}/0x{0x1FFF if mask is None else mask:04x}"]
    return [f"dl_vlan={vid & 0xFFF}"] + ([] if pcp is None else [f"dl_vlan_pcp={pcp}"])


def match_words(fields):
    """A match as `ovs-ofctl` shows it: the types as names, then its fields in its order."""
    has, words = {name: (value, mask) for name, value, mask in fields}, []
    eth_type, proto = (has.get(it, (None, None))[0] for it in ("eth_type", "ip_proto"))
    protocols = PROTOCOLS_6 if eth_type == 0x86DD else PROTOCOLS
    if eth_type == 0x0800:
        words.append(PROTOCOLS.get(proto, "ip"))
    elif eth_type == 0x86DD and proto in PROTOCOLS_6:
        words.append(PROTOCOLS_6[proto])
    elif eth_type in TYPES:
        words.append(TYPES[eth_type])
    if "in_port" in has:
        words.append(f"in_port={PORTS.get(has['in_port'][0], has['in_port'][0])}")
    words += vlan_words(*has.get("vlan_vid", (None, None)), has.get("vlan_pcp", (None, None))[0])
    for name, short in (("eth_src", "dl_src"), ("eth_dst", "dl_dst")):
        if name in has:
            value, mask = has[name]
            words.append(f"{short}={mac_text(value)}" + ("" if mask is None else f"/{mac_text(mask)}"))
    if eth_type is not None and eth_type != 0x0800 and eth_type not in TYPES:
        words.append(f"dl_type=0x{eth_type:04x}")
    for name, short in (("ipv4_src", "nw_src"), ("ipv4_dst", "nw_dst"), ("arp_spa", "arp_spa"), ("arp_tpa", "arp_tpa")):
        if name in has:
            words.append(f"{short}={ip_masked(*has[name])}")
    words += [f"{name}={ip6_masked(*has[name])}" for name in ("ipv6_src", "ipv6_dst") if name in has]
    if proto is not None and proto not in protocols:
        words.append(f"nw_proto={proto}")
    for name, short in (("arp_op", "arp_op"), ("tcp_src", "tp_src"), ("udp_src", "tp_src"), ("tcp_dst", "tp_dst"), ("udp_dst", "tp_dst"), ("icmpv4_type", "icmp_type"), ("icmpv4_code", "icmp_code"), ("icmpv6_type", "icmp_type"), ("icmpv6_code", "icmp_code")):
        if name in has:
            words.append(f"{short}={has[name][0]}")
    if "ipv6_nd_target" in has:
        words.append(f"nd_target={ip6_text(has['ipv6_nd_target'][0])}")
    return words + [f"{name}={value}" for name, value, _ in fields if name not in FIELDS]


def action_word(action):
    kind, *more = action
    if kind == "output":
        name = PORTS.get(more[0], f"output:{more[0]}")
        return f"{name}:{more[1]}" if more[0] == CONTROLLER and len(more) > 1 else name
    if kind == "push":
        return f"push_vlan:0x{more[0]:04x}"
    if kind == "set":
        value = mac_text(more[1]) if more[0].startswith("eth_") and more[0] != "eth_type" else more[1]
        return f"set_field:{value}->{more[0]}"
    return {"pop": "pop_vlan"}.get(kind, kind)


def actions_text(actions, goto=None):
    return ",".join([action_word(it) for it in actions] + ([] if goto is None else [f"goto_table:{goto}"])) or "drop"


def entry_text(table, priority, fields, actions, goto):
    return f"table={table}, " + ",".join([f"priority={priority}"] + match_words(fields)) + f" actions={actions_text(actions, goto)}"


def flow_mod_text(frame):
    it = Entry(frame)
    words = [COMMANDS.get(it.command, f"cmd:{it.command}")] + ([f"table:{it.table}"] if it.table else [])
    words.append(",".join(([] if it.priority == 0x8000 else [f"priority={it.priority}"]) + match_words(it.fields)))
    words += [f"cookie:0x{it.cookie:x}"] if it.cookie else []
    return " ".join([word for word in words if word] + [f"actions={actions_text(it.actions, it.goto)}"])
