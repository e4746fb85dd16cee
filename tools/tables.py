"""Packets, and what flow entries do with them (OpenFlow 1.3, 5.1 to 5.12), for the tools beside it."""
import struct

import openflow
from openflow import ADD, DELETE, FIELDS, IN_PORT


# ---- packets


def checksum(data):
    data += bytes(len(data) % 2)
    total = sum(struct.unpack(f"!{len(data) // 2}H", data))
    while total >> 16:
        total = (total & 0xFFFF) + (total >> 16)
    return total ^ 0xFFFF


class Packet:
    """A frame with its tags apart."""

    def __init__(self, frame):
        self.dst, self.src, self.tags, at = frame[:6], frame[6:12], [], 12
        while frame[at : at + 2] in (b"\x81\x00", b"\x88\xa8") and len(frame) >= at + 4:
            self.tags.append(struct.unpack("!HH", frame[at : at + 4]))
            at += 4
        if len(frame) < at + 2:
            raise ValueError("a frame has two addresses of six bytes, and a type behind them")
        self.eth_type, self.body = struct.unpack("!H", frame[at : at + 2])[0], bytearray(frame[at + 2 :])

    def frame(self):
        tags = b"".join(struct.pack("!HH", *tag) for tag in self.tags)
        return self.dst + self.src + tags + struct.pack("!H", self.eth_type) + bytes(self.body)

    def is_arp(self):
        return self.eth_type == 0x0806 and len(self.body) >= 28 and self.body[:6] == b"\x00\x01\x08\x00\x06\x04"

    def header_len(self):
        """How long the IPv4 header is, or 0 where there is none."""
        body = self.body
        if self.eth_type != 0x0800 or len(body) < 20 or body[0] >> 4 != 4:
            return 0
        length = 4 * (body[0] & 15)
        return length if 20 <= length <= len(body) else 0

    def is_ip6(self):
        return self.eth_type == 0x86DD and len(self.body) >= 40 and self.body[0] >> 4 == 6

    def fields6(self):
        """What an IPv6 packet has of each field. Headers of extensions aren't gone through."""
        number, more = lambda start, end: int.from_bytes(self.body[start:end], "big"), self.body[40:]
        has = {"ip_proto": self.body[6], "ipv6_src": number(8, 24), "ipv6_dst": number(24, 40)}
        if self.body[6] in (6, 17) and len(more) >= 4:
            name = {6: "tcp", 17: "udp"}[self.body[6]]
            has[f"{name}_src"], has[f"{name}_dst"] = struct.unpack("!HH", more[:4])
        if self.body[6] == 58 and len(more) >= 2:
            has.update(icmpv6_type=more[0], icmpv6_code=more[1])
            if more[0] in (135, 136) and len(more) >= 24:
                has["ipv6_nd_target"] = number(48, 64)
        return has

    def fields(self, port):
        """What it has of each field where it comes in by a port."""
        has = {"in_port": port, "eth_dst": int.from_bytes(self.dst, "big"), "eth_src": int.from_bytes(self.src, "big"), "eth_type": self.eth_type, "vlan_vid": 0}
        if self.tags:
            has.update(vlan_vid=0x1000 | self.tags[0][1] & 0xFFF, vlan_pcp=self.tags[0][1] >> 13)
        body, number = bytes(self.body), lambda start, end: int.from_bytes(self.body[start:end], "big")
        if self.is_arp():
            has.update(arp_op=number(6, 8), arp_spa=number(14, 18), arp_tpa=number(24, 28))
        if length := self.header_len():
            has.update(ip_proto=body[9], ipv4_src=number(12, 16), ipv4_dst=number(16, 20))
            first, more = number(6, 8) & 0x1FFF == 0, body[length:]
            if first and body[9] in (6, 17) and len(more) >= 4:
                name = {6: "tcp", 17: "udp"}[body[9]]
                has[f"{name}_src"], has[f"{name}_dst"] = struct.unpack("!HH", more[:4])
            if first and body[9] == 1 and len(more) >= 2:
                has.update(icmpv4_type=more[0], icmpv4_code=more[1])
        return has | (self.fields6() if self.is_ip6() else {})

    def text(self):
        has = self.fields(0)
        words = [f"{openflow.mac_text(has['eth_src'])} > {openflow.mac_text(has['eth_dst'])}"] + [f"vlan {tag[1] & 0xFFF}" for tag in self.tags]
        if "arp_op" in has:
            spa, tpa = openflow.ip_text(has["arp_spa"]), openflow.ip_text(has["arp_tpa"])
            return " ".join(words + [{1: f"arp: {spa} asks for {tpa}", 2: f"arp: {spa} tells {tpa}"}.get(has["arp_op"], f"arp operation {has['arp_op']}")])
        if "ipv6_src" in has:
            return " ".join(words + self.words6(has))
        if "ip_proto" in has:
            name = openflow.PROTOCOLS.get(has["ip_proto"], f"ip protocol {has['ip_proto']}")
            ends = [openflow.ip_text(has[it]) + (f":{has[f'{name}_{it[5:]}']}" if f"{name}_{it[5:]}" in has else "") for it in ("ipv4_src", "ipv4_dst")]
            kind = [f"type {has['icmpv4_type']}"] if "icmpv4_type" in has else []
            return " ".join([*words, name, " > ".join(ends), *kind, f"ttl {self.body[8]}"])
        return " ".join(words + [f"type 0x{self.eth_type:04x}"])

    def words6(self, has):
        name = openflow.PROTOCOLS_6.get(has["ip_proto"], f"ipv6 next header {has['ip_proto']}")
        ends = []
        for it in ("src", "dst"):
            port = next((has[f"{above}_{it}"] for above in ("tcp", "udp") if f"{above}_{it}" in has), None)
            ends.append(openflow.ip6_text(has[f"ipv6_{it}"]) if port is None else f"[{openflow.ip6_text(has[f'ipv6_{it}'])}]:{port}")
        kind = [f"type {has['icmpv6_type']}"] if "icmpv6_type" in has else []
        target = [f"target {openflow.ip6_text(has['ipv6_nd_target'])}"] if "ipv6_nd_target" in has else []
        return [name, " > ".join(ends), *kind, *target, f"hops {self.body[7]}"]


# ---- flow entries


class Tables:
    """What a switch holds that does each command in turn."""

    def __init__(self):
        self.entries = {}

    def do(self, frame):
        entry = openflow.Entry(frame)
        if entry.command == ADD:
            self.entries[entry.key] = entry
        elif entry.command == DELETE:
            # The controller deletes without a match alone: all, or those of a table.
            self.entries = {key: it for key, it in self.entries.items() if entry.table not in (0xFF, key[0])}
        else:
            self.entries.pop(entry.key, None)

    def best(self, table, has):
        hit = [it for it in self.entries.values() if it.table == table and hits(it, has)]
        return max(hit, key=lambda it: it.priority, default=None)


def hits(entry, has):
    for name, value, mask in entry.fields:
        whole = (1 << 8 * FIELDS[name][1]) - 1 if mask is None else mask
        if name not in has or has[name] & whole != value & whole:
            return False
    return True


def set_field(packet, name, value):
    if name in ("eth_dst", "eth_src"):
        setattr(packet, name[4:], value.to_bytes(6, "big"))
    elif name == "vlan_vid" and packet.tags:
        tpid, tci = packet.tags[0]
        packet.tags[0] = tpid, tci & 0xF000 | value & 0xFFF
    # The entries of this controller set no other field.


def act(actions, packet, port):
    """What actions send, as a port and a frame each, and whether the packet is left."""
    sent = []
    for kind, *more in actions:
        if kind == "output" and more[0] != port:
            sent.append((port if more[0] == IN_PORT else more[0], packet.frame()))
        elif kind == "push":
            tci = packet.tags[0][1] & 0xEFFF if packet.tags else 0
            packet.tags.insert(0, (more[0], tci))
        elif kind == "pop" and packet.tags:
            packet.tags.pop(0)
        elif kind == "set":
            set_field(packet, *more)
        elif kind == "dec_ttl" and not dec_ttl(packet):
            return sent, False
    return sent, True


def dec_ttl(packet):
    """Takes one from the time to live, or the hop limit; whether the packet is left."""
    length, at = packet.header_len(), 7 if packet.is_ip6() else 8
    if not (length or packet.is_ip6()) or packet.body[at] < 2:
        return False
    packet.body[at] -= 1
    if length:
        packet.body[10:12] = bytes(2)
        packet.body[10:12] = struct.pack("!H", checksum(bytes(packet.body[:length])))
    return True


def way(tables, frame, port):
    """Each table that a frame comes to, with the entry that decides there or None, and what that sends."""
    packet, table = Packet(frame), 0
    while table is not None:
        entry = tables.best(table, packet.fields(port))
        before = packet.text()
        sent, left = act(entry.actions, packet, port) if entry else ([], False)
        yield table, before, entry, sent, left
        table = entry.goto if entry and left else None
