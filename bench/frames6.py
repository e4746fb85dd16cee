#!/usr/bin/env python3
"""Writes the cases of crates/test_packets about IPv6: python3 bench/frames6.py stdin, or stdout; it needs scapy.

Frames and their checksums are built by scapy, and what whole ones hold is what scapy reads of them; the answers to cut ones, and what
matches and actions make of a frame, are worked out here, from RFC 8200, RFC 4443, RFC 4861 and OpenFlow 1.3, with none of the program's code.
"""
import random
import socket
import sys
from scapy.all import IP, Dot1Q, Ether, ICMPv6EchoReply, ICMPv6EchoRequest, ICMPv6ND_NA, ICMPv6ND_NS, ICMPv6NDOptDstLLAddr, ICMPv6NDOptSrcLLAddr, IPv6, in6_chksum, IPv6ExtHdrHopByHop, IPv6ExtHdrFragment, PadN, Raw, TCP, UDP

ROUTER, STATION = "0e:00:00:00:00:01", "02:00:00:00:00:01"
GATEWAY, HOST = "fd00::fe", "fd00::1"
CASES = []


def note(text):
    CASES.append((text, None))


def case(words, answer):
    CASES.append((words, answer))


# ---- what a frame holds


class Held:
    """The parts of a frame: IPv6 where a whole header of version 6 stands behind type 0x86dd."""

    def __init__(self, frame, whole=True):
        self.dst, self.src, at, self.tags = frame[:6], frame[6:12], 12, []
        while frame[at:at + 2] in (b"\x81\x00", b"\x88\xa8"):
            control = int.from_bytes(frame[at + 2:at + 4], "big")
            self.tags.append((int.from_bytes(frame[at:at + 2], "big"), control >> 13, control >> 12 & 1, control & 0xFFF))
            at += 4
        self.eth_type = int.from_bytes(frame[at:at + 2], "big")
        payload = frame[at + 2:]
        self.upper, self.rest = None, payload
        # this reads none of ARP, and of IPv4 only what is built whole
        assert self.eth_type != 0x0806 and (self.eth_type != 0x0800 or payload[:1] != b"\x45" or len(payload) < 20 or whole)
        if self.eth_type == 0x86DD and len(payload) >= 40 and payload[0] >> 4 == 6:
            self.read(payload[:40], payload[40:])
            if whole:
                self.check(frame)

    def read(self, header, body):
        self.header, self.body, number = header, body, lambda data: int.from_bytes(data, "big")
        self.upper = {"src": number(header[8:24]), "dst": number(header[24:]), "proto": header[6], "hops": header[7]}
        self.l4, self.rest = ("None", {}), header[:6] + body
        if header[6] in (6, 17) and len(body) >= 4:
            self.l4 = ("Tcp" if header[6] == 6 else "Udp", {"src": number(body[:2]), "dst": number(body[2:4])})
            self.rest = header[:6] + body[4:]
        if header[6] == 58 and len(body) >= 2:
            self.l4 = ("Icmp6", {"kind": body[0], "code": body[1], "target": None})
            self.rest = header[:6] + body[2:]
            if body[0] in (135, 136) and len(body) >= 24:
                self.l4[1]["target"] = number(body[8:24])
                self.rest = header[:6] + body[2:8] + body[24:]

    def check(self, frame):
        """Scapy reads the same."""
        seen = Ether(frame)[IPv6]
        number = lambda text: int.from_bytes(socket.inet_pton(socket.AF_INET6, text), "big")
        assert (self.upper["src"], self.upper["dst"], self.upper["proto"], self.upper["hops"]) == (number(seen.src), number(seen.dst), seen.nh, seen.hlim)
        for layer, name in ((TCP, "Tcp"), (UDP, "Udp")):
            if layer in seen and seen.nh in (6, 17) and self.l4[0] != "None":
                assert self.l4 == (name, {"src": seen[layer].sport, "dst": seen[layer].dport})
        for layer in (ICMPv6ND_NS, ICMPv6ND_NA):
            if layer in seen and self.l4[1].get("target") is not None:
                assert self.l4[1]["target"] == number(seen[layer].tgt)

    def value(self, field, port=7):
        """What the packet has of a field, by its number."""
        if field == 0:
            return port
        if field == 5:
            return self.eth_type
        if self.upper is None:
            return None
        kind, parts = self.l4
        upper = {10: "proto", 26: "src", 27: "dst"}.get(field)
        if upper:
            return self.upper[upper]
        names = {13: ("Tcp", "src"), 14: ("Tcp", "dst"), 15: ("Udp", "src"), 16: ("Udp", "dst"), 29: ("Icmp6", "kind"), 30: ("Icmp6", "code"), 31: ("Icmp6", "target")}
        layer, name = names.get(field, (None, None))
        return parts[name] if layer == kind else None

    def set(self, field, value):
        upper = {10: "proto", 26: "src", 27: "dst"}.get(field)
        names = {13: ("Tcp", "src"), 14: ("Tcp", "dst"), 15: ("Udp", "src"), 16: ("Udp", "dst"), 29: ("Icmp6", "kind"), 30: ("Icmp6", "code"), 31: ("Icmp6", "target")}
        layer, name = names.get(field, (None, None))
        if upper:
            self.upper[upper] = value
        elif layer == self.l4[0] and self.l4[1][name] is not None:
            self.l4[1][name] = value

    def said(self):
        tags = ", ".join(f"Tag {{ tpid: {tpid}, pcp: {pcp}, dei: {'true' if dei else 'false'}, vid: {vid} }}" for tpid, pcp, dei, vid in self.tags)
        return (f"Packet {{ dst: Mac({list(self.dst)}), src: Mac({list(self.src)}), tags: Items {{ items: [{tags}] }}, eth_type: {self.eth_type}, "
                f"upper: {self.said_upper()}, rest: Items {{ items: {list(self.rest)} }} }}")

    def said_upper(self):
        if self.upper is None:
            return "None"
        kind, parts = self.l4
        if kind == "Icmp6":
            target = "None" if parts["target"] is None else f"Some(Ip6({parts['target']}))"
            inner = f"Icmp6 {{ kind: {parts['kind']}, code: {parts['code']}, target: {target} }}"
        elif kind == "None":
            inner = "None"
        else:
            inner = f"{kind} {{ src: {parts['src']}, dst: {parts['dst']} }}"
        upper = self.upper
        return f"V6 {{ src: Ip6({upper['src']}), dst: Ip6({upper['dst']}), proto: {upper['proto']}, hops: {upper['hops']}, l4: {inner} }}"


def packet(frame, whole=True):
    case(f"packet {frame.hex()}", f"Some({Held(frame, whole).said()})" if has_type(frame) else "None")


def has_type(frame):
    """Whether a frame reaches to the end of its EtherType."""
    at = 12
    while frame[at:at + 2] in (b"\x81\x00", b"\x88\xa8"):
        at += 4
    return len(frame) >= at + 2


def packet4(proto, body):
    """An IPv4 packet of a protocol that has no fields, whose header has 20 bytes."""
    frame = bytes(Ether(dst=ROUTER, src=STATION) / IP(src="10.0.0.1", dst="10.0.0.2", proto=proto) / Raw(body))
    held = Held(frame)
    header, seen = held.rest[:20], Ether(frame)[IP]
    assert (seen.proto, seen.ttl, bytes(seen)[20:]) == (header[9], header[8], body)
    held.rest = header[:8] + body
    said = held.said().replace("upper: None", f"upper: V4 {{ src: Ip4({0x0A000001}), dst: Ip4({0x0A000002}), proto: {proto}, ttl: {header[8]}, l4: None }}")
    case(f"packet {frame.hex()}", f"Some({said})")


def hits(fields, frame):
    held = Held(frame)
    agree = lambda value, wanted, mask: value is not None and value & mask == wanted & mask
    words = ",".join(f"{field}={wanted:x}/{mask:x}" for field, wanted, mask in fields)
    answer = all(agree(held.value(field), wanted, mask) for field, wanted, mask in fields)
    case(f"hits {words} 7 {frame.hex()}", "true" if answer else "false")


def act(frame, actions):
    held, sents, left = Held(frame), [], True
    for action in actions.split():
        kind, _, rest = action.partition(":")
        if kind == "out":
            sents.append(f"Sent {{ port: {rest}, packet: {held.said()} }}")
        if kind == "ttl":
            left = held.upper is not None and held.upper["hops"] > 1
            if not left:
                break
            held.upper["hops"] -= 1
        if kind == "set":
            number, _, bits = rest.partition("=")
            held.set(int(number), int(bits.split("/")[0], 16))
    case(f"act 7 {frame.hex()} {actions}", f"Acted {{ sents: Items {{ items: [{', '.join(sents)}] }}, left: {f'Some({held.said()})' if left else 'None'} }}")


def reply(frame, answer, words=None):
    answer = bytes(answer) if answer is not None else None
    case(f"reply {words or frame.hex()}", "nothing" if answer is None else f"{len(answer)} bytes {answer[:80].hex()}")


# ---- frames


def ether(dst=ROUTER, src=STATION, vid=100):
    return Ether(dst=dst, src=src) / Dot1Q(vlan=vid)


SOLICIT = bytes(Ether(dst="33:33:ff:00:00:fe", src=STATION) / Dot1Q(vlan=100) / IPv6(src=HOST, dst="ff02::1:ff00:fe", hlim=255)
                / ICMPv6ND_NS(tgt=GATEWAY) / ICMPv6NDOptSrcLLAddr(lladdr=STATION))
ADVERT = bytes(Ether(dst=STATION, src=ROUTER) / IPv6(src=GATEWAY, dst=HOST, hlim=255)
               / ICMPv6ND_NA(R=1, S=1, O=1, tgt=GATEWAY) / ICMPv6NDOptDstLLAddr(lladdr=ROUTER))
ASKING = bytes(Ether(dst="33:33:ff:00:00:01", src=ROUTER) / IPv6(src=GATEWAY, dst="ff02::1:ff00:1", hlim=255)
               / ICMPv6ND_NS(tgt=HOST) / ICMPv6NDOptSrcLLAddr(lladdr=ROUTER))


def ping(data=b"abcdefgh", **fields):
    kind = fields.pop("kind", ICMPv6EchoRequest)
    more = {name: fields.pop(name) for name in ("code", "cksum", "type") if name in fields}
    return IPv6(src=HOST, dst=GATEWAY, **fields) / kind(id=1, seq=1, data=data, **more)


def pong(data=b"abcdefgh", dst=STATION):
    return Ether(dst=dst, src=ROUTER) / IPv6(src=GATEWAY, dst=HOST, hlim=64) / ICMPv6EchoReply(id=1, seq=1, data=data)


PING = bytes(ether() / ping())
TO_80 = bytes(ether() / IPv6(src=HOST, dst=GATEWAY) / TCP(sport=1000, dport=80))
TO_53 = bytes(ether() / IPv6(src=HOST, dst=GATEWAY) / UDP(sport=54, dport=53) / b"abc")


def with_byte(frame, at, value):
    return frame[:at] + bytes([value]) + frame[at + 1:]


# ---- cases

note("# IPv6 (bench/frames6.py). How a host asks for a gateway, as it is read; how the gateway asks for the host, and tells that it is there.")
packet(SOLICIT)
case(f"solicit {GATEWAY} {HOST}", ASKING.hex())
case(f"advert {GATEWAY} {HOST}", ADVERT.hex())
packet(ADVERT)
case("solicit 2001:db8::1 2001:db8:ffff:eeee:dddd:cccc:bbbb:aaaa", bytes(
    Ether(dst="33:33:ff:bb:aa:aa", src=ROUTER) / IPv6(src="2001:db8::1", dst="ff02::1:ffbb:aaaa", hlim=255)
    / ICMPv6ND_NS(tgt="2001:db8:ffff:eeee:dddd:cccc:bbbb:aaaa") / ICMPv6NDOptSrcLLAddr(lladdr=ROUTER)).hex())
case("advert ffff:ffff:ffff:ffff:ffff:ffff:ffff:ffff ::", bytes(
    Ether(dst=STATION, src=ROUTER) / IPv6(src="ffff:ffff:ffff:ffff:ffff:ffff:ffff:ffff", dst="::", hlim=255)
    / ICMPv6ND_NA(R=1, S=1, O=1, tgt="ffff:ffff:ffff:ffff:ffff:ffff:ffff:ffff") / ICMPv6NDOptDstLLAddr(lladdr=ROUTER)).hex())
note("")
note("# Echo requests to a gateway, and the answers: of an odd length, and with another hop limit.")
reply(PING, pong())
reply(bytes(ether() / ping(b"abcdefghi")), pong(b"abcdefghi"))
reply(bytes(ether() / ping(b"", hlim=1)), pong(b""))
note("# Padding behind the payload, and a traffic class and a flow label.")
reply(PING + b"\x00\xff", pong())
reply(bytes(ether() / ping(tc=0xB8, fl=0x12345)), pong())
note("# Without a tag.")
reply(bytes(Ether(dst=ROUTER, src=STATION) / ping()), pong())
note("# A wrong checksum; one that would be right without the pseudo header.")
reply(with_byte(PING, 61, PING[61] ^ 1), None)
bare = bytes(ping())[40:]
total = sum(int.from_bytes((bare[:2] + bytes(2) + bare[4:])[at:at + 2], "big") for at in range(0, len(bare), 2))
total = (total & 0xFFFF) + (total >> 16)
total = (total & 0xFFFF) + (total >> 16)
reply(bytes(ether() / ping(cksum=0xFFFF - total)), None)
note("# A reply, another code, another next header, another version.")
reply(bytes(ether() / ping(kind=ICMPv6EchoReply)), None)
reply(bytes(ether() / ping(code=1)), None)
reply(bytes(ether() / ping(nh=1)), None)
reply(with_byte(PING, 18, 0x40), None)
note("# A header of options in front.")
reply(bytes(ether() / IPv6(src=HOST, dst=GATEWAY) / IPv6ExtHdrHopByHop(options=[PadN(optdata=b"\0" * 4)]) / ICMPv6EchoRequest(id=1, seq=1)), None)
note("# A payload length past the frame, and one that leaves 7 bytes.")
reply(bytes(ether() / ping(plen=17)), None)
reply(bytes(ether() / ping(b"", plen=7)), None)
note("# From a group address.")
reply(bytes(ether(src="03:00:00:00:00:01") / ping()), None)
note("# The longest that is answered, and a byte more.")
for count, answered in ((65392, True), (65393, False)):
    frame = bytes(ether() / ping(bytes(count)))
    head = frame[:66]
    assert frame == head + bytes(count)
    reply(frame, pong(bytes(count)) if answered else None, f"{head.hex()} «{count}:00»")
note("# Frames that are cut behind each byte, and echo requests of which a byte or more is missing.")
for length in range(1, len(SOLICIT)):
    packet(SOLICIT[:length])
for length in range(1, len(PING)):
    reply(PING[:length], None)
note("# Version 4 behind the type of IPv6, and a header of version 6 behind the type of IPv4.")
packet(with_byte(SOLICIT, 18, 0x40))
packet(SOLICIT[:16] + b"\x08\x00" + SOLICIT[18:])
note("# A target is read of no other message.")
packet(with_byte(SOLICIT, 58, 134))
packet(with_byte(SOLICIT, 58, 136))
packet(with_byte(SOLICIT, 58, 137))
packet(with_byte(SOLICIT, 58, 128))
note("# TCP and UDP, whole and with ports that do not lie within; ICMP of IPv4 is none of IPv6, and the other way round.")
packet(TO_80)
packet(TO_53)
packet(TO_80[:61])
packet(TO_80[:62])
packet(TO_53[:61])
packet(bytes(ether() / ping(nh=1)))
packet4(58, bytes(ping())[40:])
note("# Behind headers of options and of fragments nothing is read.")
packet(bytes(ether() / IPv6(src=HOST, dst=GATEWAY) / IPv6ExtHdrHopByHop(options=[PadN(optdata=b"\0" * 4)]) / ICMPv6EchoRequest(id=1, seq=1)))
packet(bytes(ether() / IPv6(src=HOST, dst=GATEWAY) / IPv6ExtHdrFragment(id=9) / TCP(sport=1000, dport=80)))
note("# Two tags.")
packet(bytes(Ether(dst=ROUTER, src=STATION, type=0x88A8) / Dot1Q(vlan=7, prio=5, type=0x8100) / Dot1Q(vlan=100) / ping()))
note("")
note("# Fields of IPv6: a value hits as it is and under a mask that leaves the changed bit out, and does not with the lowest bit changed;")
note("# nor with the highest one changed. Of a field that the packet lacks not even a mask of no bits hits.")
ALL = (1 << 128) - 1
for field, bits, frame in ((5, 16, TO_80), (10, 8, TO_80), (13, 16, TO_80), (14, 16, TO_80), (15, 16, TO_53), (16, 16, TO_53),
                           (26, 128, SOLICIT), (27, 128, SOLICIT), (29, 8, SOLICIT), (30, 8, SOLICIT), (31, 128, SOLICIT), (31, 128, ADVERT)):
    value, ones = Held(frame).value(field), (1 << bits) - 1
    for wanted, mask in ((value, ones), (value ^ 1, ones), (value ^ 1, ones - 1), (value ^ 1 << bits - 1, ones), (value ^ 1 << bits - 1, ones >> 1)):
        hits([(field, wanted, mask)], frame)
for field, frame in ((11, SOLICIT), (12, SOLICIT), (19, SOLICIT), (20, SOLICIT), (21, SOLICIT), (23, SOLICIT), (31, PING), (13, SOLICIT), (29, TO_80), (30, TO_80),
                     (31, SOLICIT[:81]), (29, SOLICIT[:59]), (26, SOLICIT[:57]), (10, SOLICIT[:57])):
    hits([(field, 0, 0)], frame)
note("# A prefix of 64 bits.")
for net in (0xFD << 120, 0xFD << 120 | 1 << 64):
    hits([(5, 0x86DD, 0xFFFF), (26, net, ALL - (1 << 64) + 1)], SOLICIT)
note("")
note("# The hop limit: 0 and 1 end the packet.")
for hops in (0, 1, 2, 255):
    act(with_byte(TO_53, 25, hops), "out:8 ttl out:9")
note("# Fields that are set: those of a message only where it has them, a target only where it has one.")
for frame, actions in ((SOLICIT, f"set:26={0x20010DB8 << 96 | 1:x}/{ALL:x}"), (SOLICIT, f"set:27={ALL:x}/{ALL:x}"), (SOLICIT, f"set:31={5:x}/{ALL:x}"), (PING, f"set:31={5:x}/{ALL:x}"),
                       (PING, "set:29=81/ff"), (PING, "set:30=1/ff"), (PING, "set:19=0/ff"), (PING, "set:11=a000001/ffffffff"), (TO_80, "set:14=1f90/ffff"),
                       (TO_53, "set:15=1f90/ffff"), (TO_80, "set:29=81/ff"), (TO_80, "set:10=11/ff")):
    act(frame, actions)

note("")
note("# Frames of which bits are turned, and bytes are cut, left out or come twice, by chance; of an echo request, for each second one, with")
note("# the checksum that is right then.")


def changed(chance, frame):
    data = bytearray(frame)
    for _ in range(1 + chance.randrange(2)):
        at, kind = chance.randrange(12, len(data)), chance.choice(("turned", "turned", "turned", "cut", "out", "twice"))
        if kind == "turned":
            data[at] ^= 1 << chance.randrange(8)
        elif kind == "cut":
            del data[max(at, 20):]
        elif kind == "out":
            del data[at]
        else:
            data.insert(at, data[at])
    return bytes(data)


def with_sum(frame):
    """The frame with the checksum that its message is to have, where it has one."""
    held = Held(frame, False)
    if held.upper is None or len(held.body) < 4:
        return frame
    message = held.body[:2] + bytes(2) + held.body[4:]
    front = frame[:len(frame) - len(held.body)]
    return front + message[:2] + summed(held, message).to_bytes(2, "big") + message[4:]


def summed(held, message):
    ends = (socket.inet_ntop(socket.AF_INET6, held.header[at:at + 16]) for at in (8, 24))
    return in6_chksum(58, IPv6(**dict(zip(("src", "dst"), ends))), message)


def answer_to(frame):
    """The answer to an echo request over IPv6 that is whole and has its right type, code and checksum."""
    held = Held(frame, False)
    if held.upper is None or held.upper["proto"] != 58:
        return None
    size = int.from_bytes(held.header[4:6], "big")
    message = held.body[:size]
    if not 8 <= size <= len(held.body) or message[:2] != b"\x80\0" or summed(held, message) != 0:
        return None
    source, destination = (socket.inet_ntop(socket.AF_INET6, held.header[at:at + 16]) for at in (8, 24))
    number = lambda data: int.from_bytes(data, "big")
    return (Ether(dst=frame[6:12], src=ROUTER) / IPv6(src=destination, dst=source, hlim=64)
            / ICMPv6EchoReply(id=number(message[4:6]), seq=number(message[6:8]), data=message[8:]))


CHANCE = random.Random(6)
for number in range(100):
    packet(changed(CHANCE, CHANCE.choice((SOLICIT, ADVERT, PING, TO_80, TO_53))), False)
for number in range(100):
    frame = changed(CHANCE, PING)
    if has_type(frame):
        frame = with_sum(frame) if number % 2 else frame
        reply(frame, answer_to(frame))


def main():
    answered = {"stdin": False, "stdout": True}[sys.argv[1]]
    for words, answer in CASES:
        print(f"{words} => {answer}" if answered and answer is not None else words)


if __name__ == "__main__":
    main()
