#!/usr/bin/env python3
"""Writes the cases of crates/test_stories in which what switches send lies about its length, comes twice, or is cut:
python3 bench/story_cases.py stdin, or stdout.

The answers are worked out by the model of one_vlan.py, with none of the program's code.
"""
import struct
import sys

from one_vlan import HELLO, Controller, barrier_reply, descriptions, features, frame_of, message, packet_in, port, port_status
from wire_cases import MESSAGES, lying

OFF = "drop_spoofed_faucet_mac: false, drop_broadcast_source_address: false, drop_lldp: false, drop_bpdu: false"
BARE = f"conf {{dps: {{a: {{dp_id: 5, {OFF}, interfaces: {{}}}}}}}}"
PORTS = f"conf {{vlans: {{100: {{}}}}, dps: {{a: {{dp_id: 5, {OFF}, interfaces: {{1: {{native_vlan: 100}}, 3: {{native_vlan: 100}}}}}}}}}}"
SOURCE = bytes([2, 0, 0, 0, 0, 9])
# a frame in which 02:00:00:00:00:01 asks for the neighbour fd00::fe (RFC 4861, 4.3), with the tag of VLAN 100
SOLICITATION = bytes.fromhex(
    "3333ff0000fe" "020000000001" "81000064" "86dd" "6000000000203aff" "fd000000000000000000000000000001" "ff0200000000000000000001ff0000fe"
    "87007b9f00000000" "fd0000000000000000000000000000fe" "0101020000000001")


class Cases:
    def __init__(self):
        self.input, self.output, self.controller = [], [], None

    def put(self, line, *more):
        self.input.append(line)
        self.output.append(line + (more[0] if more else ""))

    def begin(self, title, conf, ports):
        self.put(f"# {title}")
        self.put(conf, " => accepted")
        self.controller = Controller({5: ports})

    def do(self, *lines):
        for line in lines:
            self.put(line)
            self.output += [f"  {one}" for one in self.controller.turn(line.split(" "))]

    def heard(self, number, *pieces):
        for piece in pieces:
            if piece:
                self.do(f"bytes {number} {piece.hex()}")


# what brings a connection to each stage, and what the stage is called; the last two barriers are those of the wipe and of the batch
def stages(batch):
    return [
        ("Greeting", []),
        ("Features", [HELLO]),
        ("Ports", [HELLO, features(5)]),
        ("Wiping", [HELLO, features(5), descriptions([1, 3])]),
        ("Running, and a barrier is outstanding", [HELLO, features(5), descriptions([1, 3]), barrier_reply(5)]),
        ("Running, and nothing is", [HELLO, features(5), descriptions([1, 3]), barrier_reply(5), barrier_reply(batch)]),
    ]


def lies(c, title, conf, ports, messages, batch):
    """Each message in each stage with a length one too small, and with one too large and then a byte more; then the connection ends."""
    for stage, setup in stages(batch):
        c.begin(f"{title}: the stage is {stage}", conf, ports)
        number = 0
        for message_ in messages:
            for pieces in ([lying(message_, -1)], [lying(message_, 1), b"\0"]):
                number += 1
                c.do(f"open {number}")
                c.heard(number, b"".join(setup), *pieces)
                c.do(f"end {number}")


def heard_hosts(c):
    """A PACKET_IN of a new host, which says one byte less, and one byte more, than is meant; then the reply to the batch's barrier."""
    packet, reply = packet_in(1, frame_of(SOURCE, 100) + b"\4"), barrier_reply(19)
    for stage, setup in stages(19):
        c.begin(f"a new host, in a message of a byte less and of a byte more: the stage is {stage}", PORTS, [1, 3])
        for number, pieces in enumerate(([lying(packet, -1), reply[1:]], [lying(packet, 1), b"\0" + reply]), 1):
            c.do(f"open {number}")
            c.heard(number, b"".join(setup), *pieces)
            c.do(f"end {number}")


def repeated(c):
    c.begin("each of the messages of a setup twice", PORTS, [1, 3])
    c.do("open 1")
    for piece in stages(19)[5][1]:
        c.heard(1, piece + piece)
    c.begin("behind a setup, barrier replies with the ids 19, 19, 9 and 19: nothing more is said", PORTS, [1, 3])
    c.do("open 1")
    c.heard(1, b"".join(stages(19)[5][1]), b"".join(barrier_reply(xid) for xid in (19, 19, 9, 19)))
    c.begin("behind a setup, a header that tells less than its own length, and what stands behind it", PORTS, [1, 3])
    c.do("open 1")
    c.heard(1, b"".join(stages(19)[5][1]), bytes.fromhex("0400000700000001") + message(2))
    c.do("end 1")
    c.begin("replies that aren't awaited: of a barrier before the setup, of ports with another id, in parts of which one has it; "
            "features in the place of a HELLO", PORTS, [1, 3])
    c.do("open 1")
    c.heard(1, features(5), barrier_reply(1), HELLO, descriptions([1]), barrier_reply(2), features(5, xid=77), HELLO,
            descriptions([1], 4), barrier_reply(3), descriptions([1], more=True), barrier_reply(3), descriptions([3]),
            descriptions([1]), barrier_reply(4), barrier_reply(6), barrier_reply(5), features(5), HELLO)
    c.begin("a port told before the setup, down in it, and told again; LOCAL, 0 and one that isn't configured", PORTS, [1, 3])
    c.do("open 1")
    c.heard(1, port_status(1, 1) + HELLO + port_status(3) + features(5) + message(
        19, struct.pack(">HH4x", 13, 0) + port(1) + port(3, 1) + port(0xFFFFFFFE) + port(0) + port(9), 3))
    c.heard(1, barrier_reply(5) + barrier_reply(19), packet_in(3, frame_of(SOURCE, 100)), port_status(3), packet_in(3, frame_of(SOURCE, 100)))
    c.heard(1, barrier_reply(23), port_status(3, 0, 1), barrier_reply(27))


def cut(c):
    """A whole setup and two hosts, in pieces of one byte and of a prime number of bytes."""
    hosts = packet_in(1, frame_of(SOURCE, 100)) + barrier_reply(23) + packet_in(3, SOLICITATION) + barrier_reply(27)
    whole = b"".join(stages(19)[5][1]) + hosts + message(2, b"hello")
    for size in (len(whole), 7, 1):
        c.begin(f"a setup, a host, one that asks for a neighbour by IPv6, and an echo in pieces of {size} bytes", PORTS, [1, 3])
        c.do("open 1")
        c.heard(1, *(whole[at:at + size] for at in range(0, len(whole), size)))


def cases():
    c = Cases()
    c.put("")
    c.put("# Lengths that lie, of each message in each stage: one too small, and one too large and a byte behind it.")
    lies(c, "each message", BARE, [], [message_ for _, message_ in MESSAGES], 11)
    heard_hosts(c)
    c.put("# messages that come twice, that aren't awaited, and that are cut")
    repeated(c)
    cut(c)
    return c


if __name__ == "__main__":
    made = cases()
    text = {"stdin": made.input, "stdout": made.output}[sys.argv[1]]
    sys.stdout.write("\n".join(text) + "\n")
