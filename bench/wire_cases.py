#!/usr/bin/env python3
"""Writes the cases of crates/test_wire in which a header tells a wrong length: python3 bench/wire_cases.py stdin, or stdout.

Each message in each stage of a session, with a length that is one too small, and one too large without and with a byte more.
The answers are worked out here, from the layouts of OpenFlow 1.3, with none of the program's code.
"""
import struct
import sys

# ---- messages


def frame(kind, body="", xid=7):
    body = bytes.fromhex(body)
    return struct.pack(">BBHI", 4, kind, 8 + len(body), xid) + body


PORT = "00000003" + "00" * 4 + "020000000001" + "00" * 50
COUNTERS = "00000003" + "00" * 108
MESSAGES = [
    ("HELLO", frame(0)),
    ("HELLO with a bitmap", frame(0, "0001000800000010")),
    ("ERROR", frame(1, "00050001")),
    ("ERROR with data", frame(1, "000500010203")),
    ("ECHO_REQUEST", frame(2)),
    ("ECHO_REQUEST with data", frame(2, "6869")),
    ("ECHO_REPLY", frame(3)),
    ("ECHO_REPLY with data", frame(3, "6869")),
    ("EXPERIMENTER", frame(4, "0000000100000002")),
    ("FEATURES_REQUEST", frame(5)),
    ("FEATURES_REPLY", frame(6, "0000000000000005" + "00000100" + "fe00" + "00" * 10)),
    ("GET_CONFIG_REPLY", frame(8, "0000ffff")),
    ("PACKET_IN", frame(10, "ffffffff" + "0000" + "0103" + "00" * 8 + "00010004" + "00" * 4 + "0000")),
    ("PACKET_IN with data", frame(10, "ffffffff" + "0002" + "0103" + "00" * 8 + "00010004" + "00" * 4 + "0000" + "abcd")),
    ("PORT_STATUS", frame(12, "02" + "00" * 7 + PORT)),
    ("PACKET_OUT", frame(13, "ffffffff" + "fffffffd" + "0000" + "00" * 6)),
    ("PACKET_OUT with data", frame(13, "ffffffff" + "fffffffd" + "0000" + "00" * 6 + "abcd")),
    ("FLOW_MOD", frame(14, "00" * 16 + "0000" + "0000" + "0000" + "0001" + "ffffffff" * 3 + "0000" + "0000" + "00010004" + "00" * 4)),
    ("MULTIPART_REQUEST of port descriptions", frame(18, "000d0000" + "00" * 4)),
    ("MULTIPART_REQUEST of port counters", frame(18, "00040000" + "00" * 4 + "ffffffff" + "00" * 4)),
    ("MULTIPART_REQUEST of another type", frame(18, "00000000" + "00" * 4)),
    ("MULTIPART_REPLY of port descriptions", frame(19, "000d0000" + "00" * 4)),
    ("MULTIPART_REPLY of port descriptions, one port", frame(19, "000d0000" + "00" * 4 + PORT)),
    ("MULTIPART_REPLY of port counters", frame(19, "00040000" + "00" * 4 + COUNTERS)),
    ("MULTIPART_REPLY of another type", frame(19, "00000000" + "00" * 4)),
    ("BARRIER_REQUEST", frame(20)),
    ("BARRIER_REPLY", frame(21)),
]

# ---- whether a frame is a message: how long its body may be


def is_hello(body):
    at = 0
    while at < len(body):
        if at + 4 > len(body):
            return False
        kind, length = struct.unpack(">HH", body[at:at + 4])
        padded = (length + 7) // 8 * 8
        if length < (8 if kind == 1 else 4) or at + padded > len(body) or any(body[at + length:at + padded]):
            return False
        at += padded
    return True


def is_multipart(body, fixed, items):
    if len(body) < 8:
        return False
    kind = struct.unpack(">H", body[:2])[0]
    if kind in fixed:
        return len(body) == 8 + fixed[kind]
    return kind not in items or (len(body) - 8) % items[kind] == 0


def is_packet_in(body):
    if len(body) < 20:
        return False
    match = struct.unpack(">H", body[18:20])[0]
    return len(body) >= 16 + (match + 7) // 8 * 8 + 2


def is_packet_out(body):
    return len(body) >= 16 and len(body) >= 16 + struct.unpack(">H", body[8:10])[0]


def is_message(kind, body):
    if kind == 0:
        return is_hello(body)
    if kind == 1:
        return len(body) >= 4
    if kind in (5, 20, 21):
        return not body
    if kind in (6, 12):
        return len(body) == {6: 24, 12: 72}[kind]
    if kind == 10:
        return is_packet_in(body)
    if kind == 13:
        return is_packet_out(body)
    if kind == 14:
        return len(body) == 48
    if kind == 18:
        return is_multipart(body, {13: 0, 4: 8}, {})
    if kind == 19:
        return is_multipart(body, {}, {13: 64, 4: 112})
    return True


# ---- a session


class Session:
    def __init__(self):
        self.stage, self.ports, self.buffer, self.steps = "Greeting", {}, b"", []

    def port(self, port):
        number, = struct.unpack(">I", port[:4])
        self.ports[number] = True
        return number

    def hear(self, kind, body):
        if kind == 1:
            self.stage = "Shut"
            return "Close(SwitchError { kind: %d, code: %d })" % struct.unpack(">HH", body[:4])
        if kind == 2:
            return "Echo"
        if kind == 12:
            return "PortChanged(PortNo { no: %d })" % self.port(body[8:])
        if kind == 0 and self.stage == "Greeting":
            self.stage = "Features"
            return "AskFeatures"
        if kind == 6 and self.stage == "Features":
            self.stage = "Ports"
            return "Features { dp: DpId(%d), n_tables: %d, auxiliary: %d }" % (struct.unpack(">Q", body[:8])[0], body[12], body[13])
        if kind == 19 and self.stage == "Ports" and body[:2] == b"\0\x0d":
            for at in range(8, len(body), 64):
                self.port(body[at:at + 64])
            self.stage = "Wiping"
            return "PortsKnown"
        if kind == 21 and self.stage in ("Wiping", "Running"):
            step = {"Wiping": "Wiped", "Running": "Settled"}[self.stage]
            self.stage = "Running"
            return step
        if kind == 10 and self.stage == "Running":
            return "Packet"
        return "Nothing"

    def bytes(self, piece):
        self.buffer += piece
        while len(self.buffer) >= 8:
            length, = struct.unpack(">H", self.buffer[2:4])
            if length < 8 or length > len(self.buffer):
                return
            kind, body, self.buffer = self.buffer[1], self.buffer[8:length], self.buffer[length:]
            if not is_message(kind, body):
                return
            self.steps.append(self.hear(kind, body))

    def text(self):
        ports = "".join(f", {no} up" for no in sorted(self.ports))
        return "; ".join(self.steps + [f"{self.stage}, {len(self.ports)} ports{ports}, {len(self.buffer)} unread"])


# ---- cases

SETUP = [frame(0, "0001000800000010", 1), frame(6, "00" * 7 + "05" + "00" * 4 + "fe" + "00" * 11, 2), frame(19, "000d0000" + "00" * 4), frame(21)]


def lying(message, more):
    return message[:2] + struct.pack(">H", len(message) + more) + message[4:]


def cases():
    stdin, stdout = [], []

    def tell(line):
        stdin.append(line)
        stdout.append(line)

    tell("")
    tell("# Lengths that lie, of each message in each stage: one too small, one too large, and this with a byte more behind it. What a")
    tell("# frame leaves unread stays unread; behind a frame that spells no message nothing is heard.")
    for name, message in MESSAGES:
        tell(f"# {name}")
        for done in range(5):
            for pieces in ([lying(message, -1)], [lying(message, 1)], [lying(message, 1), b"\0"]):
                session, words = Session(), ["asked=7"]
                for piece in SETUP[:done]:
                    session.bytes(piece)
                    words += [piece.hex(), "asked=7"]
                for piece in pieces:
                    session.bytes(piece)
                    words.append(piece.hex())
                line = "session " + " ".join(words)
                stdin.append(line)
                stdout.append(f"{line} => {session.text()}")
    return {"stdin": stdin, "stdout": stdout}


if __name__ == "__main__":
    sys.stdout.write("\n".join(cases()[sys.argv[1]]) + "\n")
