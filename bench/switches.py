"""Switches that the scripts of this folder play: they answer as OpenFlow 1.3 asks, and hold the flow entries that they are told."""
import struct
import subprocess

from one_vlan import ADD, DELETE, DELETE_STRICT, HELLO, barrier_reply, descriptions, features, frame_of, message, packet_in

ECHO_REQUEST, ECHO_REPLY, FEATURES_REQUEST, FLOW_MOD, MULTIPART_REQUEST, BARRIER_REQUEST = 2, 3, 5, 14, 18, 20


class Switch:
    """A datapath with ports that are up. Flow entries stand by table, priority and match."""

    def __init__(self, dp, ports):
        self.dp, self.ports, self.tables, self.came, self.barriers, self.echoes = dp, ports, {}, b"", 0, []

    def greeting(self):
        self.tables, self.came = {}, b""
        return HELLO

    def change(self, body):
        """Does what a FLOW_MOD says."""
        table, command, priority = body[16], body[17], struct.unpack(">H", body[22:24])[0]
        length = (struct.unpack(">H", body[42:44])[0] + 7) // 8 * 8
        key = table, priority, body[40:40 + length]
        if command == ADD:
            self.tables[key] = body[40 + length:]
        elif command == DELETE_STRICT:
            self.tables.pop(key, None)
        elif command == DELETE and table == 255 and length == 8:
            self.tables.clear()
        else:
            raise ValueError(f"a command that isn't said: {body.hex()}")

    def answer(self, kind, xid, body):
        """What is answered to a message."""
        if kind == FEATURES_REQUEST:
            return features(self.dp, xid=xid)
        if kind == MULTIPART_REQUEST:
            return descriptions(self.ports, xid)
        if kind == BARRIER_REQUEST:
            self.barriers += 1
            return barrier_reply(xid)
        if kind == ECHO_REQUEST:
            return message(ECHO_REPLY, body, xid)
        if kind == ECHO_REPLY:
            self.echoes.append(body)
        if kind == FLOW_MOD:
            self.change(body)
        return b""

    def take(self, piece):
        """What is answered to the messages that a piece brings to their ends."""
        self.came += piece
        out, at = [], 0
        while len(self.came) - at >= 8:
            _, kind, length, xid = struct.unpack(">BBHI", self.came[at:at + 8])
            if len(self.came) - at < length:
                break
            out.append(self.answer(kind, xid, self.came[at + 8:at + length]))
            at += length
        self.came = self.came[at:]
        return b"".join(out)


def heard(port, number, vid=100):
    """A PACKET_IN of a frame that the host of this number sent to all."""
    return packet_in(port, frame_of(source(number), vid))


def source(number):
    return b"\x02\0" + number.to_bytes(4, "big")


def planned(program, configuration, dp):
    """The flow entries that `plan` gives a datapath of this name."""
    switch = Switch(0, [])
    switch.take(subprocess.run([program, "plan", configuration, dp], capture_output=True, check=True).stdout)
    return switch.tables
