#!/usr/bin/env python3
"""Writes the cases of crates/test_blocks: python3 bench/block_cases.py stdin, or stdout.

What a reply with flow statistics tells, and how samples are spelled, is worked out here, from OpenFlow 1.3 and
from Prometheus' text format, with none of the program's code.
"""
import re
import struct
import sys

COUNTERS = ["rx_packets", "tx_packets", "rx_bytes", "tx_bytes", "rx_dropped", "tx_dropped", "rx_errors", "tx_errors",
            "rx_frame_err", "rx_over_err", "rx_crc_err", "collisions"]
EMPTY = bytes.fromhex("0001000400000000")

# ---- flow statistics


def request():
    body = struct.pack(">HHI", 1, 0, 0) + struct.pack(">B3xIIIQQ", 0xFF, 0xFFFFFFFF, 0xFFFFFFFF, 0, 0, 0) + EMPTY
    return struct.pack(">BBHI", 4, 18, 8 + len(body), 3) + body


def entry(table=0, priority=1, cookie=7, packets=5, octets=320, match=EMPTY, instructions=b"", length=None, noise=0):
    front = struct.pack(">BBIIHHHHIQQQ", table, noise, noise, noise, priority, noise, noise, noise, noise, cookie, packets, octets)
    rest = match + instructions
    length = 2 + len(front) + len(rest) if length is None else length
    return struct.pack(">H", length) + front + rest


def body(*entries, kind=1, flags=0):
    return struct.pack(">HHI", kind, flags, 0) + b"".join(entries)


def told(data):
    if len(data) < 8 or data[:2] != b"\0\1":
        return "another type"
    out, at = "", 8
    while at < len(data):
        if len(data) - at < 2:
            return "Short at %d" % at
        length, = struct.unpack_from(">H", data, at)
        if length < 56 or at + length > len(data):
            return "BadLength at %d" % at
        kind, size = struct.unpack_from(">HH", data, at + 48)
        if kind != 1:
            return "BadClass at %d" % at
        if size < 4 or 48 + -(-size // 8) * 8 > length:
            return "BadLength at %d" % at
        table, priority, cookie, packets, octets = struct.unpack_from(">B9xH10xQQQ", data, at + 2)
        key = data[at + 48:at + 48 + size].hex()
        out += "%d:%d:%s cookie %d, %d packets, %d bytes; " % (table, priority, key, cookie, packets, octets)
        at += length
    return out + ("more" if data[3] & 1 else "no more")


IN_PORT = bytes.fromhex("0001000c8000000400000001") + bytes(4)
VLAN = bytes.fromhex("0001000a80000c021064") + bytes(6)
GOTO = bytes.fromhex("0001000801000000")


def parts():
    yield "Bodies that are no part: too short, or of another type."
    for data in (b"", body()[:7], body(kind=0), body(kind=4), body(entry(), kind=13)):
        yield data
    yield "Flow entries, with matches and instructions that aren't looked into; bit 0 of the flags."
    for data in (body(), body(flags=1), body(flags=0xFFFE), body(entry()), body(entry(), flags=0xFFFF),
                 body(entry(255, 65535, 2 ** 64 - 1, 2 ** 64 - 1, 2 ** 64 - 1), entry(noise=255)),
                 body(entry(match=IN_PORT), entry(match=VLAN, instructions=GOTO), entry(instructions=b"\xee" * 5), entry(9, 2)),
                 body(entry(match=bytes.fromhex("00010006") + b"\xff" * 4))):
        yield data
    yield "An entry of which one byte is left."
    for data in (body(b"\0"), body(entry(), b"\0"), body(entry(), b"\xff")):
        yield data
    yield "A length under 56, or past the body; also where the match is wrong too."
    for length in (0, 1, 55, 57, 65535):
        yield body(entry(length=length))
    yield body(entry(), entry(length=64))
    yield body(entry()[:-1])
    yield body(b"\0\x38")
    yield body(entry(match=b"\0\0" + EMPTY[2:], length=55))
    yield body(entry(match=b"\0\0" + EMPTY[2:], length=57))
    yield "A match of another type; also where its length is wrong too."
    for match in (b"\0\0" + EMPTY[2:], b"\1\1" + EMPTY[2:], b"\xff\xff\0\0" + bytes(4)):
        yield body(entry(), entry(match=match))
    yield "The length of a match: under 4, or past the entry with its padding."
    for size in (0, 3, 4, 5, 8, 9, 16, 17, 65535):
        yield body(entry(match=struct.pack(">HH", 1, size) + bytes(4)))
        yield body(entry(match=struct.pack(">HH", 1, size) + bytes(12)), entry())


# ---- blocks


class Dp:
    def __init__(self, ident, name):
        self.ident, self.name, self.ports = ident, name, {}


def escaped(text):
    return text.replace("\\", "\\\\").replace('"', '\\"').replace("\n", "\\n")


def line(metric, labels, value):
    return "%s{%s} %d" % (metric, ",".join('%s="%s"' % (name, escaped(str(text))) for name, text in labels), value)


def port_labels(dp, number):
    return [("dp_id", dp.ident), ("dp_name", dp.name), ("port", number), ("port_name", dp.ports.get(number, number))]


def firsts(items, most):
    seen = {}
    for key, item in items:
        if key not in seen and len(seen) < most:
            seen[key] = item
    return list(seen.values())


def port_block(dp, items):
    out = []
    counted = firsts([(number, (number, counters)) for number, counters in items], 4096)
    for at, name in enumerate(COUNTERS):
        out.append("# TYPE of_port_%s counter" % name)
        for number, counters in counted:
            out.append(line("of_port_" + name, port_labels(dp, number), counters[at]))
    return out + [""]


def flow_block(dp, items):
    out = []
    counted = firsts([(item[:3], item) for item in items], 65536)
    for name, at in (("of_flow_packets", 3), ("of_flow_bytes", 4)):
        out.append("# TYPE %s counter" % name)
        for item in counted:
            labels = [("dp_id", dp.ident), ("dp_name", dp.name), ("table", item[0]), ("priority", item[1]), ("match", item[2])]
            out.append(line(name, labels, item[at]))
    return out + [""]


def state_block(dp, number, up):
    return ["# TYPE of_port_state gauge", line("of_port_state", port_labels(dp, number), int(up)), ""]


def shown(block):
    if len(block) > 64:
        return "%d lines\n  %s\n  %s" % (len(block), block[1], block[-2])
    return "".join("\n  " + text for text in block)


# the items of a line, of which a piece may come so many times
def unrolled(text):
    out = re.sub("«([0-9]+):([^»]*)»", lambda m: "".join(m[2].replace("№", str(i + 1)) for i in range(int(m[1]))), text)
    return out.split()


def ports_of(text):
    for item in unrolled(text):
        number, _, counters = item.partition(":")
        counters = [int(c) for c in counters.split(",") if c]
        yield int(number), counters + [0] * (12 - len(counters))


def flows_of(text):
    for item in unrolled(text):
        table, priority, key, packets, octets = item.split(":")
        yield int(table), int(priority), key, int(packets), int(octets)


def names(text):
    """As a line of the input has it."""
    return text.replace("\\", "\\\\").replace("\n", "\\n")


def blocks():
    yield "A datapath with two interfaces, and one port that isn't configured."
    sw1 = Dp(1, "sw1")
    sw1.ports = {1: "host1", 2: "host2"}
    yield sw1
    for case in ("ports 1:1,2,3,4,5,6,7,8,9,10,11,12", "ports 1:1 3:7,8 2:18446744073709551615", "ports", "ports 4294967294:1",
                 "flows 0:1:00010004:5:320", "flows 0:1:00010004:5:320 9:65535:0001000c8000000400000001:0:18446744073709551615 0:2:00010004:1:2", "flows",
                 "state 1 down", "state 2 up", "state 3 up", "state 0 down", "state 4294967295 up"):
        yield case
    yield "Of equal items the first counts; items differ by any of what they are told apart by."
    for case in ("ports 1:1 2:2 1:3 2:4 1:5", "flows 0:1:00010004:1:1 0:1:00010004:2:2 1:1:00010004:3:3 0:2:00010004:4:4 0:1:00010006:5:5 1:1:00010004:6:6"):
        yield case
    yield "Names with quotes, backslashes, line feeds, braces, and letters of several bytes."
    odd = Dp(2 ** 64 - 1, 'a"b\\c\nd')
    odd.ports = {1: '"', 2: "\\", 3: "\n", 4: '\\"\n\\n', 5: "{a=\"b\",}", 6: "żółw \t€𝄞", 7: " "}
    yield odd
    for case in ("state 1 up", "state 2 up", "state 3 up", "state 4 up", "state 5 up", "state 6 up", "state 7 up", "flows 0:0:0001000a80000c021064:1:2"):
        yield case
    yield "4,096 ports count, equal ones once; one more doesn't."
    yield sw1
    for case in ("ports «4096:№:№ »", "ports «4097:№:№ »", "ports «4095:№:№ »«4095:№:1 »5000:7 5001:8", "ports «4096:№:№ »1:9 4097:1"):
        yield case
    yield "65,536 flow entries count."
    for case in ("flows «65535:1:№:00010004:№:1 »", "flows «65535:1:№:00010004:№:1 »«9:2:№:00010004:№:2 »", "flows «65535:1:№:00010004:№:1 »«65535:1:№:00010004:7:7 »2:1:00010004:8:8 2:2:00010004:9:9"):
        yield case


def block_of(dp, case):
    kind, _, rest = case.partition(" ")
    if kind == "ports":
        return port_block(dp, ports_of(rest))
    if kind == "flows":
        return flow_block(dp, flows_of(rest))
    number, up = rest.split()
    return state_block(dp, int(number), up == "up")


# ---- the table


def cases():
    yield "The request of all flow entries.", None
    yield "request", request().hex()
    for data in parts():
        if isinstance(data, str):
            yield data, None
        else:
            yield "part " + data.hex(), told(data)
    dp = None
    for case in blocks():
        if isinstance(case, Dp):
            dp = case
            yield "dp %d %s" % (dp.ident, names(dp.name)), ""
            for number, name in dp.ports.items():
                yield "port %d %s" % (number, names(name)), ""
        elif case.split()[0] in ("ports", "flows", "state"):
            yield case, shown(block_of(dp, case))
        else:
            yield case, None


def repeated(line):
    """The line with a byte that comes 16 times or more in a row as the table of cases has it."""
    return re.sub(r"^(part .*?)$", lambda run: re.sub(r"(ff|00)\1{15,}", lambda r: "«%d:%s»" % (len(r[0]) // 2, r[1]), run[0]), line)


def main():
    answers = {"stdin": False, "stdout": True}[sys.argv[1]]
    for case, answer in cases():
        if answer is None:
            print("# " + case)
        elif answer == "":
            print(case)
        else:
            print(repeated(case) + (" => " + answer if answers else ""))


main()
