"""Cuts a recording into segments that come twice, overlap, and are out of order, and holds what tools/pcap2rec makes of them against
the recording: see test.sh.

test_segments.py RECORDING
"""
import os, random, struct, subprocess, sys

import openflow, tables

HERE = os.path.dirname(os.path.abspath(__file__))
SWITCH, CONTROLLER = bytes([198, 51, 100, 1]), bytes([192, 0, 2, 1])
FIN, SYN, RST, ACK = 1, 2, 4, 16


def packet(moment, seq, flags, data=b"", port=40000, back=False):
    ends = (CONTROLLER, SWITCH) if back else (SWITCH, CONTROLLER)
    ports = (6653, port) if back else (port, 6653)
    tcp = struct.pack("!HHIIBBHHH", *ports, seq & 0xFFFFFFFF, 0, 5 << 4, flags, 1000, 0, 0) + data
    ip = struct.pack("!BBHHHBBH4s4s", 0x45, 0, 20 + len(tcp), 0, 0, 64, 6, 0, *ends)
    frame = bytes(12) + b"\x08\x00" + ip[:10] + struct.pack("!H", tables.checksum(ip)) + ip[12:] + tcp
    return moment, struct.pack("<IIII", int(moment), int(moment % 1 * 1e6), len(frame), len(frame)) + frame


def recorded(packets):
    front = struct.pack("<IHHiIII", 0xA1B2C3D4, 2, 4, 0, 0, 262144, 1)
    with open("made.pcap", "wb") as out:
        out.write(front + b"".join(data for _, data in packets))
    ran = subprocess.run([f"{HERE}/pcap2rec", "made.pcap"], capture_output=True)
    with open("made.rec", "wb") as out:
        out.write(ran.stdout)
    with open("made.rec", "rb") as source:
        return list(openflow.records(source)), ran.stderr.decode(), ran.returncode


random.seed(5)
with open(sys.argv[1], "rb") as source:
    data = b"".join(piece for _, kind, _, piece in openflow.records(source) if kind == openflow.HEARD)
for first in (1000, 0xFFFFFFFF - 300):
    for _ in range(4):
        cuts = sorted(random.sample(range(len(data)), 30)) + [len(data)]
        pieces = [(at, data[at : min(len(data), end + random.choice([0, 0, 9]))]) for at, end in zip([0, *cuts], cuts)]
        # Neighbours change places, and some come twice.
        pieces = sorted(pieces + random.sample(pieces, 10), key=lambda it: it[0] + random.randrange(200))
        packets = [packet(10, first, SYN), packet(10, 7, SYN | ACK, back=True), packet(10, first + 1, ACK)]
        packets += [packet(10.05 + 0.01 * n, first + 1 + at, ACK, piece) for n, (at, piece) in enumerate(pieces)]
        packets += [packet(11.5, first + 1 + len(data), FIN | ACK), packet(11.6, first + 1 + len(data), FIN | ACK)]
        packets.insert(4, packet(10, 5, ACK, b"x", port=50000))
        records, said, status = recorded(packets)
        assert status == 0 and "198.51.100.1:50000: open before" in said, said
        assert b"".join(it[3] for it in records if it[1] == openflow.HEARD) == data
        assert [it[1] for it in records if it[1] in (openflow.OPENED, openflow.ENDED)] == [openflow.OPENED, openflow.ENDED]
        moments = [it[0] for it in records]
        assert moments == sorted(moments)
        clock = [it[0] for it in records if it[1] == openflow.MOMENT]
        assert clock == list(range(clock[0], clock[-1] + 1, 100)) and clock[-1] > moments[-1] - 100
# A segment that is missing: what stands behind it is left out, and that is said.
records, said, _ = recorded([packet(1, 0, SYN), packet(1, 1, ACK, data[:20]), packet(1.2, 31, ACK, data[30:])])
assert b"".join(it[3] for it in records if it[1] == openflow.HEARD) == data[:20] and "bytes are missing" in said, said
# A reset ends it, and the same port opens anew.
records, _, _ = recorded([packet(1, 0, SYN), packet(1, 1, ACK), packet(2, 1, RST), packet(3, 500, SYN), packet(3, 501, ACK, b"abc")])
assert [it[1:3] for it in records if it[1] != openflow.MOMENT] == [(1, 1), (3, 1), (1, 2), (2, 2)], records
print("told: 8 captures of 40 segments")
