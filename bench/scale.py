"""Measures a stack of switches under `faucet replay`: see scale.sh, which calls it.

scale.py FOLDER SWITCHES HOSTS
"""
import os, resource, struct, subprocess, sys

sys.path.append(f"{os.path.dirname(os.path.abspath(__file__))}/../tools")
import openflow, program
from openflow import BARRIER_REPLY, FEATURES_REPLY, HEARD, HELLO, MULTIPART_REPLY, OPENED, PACKET_IN, RELOAD

FOLDER, SWITCHES, HOSTS = sys.argv[1], int(sys.argv[2]), int(sys.argv[3])
PORTS = 24


def configuration(without=0):
    """A star around the first switch; the port `without` of the second one is disabled."""
    lines = ["vlans: {100: {max_hosts: 16384}}", "dps:"]
    for dp in range(1, SWITCHES + 1):
        lines += [f"  sw{dp}:", f"    dp_id: {dp}", *["    stack: {priority: 1}"] * (dp == 1 < SWITCHES), "    interfaces:"]
        for port in range(1, PORTS + 1):
            off = ", enabled: false" if (dp, port) == (SWITCHES, without) else ""
            lines.append(f"      {port}: {{native_vlan: 100, max_hosts: 16384{off}}}")
        links = [(100 + far, f"sw{far}", 100) for far in range(2, SWITCHES + 1)] if dp == 1 else [(100, "sw1", 100 + dp)]
        lines += [f"      {port}: {{stack: {{dp: {far}, port: {there}}}}}" for port, far, there in links if SWITCHES > 1]
    return "\n".join(lines) + "\n"


def port(number):
    return struct.pack("!I4x6s2x16sIIIIIIII", number, b"\x02" + bytes(5), b"p", 0, 4, 0, 0, 0, 0, 0, 0)


def heard(dp, kind, xid, body=b""):
    return openflow.record(NOW, HEARD, dp, openflow.message(kind, xid, body))


def opening(dp):
    ports = [*range(1, PORTS + 1), *(range(102, 101 + SWITCHES) if dp == 1 else [100])] if SWITCHES > 1 else range(1, PORTS + 1)
    return b"".join([
        openflow.record(NOW, OPENED, dp), heard(dp, HELLO, 1), heard(dp, FEATURES_REPLY, 2, struct.pack("!QIBB2xII", dp, 256, 254, 0, 0x4F, 0)),
        heard(dp, MULTIPART_REPLY, 3, struct.pack("!HH4x", 13, 0) + b"".join(map(port, ports))), heard(dp, BARRIER_REPLY, 5),
    ])


def settled(told):
    """Replies to the barriers that are outstanding, until none is."""
    while True:
        held = program.Held(program.replay(CONFIG, told)[0])
        waits = b"".join(heard(dp, BARRIER_REPLY, xid) for dp, xid in held.barrier.items() if LAST.get(dp) != xid)
        if not waits:
            return told, held
        LAST.update(held.barrier)
        told += waits


def packet(number):
    """A frame of a new host at a port of a switch, and that switch."""
    dp, at = 1 + number % SWITCHES, 1 + number // SWITCHES % PORTS
    frame = b"\xff" * 6 + struct.pack("!HI", 0x0200, number) + struct.pack("!HHH", 0x8100, 100, 0x0800) + bytes(46)
    body = struct.pack("!IHBBQ", 0xFFFFFFFF, len(frame), 1, 3, 0x5ADC15C0) + openflow.match_bytes([("in_port", at, None)]) + bytes(2) + frame
    return dp, heard(dp, PACKET_IN, 0, body)


def learning(number):
    """A new host, and the replies to the batches that follow: of three entries at its switch, of one elsewhere."""
    dp, told = packet(number)
    for it in range(1, SWITCHES + 1):
        LAST[it] += 4 if it == dp else 2
        told += heard(it, BARRIER_REPLY, LAST[it])
    return told


def timed(told):
    """The least processor seconds of three replays, and what they say."""
    with open(f"{FOLDER}/told.rec", "wb") as out:
        out.write(told)
    took = []
    for _ in range(3):
        before = resource.getrusage(resource.RUSAGE_CHILDREN)
        said = subprocess.run([program.found(), "replay", CONFIG, f"{FOLDER}/told.rec"], check=True, capture_output=True).stdout
        after = resource.getrusage(resource.RUSAGE_CHILDREN)
        took.append(after.ru_utime + after.ru_stime - before.ru_utime - before.ru_stime)
    return min(took), said


def reloads():
    """The processor seconds of one reload that takes a port out or brings it back, by a recording with and without ten of them.
    Its hosts are learned in one batch for each switch, which takes little, so that the reloads are most of what is measured."""
    LAST.clear()
    told, _ = settled(b"".join(opening(dp) for dp in range(1, SWITCHES + 1)))
    told, _ = settled(told + b"".join(packet(number)[1] for number in range(HOSTS)))
    without, _ = timed(told)
    for it in range(10):
        text = configuration((it + 1) % 2).encode()
        told, _ = settled(told + openflow.record(NOW, RELOAD, 0, text))
    return (timed(told)[0] - without) / 10


NOW, LAST, CONFIG = 0, {}, f"{FOLDER}/faucet.yaml"
with open(CONFIG, "w") as out:
    out.write(configuration())
told, _ = settled(b"".join(opening(dp) for dp in range(1, SWITCHES + 1)))
first = HOSTS - HOSTS // 10
for number in range(first):
    told += learning(number)
before, _ = timed(told)
for number in range(first, HOSTS):
    told += learning(number)
whole, said = timed(told)
held = program.Held(said)
for dp, tables in held.tables.items():
    known = sum(it.table == 7 and it.priority == 10 for it in tables.entries.values())
    assert known == HOSTS and held.barrier[dp] == LAST[dp], (dp, known)
memory = resource.getrusage(resource.RUSAGE_CHILDREN).ru_maxrss
entries = sum(len(it.entries) for it in held.tables.values())
print(f"{SWITCHES} switches, {HOSTS} hosts, {entries} entries: at the end {HOSTS // 10 / (whole - before):.0f} hosts learned a second; a reload {1000 * reloads():.1f} ms; {memory // 1024} MB", flush=True)
