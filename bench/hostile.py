"""Runs the program on what is made of real input by chance: see hostile.sh, which calls it.

hostile.py PROGRAM EXAMPLES FOLDER COUNT SEED   FOLDER is an empty folder for files
"""
import atexit
import collections
import glob
import os
import random
import resource
import signal
import socket
import statistics
import struct
import subprocess
import sys
import time

import one_vlan
from gauge_cases import HELLO, features, field, flow, flows, stats, status, upto

PROGRAM, EXAMPLES, FOLDER = sys.argv[1:4]
COUNT, SEED = int(sys.argv[4]), int(sys.argv[5])
CONFIGURATION = f"{EXAMPLES}/quick-start/faucet.yaml"
RECORDING = f"{EXAMPLES}/quick-start/switch.rec"
GAUGES = f"{EXAMPLES}/monitoring/gauge.yaml", f"{EXAMPLES}/gauge/gauge.yaml"
PORT = int(os.environ.get("PORT", "7655"))
ONLY = os.environ.get("ONLY", "").split()
MOST_MEMORY = 64 * 1024  # KB

# ---- what chance makes


def turned(chance, data):
    for _ in range(1 + chance.randrange(8)):
        data[chance.randrange(len(data))] ^= 1 << chance.randrange(8)


def cut(chance, data):
    del data[chance.randrange(len(data)):]


def dropped(chance, data):
    at = chance.randrange(len(data))
    del data[at:at + 1 + chance.randrange(16)]


def repeated(chance, data):
    at, times = chance.randrange(len(data)), 1 + chance.randrange(4)
    data[at:at] = data[at:at + 1 + chance.randrange(64)] * times


def moved(chance, data):
    at, to = chance.randrange(len(data)), chance.randrange(len(data))
    piece = data[at:at + 1 + chance.randrange(64)]
    data[to:to] = piece


def numbered(chance, data):
    """Two or four bytes become a number at an edge, as lengths are."""
    size = chance.choice((2, 4))
    at = chance.randrange(len(data))
    data[at:at + size] = chance.choice((0, 1, 7, 8, 9, 255, 65_535, 65_536, 2 ** 31, 2 ** 32 - 1)).to_bytes(8, "big")[8 - size:]


def mutated(chance, data):
    data = bytearray(data)
    for _ in range(1 + chance.randrange(3)):
        if data:
            chance.choice((turned, cut, dropped, repeated, moved, numbered))(chance, data)
    return bytes(data)


# ---- runs that end by themselves


def run(words):
    """The status, the seconds and the memory in KB of a run."""
    start = time.time()
    process = subprocess.Popen([PROGRAM] + words, stdout=subprocess.DEVNULL, stderr=subprocess.DEVNULL)
    try:
        _, status, usage = os.wait4(process.pid, 0)
    except BaseException:
        process.kill()
        raise
    return os.waitstatus_to_exitcode(status), time.time() - start, usage.ru_maxrss


def kept(kind, number, data):
    """The name of a file beside the caller with what a run was made on."""
    name = f"{kind}-{SEED}-{number}"
    with open(name, "wb") as file:
        file.write(data)
    return name


def frames_of(stream):
    """How many messages a stream has, by the lengths in their headers, up to the first that has none."""
    count = 0
    while len(stream) >= 8:
        length = struct.unpack("!H", stream[2:4])[0]
        if length < 8:
            break
        stream, count = stream[length:], count + 1
    return count


def heard(recording):
    """How many messages the connections of a recording bring, as far as it can be read."""
    said, rest = collections.defaultdict(bytes), recording
    while len(rest) >= 17:
        kind, conn, length = rest[8], rest[9:13], struct.unpack("!I", rest[13:17])[0]
        if kind == 2:
            said[conn] += rest[17:17 + length]
        rest = rest[17 + length:]
    return sum(map(frames_of, said.values()))


def runs(kind, sources, words_of, statuses, chance):
    counts, times, most, slowest, holds, frames = collections.Counter(), [], 0, (0, 0, b""), True, 0
    name = f"{FOLDER}/{kind}"
    for number in range(COUNT):
        data = mutated(chance, sources[number % len(sources)])
        frames += heard(data) if "recording" in kind else 0
        with open(name, "wb") as file:
            file.write(data)
        status, seconds, memory = run(words_of(name))
        counts[status] += 1
        times.append(seconds)
        most, slowest = max(most, memory), max(slowest, (seconds, number, data))
        if status not in statuses or memory > MOST_MEMORY:
            holds = False
            print(f"{kind} {number}: status {status}, {memory} KB; see {kept(kind, number, data)}")
    median = statistics.median(times)
    if slowest[0] > max(10 * median, 1):
        holds = False
        print(f"{kind} {slowest[1]}: {slowest[0]:.2f} s; see {kept(kind, slowest[1], slowest[2])}")
    ways = ", ".join(f"{count} with {status}" for status, count in sorted(counts.items()))
    heard_of = f" of {frames} messages" if frames else ""
    print(f"{kind}: {COUNT} runs{heard_of}, {ways}; median {1000 * median:.1f} ms, longest {1000 * slowest[0]:.1f} ms, at most {most} KB")
    return holds


def read(name):
    with open(name, "rb") as file:
        return file.read()


def files(pattern):
    return [read(name) for name in sorted(glob.glob(pattern, recursive=True))]


def write(name, data):
    """The path of a new file in the folder."""
    with open(f"{FOLDER}/{name}", "wb") as file:
        file.write(data)
    return f"{FOLDER}/{name}"


# ---- streams


def spoken(recording):
    """The bytes that a recording's connections brought, in order."""
    said, rest = b"", recording
    while rest:
        kind, length = rest[8], struct.unpack("!I", rest[13:17])[0]
        if kind == 2:
            said += rest[17:17 + length]
        rest = rest[17 + length:]
    return said


def spoken_each(recordings):
    """The bytes of each connection of recordings, in order."""
    said = collections.defaultdict(bytes)
    for number, rest in enumerate(recordings):
        while rest:
            kind, conn, length = rest[8], rest[9:13], struct.unpack("!I", rest[13:17])[0]
            if kind == 2:
                said[number, conn] += rest[17:17 + length]
            rest = rest[17 + length:]
    return list(said.values())


# ---- what Gauge hears

WATCHED = """vlans: {office: {vid: 100}}
dps: {sw1: {dp_id: 0x1, hardware: "Open vSwitch", interfaces: {1: {name: host1, native_vlan: office}, 2: {name: host2, native_vlan: office}}}}
"""
GAUGE = """faucet_configs: [faucet.yaml]
watchers:
    links: {type: port_state, all_dps: true, dbs: [text, metrics]}
    ports: {type: port_stats, all_dps: true, dbs: [text, metrics], interval: 10}
    entries: {type: flow_table, all_dps: true, dbs: [text, metrics], interval: 10}
dbs: {text: {type: text, file: told.log}, metrics: {type: prometheus, prometheus_port: 9303}}
"""
# matches of each length that a field of flow statistics may have
MATCHES = b"", field(0, b"\0\0\0\1"), field(3, b"\1\2\3\4\5\6"), field(5, b"\x08\0") + field(11, b"\x0a\0\0\0", b"\xff\0\0\0"), field(6, b"\x10\x64")


def replies(polls):
    """A switch that Gauge watches: what it says first, and its answers to so many polls, each in parts."""
    yield HELLO + features(1)
    for poll in range(polls):
        entries = [flow(number % 9, 100 + number, number, 64 * number, MATCHES[number % len(MATCHES)]) for number in range(30)]
        for kind in range(2):
            xid = 3 + 2 * poll + kind
            yield stats(xid, [(number, upto(poll)) for number in (1, 2)])
            yield flows(xid, entries[:17], True)
            yield flows(xid, entries[17:])
        yield status(2, 1 + poll % 2, 0, poll % 2)


def record(moment, kind, conn, piece=b""):
    return struct.pack("!QBII", moment, kind, conn, len(piece)) + piece


def watched(polls):
    """The same as a recording: the clock goes on by an interval behind each poll's answers."""
    told = list(replies(polls))
    records = [record(0, 1, 1), record(0, 2, 1, told[0])]
    for number, piece in enumerate(told[1:]):
        records.append(record(1000 + 10_000 * (number // 7) + number, 2, 1, piece))
    return b"".join(records)


# ---- what a datapath of a ring hears: LLDP from its neighbours, and IPv6 (RFC 8200; RFC 4443; RFC 4861)

RING = f"{EXAMPLES}/ring/faucet.yaml"
LLDP = bytes.fromhex("0180c200000e0e000000000188cc" "0209070000000000000002" "0405070000000a" "0602000f" "0000")
ENDS = bytes.fromhex("fd000000000000000000000000000001" "ff0200000000000000000001ff0000fe")
SOLICITATION = bytes.fromhex("87007b9f00000000" "fd0000000000000000000000000000fe" "0101020000000001")
OPTIONS = bytes.fromhex("3a00010400000000")
BODIES = (58, SOLICITATION), (58, b"\x88" + SOLICITATION[1:]), (58, b"\x80\0\xf3\x1c\0\1\0\1abcdefgh"), (6, b"\3\xe8\0\x50" + bytes(16)), (17, b"\0\x36\0\x35\0\x0b\0\0abc"), (0, OPTIONS + SOLICITATION)


def frames6():
    """Tagged frames of so many hosts, each whole, then without its last byte, and with its header cut."""
    for number, (proto, body) in enumerate(BODIES, 1):
        front = bytes.fromhex("3333ff0000fe0200000000") + bytes([number]) + bytes.fromhex("8100006486dd")
        header = struct.pack("!IHBB", 6 << 28, len(body), proto, (255, 64, 1)[number % 3]) + ENDS
        frame = front + header + body
        yield from (frame, frame[:-1], frame[:57])


def stacked():
    """A recording of the ring's first datapath, whose switch hands these on."""
    told = [one_vlan.HELLO, one_vlan.features(1), one_vlan.descriptions([1, 10, 11]), one_vlan.barrier_reply(5)]
    told += [one_vlan.packet_in(10 + number % 2, LLDP, 1) for number in range(4)]
    told += [one_vlan.packet_in(1, frame) for frame in frames6()] + [one_vlan.port_status(10, 1), one_vlan.packet_in(11, LLDP, 1)]
    return record(0, 1, 1) + b"".join(record(100 * number, 2, 1, piece) for number, piece in enumerate(told))


# ---- what a datapath with gateways of both families hears: those who ask for them, answer them and want others (RFC 4861)

ROUTED = f"{EXAMPLES}/dual-stack/faucet.yaml"
NEIGHBOUR, GATEWAY, WANTED, GROUP = (socket.inet_pton(socket.AF_INET6, text) for text in ("2001:db8:0:200::9", "2001:db8:0:200::fe", "2001:db8:0:100::7", "ff02::1:ff00:fe"))


def checksum(data):
    total = sum(struct.unpack(f"!{len(data) // 2}H", data))
    while total >> 16:
        total = (total & 0xFFFF) + (total >> 16)
    return struct.pack("!H", total ^ 0xFFFF)


def message6(to, group, hops, body):
    """A tagged frame of ICMPv6 with a right checksum."""
    body = body[:2] + checksum(NEIGHBOUR + group + struct.pack("!II", len(body), 58) + body) + body[4:]
    header = struct.pack("!IHBB", 6 << 28, len(body), 58, hops) + NEIGHBOUR + group
    return bytes.fromhex(to) + bytes.fromhex("020000000009" "810000c8" "86dd") + header + body


def routed():
    """A recording of the core's switch, which hands on what counts of neighbours and what is to be routed, again and again."""
    link = bytes.fromhex("020000000009")
    ask = message6("3333ff0000fe", GROUP, 255, b"\x87\0" + bytes(6) + GATEWAY + b"\1\1" + link)
    answer = message6("0e0000002001", GATEWAY, 255, b"\x88\0\0\0\x60\0\0\0" + NEIGHBOUR + b"\2\1" + link)
    echo = message6("0e0000002001", GATEWAY, 64, b"\x80\0\0\0\0\1\0\1abcdefgh")
    want = message6("0e0000002001", WANTED, 64, b"\x80\0\0\0\0\1\0\1abcdefgh")
    told = [one_vlan.HELLO, one_vlan.features(1), one_vlan.descriptions([1, 2, 24]), one_vlan.barrier_reply(5)]
    for _ in range(3):
        told += [one_vlan.packet_in(2, frame, table) for frame, table in ((ask, 6), (answer, 6), (echo, 6), (want, 5))]
    return record(0, 1, 1) + b"".join(record(1000 * number, 2, 1, piece) for number, piece in enumerate(told))


# ---- peers of BGP

PEERED = f"{EXAMPLES}/bgp/faucet.yaml"
OPEN = bytes([255] * 16) + struct.pack("!HBBHHI", 29, 1, 4, 65002, 90, 0x0A006402) + b"\0"


def peers(streams, chance):
    """Says streams to `bgp-serve`, one behind the other; then a peer has to be greeted."""
    words = [PROGRAM, "bgp-serve", PEERED, "between", "--events", "1000000000", "--listen", f"127.0.0.1:{PORT}"]
    server = subprocess.Popen(words, stdout=subprocess.DEVNULL, stderr=open(f"{FOLDER}/said", "w"))

    def end():
        if server.poll() is None:
            server.kill()
        server.wait()

    atexit.register(end)
    time.sleep(1)
    ended = sum(send(mutated(chance, streams[number % len(streams)]), chance) for number in range(COUNT))
    time.sleep(1)
    with connect() as peer:
        peer.sendall(OPEN)
        greeted = peer.recv(19)[:16] == bytes([255] * 16)
    memory = int(open(f"/proc/{server.pid}/status").read().split("VmHWM:")[1].split()[0])
    holds = server.poll() is None and greeted and memory <= MOST_MEMORY
    end()
    print(f"peers: {COUNT} streams, of which bgp-serve ended {ended}; the next peer is {'greeted' if greeted else 'NOT greeted'}, at most {memory} KB")
    return holds


def long():
    """What a switch of quick start's says where 40 hosts talk for long, with their ports going down and up: some 3,000 messages."""
    told = [one_vlan.HELLO, one_vlan.features(1), one_vlan.descriptions([1, 2, 3]), one_vlan.barrier_reply(5)]
    for number in range(3000):
        frame = bytes.fromhex("ffffffffffff") + bytes.fromhex("0200000000") + bytes([1 + number % 40]) + bytes.fromhex("0800") + bytes(46)
        told.append(one_vlan.port_status(1 + number % 3, 1 + number // 100 % 2) if number % 100 == 99 else one_vlan.packet_in(1 + number % 3, frame))
    return b"".join(told)


def connect():
    return socket.create_connection(("127.0.0.1", PORT), timeout=10)


def is_answered(switch):
    """Whether an echo request of a connection is answered. What comes before is passed over."""
    switch.sendall(struct.pack("!BBHI", 4, 2, 8, 77))
    came = b""
    while True:
        while len(came) >= 8 and len(came) >= struct.unpack("!H", came[2:4])[0]:
            length = struct.unpack("!H", came[2:4])[0]
            if came[1] == 3 and came[4:8] == struct.pack("!I", 77):
                return True
            came = came[length:]
        piece = switch.recv(1 << 16)
        if not piece:
            return False
        came += piece


def send(stream, chance):
    """Says a stream in pieces, and reads what is there; whether the other side ended it."""
    with connect() as stranger:
        stranger.settimeout(0.02)
        try:
            while stream:
                length = 1 + chance.randrange(2000)
                stranger.sendall(stream[:length])
                stream = stream[length:]
            while stranger.recv(1 << 16):
                pass
            return True
        except socket.timeout:
            return False
        except OSError:
            return True


def streams(command, file, stream, chance):
    words = [PROGRAM, command, file, "--events", "1000000000", "--listen", f"127.0.0.1:{PORT}"]
    server = subprocess.Popen(words, stdout=subprocess.DEVNULL, stderr=open(f"{FOLDER}/said", "w"))

    def end():
        if server.poll() is None:
            server.kill()
        server.wait()

    atexit.register(end)
    switch = None
    for _ in range(100):
        try:
            switch = connect()
            break
        except OSError:
            time.sleep(0.1)
    # it says its HELLO alone, so that the datapath is free for those who say what the recording's switch said
    switch.sendall(struct.pack("!BBHI", 4, 0, 8, 1))
    if not is_answered(switch):
        return False
    ended = slow = frames = 0
    for number in range(COUNT):
        said = mutated(chance, stream)
        frames += frames_of(said)
        ended += send(said, chance)
        if number % 100 == 0:
            start = time.time()
            if not is_answered(switch):
                print(f"{command}: stream {number}: the switch isn't answered")
                return False
            slow = max(slow, time.time() - start)
    if server.poll() is not None:
        print(f"{command} ended with status {server.returncode}")
        return False
    answered = is_answered(switch)
    status = open(f"/proc/{server.pid}/status").read()
    memory = int(status.split("VmHWM:")[1].split()[0])
    end()
    print(f"streams: {COUNT} of {frames} messages, of which {command} ended {ended}; slowest answer to the switch {1000 * slow:.1f} ms, at most {memory} KB")
    return answered and memory <= MOST_MEMORY


def main():
    resource.setrlimit(resource.RLIMIT_CORE, (0, 0))
    chance = random.Random(SEED)
    print(f"seed {SEED}, {COUNT} of each")
    gauge, told = write("gauge.yaml", GAUGE.encode()), write("watched.rec", watched(3))
    write("faucet.yaml", WATCHED.encode())
    kinds = {
        "file": lambda: runs("file", files(f"{EXAMPLES}/**/*.yaml"), lambda name: ["check", name], (0, 2, 3), chance),
        "recording": lambda: runs("recording", files(f"{EXAMPLES}/**/*.rec"), lambda name: ["replay", CONFIGURATION, name], (0, 5), chance),
        "serve": lambda: streams("serve", CONFIGURATION, spoken(read(RECORDING)), chance),
        "long-serve": lambda: streams("serve", CONFIGURATION, long(), chance),
        "stack-recording": lambda: runs("stack recording", [stacked()], lambda name: ["replay", RING, name], (0, 5), chance),
        "stack-serve": lambda: streams("serve", RING, spoken(stacked()), chance),
        "routed-recording": lambda: runs("routed recording", [routed()], lambda name: ["replay", ROUTED, name], (0, 5), chance),
        "routed-serve": lambda: streams("serve", ROUTED, spoken(routed()), chance),
        "bgp-recording": lambda: runs("bgp recording", files(f"{EXAMPLES}/bgp/*.rec"), lambda name: ["bgp", PEERED, "between", name], (0, 5), chance),
        "bgp-serve": lambda: peers(spoken_each(files(f"{EXAMPLES}/bgp/*.rec")), chance),
        "gauge-file": lambda: runs("gauge file", [GAUGE.encode(), *map(read, GAUGES)], lambda name: ["gauge", name, told], (0, 2, 3), chance),
        "gauge-recording": lambda: runs("gauge recording", [read(told), *files(f"{EXAMPLES}/gauge/*.rec")], lambda name: ["gauge", gauge, name], (0, 5), chance),
        "gauge-serve": lambda: streams("gauge-serve", gauge, b"".join(replies(3)), chance),
    }
    holds = [kinds[kind]() for kind in ONLY or kinds]
    return 0 if all(holds) else 1


if __name__ == "__main__":
    signal.signal(signal.SIGTERM, lambda *_: sys.exit("stopped"))
    sys.exit(main())
