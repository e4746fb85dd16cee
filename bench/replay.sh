#!/usr/bin/env bash
# Measures `faucet replay`: a switch of quick start that runs and then sends so many frames (echo requests, barrier
# replies that nobody awaits, PORT_STATUS messages that change nothing), and a switch with 48 ports of which so
# many hosts are learned, one in each turn, each batch answered at once. Prints turns a second and the most memory
# of the process; checks nothing.
# Usage: bench/replay.sh [FRAMES [HOSTS [PROGRAM]]]    FRAMES is 100000 and HOSTS 1000 else; PROGRAM is another one than bin/faucet
set -eu
top=$(cd "$(dirname "$0")/.." && pwd)
frames=${1:-100000}
hosts=${2:-1000}
work=$(mktemp -d)
trap 'rm -rf "$work"' EXIT
program=${3:-$top/bin/faucet}
"$program" plan "$top/examples/quick-start/faucet.yaml" sw1 >/dev/null

awk 'BEGIN {
  print "vlans: {100: {max_hosts: 16384}}\ndps:\n  sw1:\n    dp_id: 1\n    interfaces:"
  for (p = 1; p <= 48; p++) printf "      %d: {native_vlan: 100, max_hosts: 16384}\n", p
}' >"$work/ports.yaml"

python3 - "$top" "$work" "$frames" "$hosts" "$program" <<'RUN'
import resource, struct, subprocess, sys, time

top, work, frames, hosts = sys.argv[1], sys.argv[2], int(sys.argv[3]), int(sys.argv[4])
program = sys.argv[5]


def record(moment, kind, conn, body=b""):
    return struct.pack(">QBII", moment, kind, conn, len(body)) + body


def message(kind, xid, body=b""):
    return struct.pack(">BBHI", 4, kind, 8 + len(body), xid) + body


def port(number):
    return struct.pack(">I4x6s2x16sIIIIIIII", number, b"\x02\0\0\0\0" + bytes([number]), b"p", 0, 4, 0, 0, 0, 0, 0, 0)


def opening(conf, ports):
    """The records of a switch that is opened, and the transaction id of its last barrier."""
    plan = subprocess.run([program, "plan", conf, "sw1"], capture_output=True, check=True).stdout
    adds, at = -3, 0
    while at < len(plan):
        at, adds = at + struct.unpack_from(">H", plan, at + 2)[0], adds + 1
    said = [
        message(0, 1),
        message(6, 2, struct.pack(">QIBB2xII", 1, 256, 254, 0, 0x4F, 0)),
        message(19, 3, struct.pack(">HH4x", 13, 0) + b"".join(port(i) for i in range(1, ports + 1))),
        message(21, 5),
        message(21, 6 + adds),
    ]
    return record(0, 1, 1) + b"".join(record(0, 2, 1, m) for m in said), 6 + adds


def run(name, conf, recording, turns):
    with open(work + "/said.rec", "wb") as out, open(work + "/happened.rec", "wb") as told:
        told.write(recording)
        told.flush()
        start = time.perf_counter()
        status = subprocess.run([program, "replay", conf, told.name], stdout=out).returncode
        seconds = time.perf_counter() - start
    kib = resource.getrusage(resource.RUSAGE_CHILDREN).ru_maxrss
    print(f"{name}: status {status}, {turns} turns in {seconds:.2f} s, {turns / seconds:.0f} a second, {kib} KiB at most")


quick, _ = opening(top + "/examples/quick-start/faucet.yaml", 2)
kinds = [message(2, 7, b"abcd"), message(21, 7), message(12, 0, struct.pack(">B7x", 2) + port(1))]
run("frames", top + "/examples/quick-start/faucet.yaml", quick + b"".join(record(0, 2, 1, kinds[i % 3]) for i in range(frames)), frames)

learned, xid = opening(work + "/ports.yaml", 48)
pieces = []
for i in range(hosts):
    number = 1 + i % 48
    frame = b"\xff" * 6 + struct.pack(">HI", 0x0200, i) + struct.pack(">HHH", 0x8100, 100, 0x0800) + b"\0" * 46
    match = struct.pack(">HHII4x", 1, 12, 0x80000004, number)
    xid += 4
    pieces.append(record(i, 2, 1, message(10, 0, struct.pack(">IHBBQ", 0xFFFFFFFF, len(frame), 1, 3, 0x5ADC15C0) + match + b"\0\0" + frame)))
    pieces.append(record(i, 2, 1, message(21, xid)))
run("hosts", work + "/ports.yaml", learned + b"".join(pieces), 2 * hosts)
RUN
