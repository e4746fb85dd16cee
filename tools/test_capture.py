"""Holds captures of a live run against what a replay says: see test.sh, which calls it in a network namespace of its own.

test_capture.py FOLDER   two Open vSwitches with hosts, as bench/live.py has them, under `faucet serve`; tcpdump captures what goes over
                         the wire. What the capture becomes by tools/pcap2rec is replayed, and has to say what went over the wire, connection
                         by connection, for as long as nothing falls due between two moments; what differs by time is named
"""
import os, signal, subprocess, sys, time

TOOLS = os.path.dirname(os.path.abspath(__file__))
sys.path.append(f"{TOOLS}/../bench")
import live, openflow, program

FOLDER = sys.argv[1]
CAPTURE = f"{FOLDER}/live.pcap"


def messages(path):
    """What is said on each connection, message by message."""
    said = {}
    with open(path, "rb") as source:
        for moment, kind, conn, data in openflow.records(source):
            if kind == openflow.SAID:
                said.setdefault(conn, []).append((moment, data))
    return said


def captured():
    """A run of some seconds: switches set up, hosts are learned, a port goes down."""
    watch = subprocess.Popen(["tcpdump", "-i", "lo", "-U", "-s", "0", "-w", CAPTURE, f"tcp port {live.PROGRAM_AT}"], stderr=subprocess.DEVNULL)
    live.until("a capture", lambda: os.path.exists(CAPTURE) and os.path.getsize(CAPTURE) >= 24)
    text = live.CONFIGURATION.replace("VLAN_OF_H4", "lab")
    for switch in STAGE.switches.values():
        switch.connect()
    STAGE.begin(text)
    STAGE.filled()
    time.sleep(1)
    STAGE.all_reach()
    time.sleep(2)
    STAGE.hosts["h3"].ask("ip", "link", "set", "eth0", "down")
    live.until("a host at a port that is down is forgotten", lambda: not STAGE.switches[2].knows(STAGE.hosts["h3"]))
    time.sleep(1)
    STAGE.controller.kill()
    time.sleep(1)
    watch.send_signal(signal.SIGINT)
    watch.wait()


def differing(wire, told):
    """The first message in which two lists differ, by number, or none."""
    at = next((n for n, (a, b) in enumerate(zip(wire, told)) if a[1] != b[1]), min(len(wire), len(told)))
    return None if at == len(wire) == len(told) else at


STAGE = live.Stage(program.found(), FOLDER)
captured()
with open(f"{FOLDER}/live.rec", "wb") as out:
    subprocess.run([f"{TOOLS}/pcap2rec", "--port", str(live.PROGRAM_AT), "--said", f"{FOLDER}/wire.said", CAPTURE], stdout=out, check=True)
with open(f"{FOLDER}/replay.said", "wb") as out:
    subprocess.run([program.found(), "replay", STAGE.controller.file, f"{FOLDER}/live.rec"], stdout=out, check=True)
wire, told = messages(f"{FOLDER}/wire.said"), messages(f"{FOLDER}/replay.said")
assert wire.keys() <= told.keys() and len(wire) >= 2, (wire.keys(), told.keys())
same, count = 0, 0
for conn in sorted(wire):
    at = differing(wire[conn], told[conn])
    count += len(wire[conn])
    same += len(wire[conn]) if at is None else at
    if at is not None:
        print(f"connection {conn}: from message {at + 1} of {len(wire[conn])}")
        for where, said in (("wire", wire[conn]), ("replay", told[conn])):
            print(f"    {where}: {f'{said[at][0]} ms {openflow.NAMES.get(openflow.kind_of(said[at][1]))} {openflow.flow_mod_text(said[at][1]) if openflow.kind_of(said[at][1]) == openflow.FLOW_MOD else str()}' if at < len(said) else 'nothing more'}")
print(f"told: {same} of {count} messages on {len(wire)} connections are the same in order, byte by byte")
