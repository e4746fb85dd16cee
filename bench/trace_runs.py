#!/usr/bin/env python3
"""Writes the runs of `trace` and `walk` among those of crates/test_runs: python3 bench/trace_runs.py stdin, or stdout.

Where packets go is worked out by a model of switches in one VLAN, with none of the program's code.
"""
import struct
import sys

USAGE = "usage: faucet check, plan, replay, serve, gauge, gauge-serve, bench, trace, walk, bgp or bgp-serve"
FRAME = "ffffffffffff0200000000010800"
BROADCAST = "ff:ff:ff:ff:ff:ff"
VID = 100
# LLDP, as the controller may tell of a stack port's end
LLDP, TOLD_FROM, TOLD_TO = "0180c200000e0e000000000188cc", "0e:00:00:00:00:01", "01:80:c2:00:00:0e"


def escaped(text):
    return text.replace("\\", "\\\\").replace("\n", "\\n").replace("\t", "\\t")


# ---- what a switch says


def message(kind, xid, body=b""):
    return struct.pack(">BBHI", 4, kind, 8 + len(body), xid) + body


def features(dp):
    return message(6, 2, struct.pack(">QIBBHII", dp, 256, 254, 0, 0, 0x4F, 0))


def port(number, up=True):
    return struct.pack(">I4x6s2x16sII24x", number, bytes([2, 0, 0, 1, 0, number]), b"", 0, 0 if up else 1)


def ports(numbers, down=()):
    return message(19, 3, struct.pack(">HH4x", 13, 0) + b"".join(port(n, n not in down) for n in numbers))


def goes_down(number):
    return message(12, 0, struct.pack(">B7x", 2) + port(number, False))


def learned(number, mac):
    """A PACKET_IN of table 3: this address came in by the port, with the VLAN's tag."""
    frame = bytes.fromhex("ffffffffffff" + mac.replace(":", "") + "81000064" + "88b5") + bytes(46)
    match = struct.pack(">HHIIHH", 1, 12, 0x80000004, number, 0, 0)
    return message(10, 0, struct.pack(">IHBBQ", 0xFFFFFFFF, len(frame), 1, 3, 0x5ADC15C0) + match + b"\0\0" + frame)


def settled(upto):
    """Replies to whatever barriers have been asked for; one that isn't awaited is passed over."""
    return b"".join(message(21, xid) for xid in range(5, upto))


class Recording:
    def __init__(self):
        self.bytes = b""

    def put(self, moment, kind, conn, piece=b""):
        self.bytes += struct.pack(">QBII", moment, kind, conn, len(piece)) + piece
        return self

    def says(self, conn, *messages):
        return self.put(0, 2, conn, b"".join(messages))

    def opens(self, conn, dp, numbers, down=()):
        return self.put(0, 1, conn).says(conn, message(0, 1), features(dp), ports(numbers, down))

    def rests(self, *conns):
        """Each batch changes what the others are to hold, so the replies come twice."""
        for _ in range(2):
            for conn in conns:
                self.says(conn, settled(70))
        return self


# ---- the model


class Network:
    """Datapaths by name: their identifiers, priorities and ports, `native`, `tagged` or the far end of a link."""

    def __init__(self, **dps):
        self.dps = {name: {"id": at + 1, "priority": dp.pop("priority", None), "ports": dp["ports"]}
                    for at, (name, dp) in enumerate(dps.items())}
        self.down, self.hosts = set(), {}

    def text(self):
        lines = ["vlans:", "  office:", "    vid: 100", "dps:"]
        for name, dp in self.dps.items():
            lines += [f"  {name}:", f"    dp_id: {dp['id']}"]
            lines += [f"    stack: {{priority: {dp['priority']}}}"] if dp["priority"] is not None else []
            lines += ["    interfaces:"]
            for number, kind in dp["ports"].items():
                value = {"native": "{native_vlan: office}", "tagged": "{tagged_vlans: [office]}"}.get(kind) or \
                    f"{{stack: {{dp: {kind[0]}, port: {kind[1]}}}}}"
                lines.append(f"      {number}: {value}")
        return "\n".join(lines) + "\n"

    def recording(self):
        made = Recording()
        for dp in self.dps.values():
            made.opens(dp["id"], dp["id"], list(dp["ports"]))
        return made.rests(*(dp["id"] for dp in self.dps.values()))

    def links(self, name):
        """Each link that is up: own port, and the far end."""
        for number, kind in self.dps[name]["ports"].items():
            if isinstance(kind, tuple) and (name, number) not in self.down and kind not in self.down:
                yield number, kind

    def distances(self, start):
        found, ring = {start: 0}, [start]
        while ring:
            ring = [far for name in ring for _, (far, _) in self.links(name) if far not in found and found.update({far: found[name] + 1}) is None]
        return found

    def toward(self, name, goal):
        """The link to a datapath one nearer: the first by its name, then by the own port."""
        far = self.distances(goal)
        if name not in far or name == goal:
            return None
        return min((end[0], number, end) for number, end in self.links(name) if far[end[0]] == far[name] - 1)

    def tree_ports(self, name):
        part = self.distances(name)
        root = min(part, key=lambda n: (self.dps[n]["priority"] is None, self.dps[n]["priority"] or 0, n))
        ends = set()
        for other in part:
            up = self.toward(other, root)
            if up:
                ends |= {(other, up[1]), up[2]}
        return sorted(number for owner, number in ends if owner == name)

    def members(self, name, kind):
        return [number for number, is_kind in sorted(self.dps[name]["ports"].items()) if is_kind == kind]

    def sends(self, name, number, src, dst):
        """What a datapath sends of a packet with the VLAN's tag: ports, with the tag or without it."""
        sent = []
        edge = not isinstance(self.dps[name]["ports"][number], tuple)
        if edge and self.hosts.get(src) != (name, number):
            sent.append(("controller", True))
        place = self.hosts.get(dst)
        if place and place[0] == name:
            return sent + [(place[1], place[1] in self.members(name, "tagged"))] * (place[1] != number)
        hop = self.toward(name, place[0]) if place else None
        if hop:
            return sent + [(hop[1], True)] * (hop[1] != number)
        tagged = sorted(self.members(name, "tagged") + self.tree_ports(name))
        return sent + [(q, True) for q in tagged if q != number] + [(q, False) for q in self.members(name, "native") if q != number]

    def line(self, out, tagged, src, dst, ttl):
        return f"{out} {VID if tagged else '-'} {src} {dst} {ttl}\n"

    def trace(self, name, number, src, dst, ttl="-"):
        return "".join(self.line(out, tagged, src, dst, ttl) for out, tagged in self.sends(name, number, src, dst))

    def walk(self, name, number, src, dst, ttl="-", left=64):
        text = ""
        for out, tagged in self.sends(name, number, src, dst) if left else []:
            kind = self.dps[name]["ports"].get(out)
            if isinstance(kind, tuple):
                text += self.walk(*kind, src, dst, ttl, left - 1) if (name, out) not in self.down and kind not in self.down else ""
            else:
                text += f"{name} " + self.line(out, tagged, src, dst, ttl)
        return text


# ---- the runs


class Runs:
    def __init__(self):
        self.input, self.output = [], []

    def put(self, line, *answer):
        self.input.append(line)
        self.output += [line + (answer[0] if answer else ""), *answer[1:]]

    def file(self, name, text):
        self.put(f"file {name} {escaped(text)}")

    def recording(self, name, made):
        self.put(f"hex {name} {made.bytes.hex() if isinstance(made, Recording) else made.hex()}")

    def run(self, words, code, out="", err=""):
        self.put(f"run {words}", f" => {code}", *(f" {name}: {escaped(text)}" for name, text in (("out", out), ("err", err)) if text))

    def refused(self, words, code, line):
        self.run(words, code, err=line + "\n")


def quick():
    return Network(sw1={"ports": {1: "native", 2: "native"}})


def ring():
    return Network(sw1={"priority": 1, "ports": {1: ("sw2", 1), 2: ("sw3", 1), 10: "native"}},
                   sw2={"ports": {1: ("sw1", 1), 2: ("sw3", 2), 10: "native"}},
                   sw3={"ports": {1: ("sw1", 2), 2: ("sw2", 2), 10: "native"}})


def one_switch(runs):
    runs.put("# `trace` and `walk` of one switch: what it sends, and whether it is ready")
    runs.put("no files")
    one = quick()
    runs.file("t.yaml", one.text())
    open_one = lambda: Recording().opens(1, 1, [1, 2])
    rested = open_one().says(1, message(21, 5)).says(1, message(21, 24))
    runs.recording("t.rec", rested)
    lines = one.trace("sw1", 1, "02:00:00:00:00:01", BROADCAST)
    assert lines == ("controller 100 02:00:00:00:00:01 ff:ff:ff:ff:ff:ff -\n2 - 02:00:00:00:00:01 ff:ff:ff:ff:ff:ff -\n")
    runs.run(f"trace t.yaml t.rec sw1 1 {FRAME}", 0, lines)
    runs.run(f"trace t.yaml t.rec sw1 1 {FRAME.upper()}", 0, lines)
    runs.run(f"trace t.yaml t.rec sw1 2 {FRAME}", 0, one.trace("sw1", 2, "02:00:00:00:00:01", BROADCAST))
    runs.run(f"walk t.yaml t.rec sw1 1 {FRAME}", 0, one.walk("sw1", 1, "02:00:00:00:00:01", BROADCAST))
    header = bytes.fromhex("4500001400004000" + "3f11" + "0000" + "0a000001" + "0a000002")
    ipv4 = "ffffffffffff020000000001" + "0800" + header.hex()
    runs.run(f"trace t.yaml t.rec sw1 1 {ipv4}", 0, one.trace("sw1", 1, "02:00:00:00:00:01", BROADCAST, "63"))
    ipv6 = "ffffffffffff020000000001" + "86dd" + "6000000000003b" + "01" + "fd" + "00" * 14 + "01" + "fd" + "00" * 14 + "02"
    for command, answer in (("trace", one.trace), ("walk", one.walk)):
        runs.run(f"{command} t.yaml t.rec sw1 1 {ipv6}", 0, answer("sw1", 1, "02:00:00:00:00:01", BROADCAST, "1"))
        runs.run(f"{command} t.yaml t.rec sw1 1 {ipv6[:-2]}", 0, answer("sw1", 1, "02:00:00:00:00:01", BROADCAST))
    runs.run(f"trace t.yaml t.rec sw1 1 ffffffffffff020000000001810000070800", 0)
    for name, made in (("batch", open_one().says(1, message(21, 5))), ("wipe", open_one()), ("greeting", Recording().put(0, 1, 1)), ("nothing", Recording()),
                       ("ended", open_one().says(1, message(21, 5)).says(1, message(21, 24)).put(0, 3, 1))):
        runs.recording(f"{name}.rec", made)
        for command in ("trace", "walk"):
            runs.refused(f"{command} t.yaml {name}.rec sw1 1 {FRAME}", 9, "t.yaml: sw1: NotReady")
    return rested


def where_it_comes_in(runs, rested):
    runs.put("# where the frame comes in, before the recording; then that, then whether the datapath is ready")
    for command in ("trace", "walk"):
        runs.refused(f"{command} t.yaml none.rec sw9 1 {FRAME}", 2, "t.yaml: dps.sw9: Unresolved")
        runs.refused(f"{command} t.yaml none.rec sw9 9 {FRAME}", 2, "t.yaml: dps.sw9: Unresolved")
        runs.refused(f"{command} t.yaml none.rec sw1 9 {FRAME}", 2, "t.yaml: dps.sw1.interfaces.9: Unresolved")
        runs.refused(f"{command} t.yaml none.rec sw1 4294967040 {FRAME}", 2, "t.yaml: dps.sw1.interfaces.4294967040: Unresolved")
        runs.refused(f"{command} t.yaml none.rec sw1 1 {FRAME}", 3, "none.rec: read fault")
        runs.refused(f"{command} none.yaml none.rec sw1 1 {FRAME}", 3, "none.yaml: read fault")
    runs.put("cut t.rec 250")
    runs.refused(f"trace t.yaml cut sw1 1 {FRAME}", 5, "recording: record 4: Cut")
    runs.refused(f"walk t.yaml cut sw1 1 {FRAME}", 5, "recording: record 4: Cut")
    runs.put("fail out 1")
    runs.run(f"trace t.yaml t.rec sw1 1 {FRAME}", 4)
    runs.put("fail room 20")
    runs.run(f"walk t.yaml t.rec sw1 1 {FRAME}", 4, quick().walk("sw1", 1, "02:00:00:00:00:01", BROADCAST)[:20])
    runs.put("fail err 1")
    runs.run(f"trace t.yaml wipe.rec sw1 1 {FRAME}", 4)
    runs.put("fail read 3")
    runs.refused(f"trace t.yaml t.rec sw1 1 {FRAME}", 3, "t.rec: read fault")


def reloads(runs):
    runs.put("# a reload that takes the datapath away, one that takes the port away, and one that is refused")
    gone = Network(sw2={"ports": {1: "native"}}).text().replace("dp_id: 1", "dp_id: 2")
    away = Network(sw1={"ports": {2: "native"}}).text()
    for name, text, answer in (("gone", gone, None), ("away", away, ""), ("bad", "dps: &a {}\n", quick().trace("sw1", 1, "02:00:00:00:00:01", BROADCAST))):
        made = Recording().opens(1, 1, [1, 2]).rests(1).put(0, 4, 0, text.encode()).rests(1)
        runs.recording(f"{name}.rec", made)
        if answer is None:
            runs.refused(f"trace t.yaml {name}.rec sw1 1 {FRAME}", 9, "t.yaml: sw1: NotReady")
            runs.refused(f"walk t.yaml {name}.rec sw1 1 {FRAME}", 9, "t.yaml: sw1: NotReady")
        else:
            runs.run(f"trace t.yaml {name}.rec sw1 1 {FRAME}", 0, answer)


def words(runs):
    runs.put("# words without a meaning")
    for command in ("trace", "walk"):
        for behind in ("", "t.yaml", "t.yaml t.rec sw1 1", f"t.yaml t.rec sw1 0 {FRAME}", f"t.yaml t.rec sw1 01 {FRAME}", f"t.yaml t.rec sw1 4294967041 {FRAME}",
                       f"t.yaml t.rec sw1 0x1 {FRAME}", f"t.yaml t.rec sw1 1 {FRAME}0", f"t.yaml t.rec sw1 1 {FRAME[:-2]}", f"t.yaml t.rec sw1 1 {FRAME[:-1]}g",
                       "t.yaml t.rec sw1 1 ffffffffffff02000000000181000064", "t.yaml t.rec sw1 1 ''", f"t.yaml t.rec sw1 1 {FRAME} x",
                       f"t.yaml t.rec sw1 1 {FRAME} --x=1"):
            runs.refused(f"{command} {behind}".strip(), 1, USAGE)


def networks(runs):
    runs.put("# a ring of three: nothing learned, a host that is known, one link down, both links of a datapath down")
    net = ring()
    runs.file("r.yaml", net.text())
    runs.recording("r.rec", net.recording())
    lines = net.walk("sw2", 10, "02:00:00:00:00:01", BROADCAST)
    assert lines == "".join(f"{at} 02:00:00:00:00:01 ff:ff:ff:ff:ff:ff -\n" for at in ("sw2 controller 100", "sw3 10 -", "sw1 10 -"))
    runs.run(f"walk r.yaml r.rec sw2 10 {FRAME}", 0, lines)
    for name in net.dps:
        runs.run(f"trace r.yaml r.rec {name} 10 {FRAME}", 0, net.trace(name, 10, "02:00:00:00:00:01", BROADCAST))
    runs.put("# LLDP from a stack port goes to the controller, with a tag as any other packet, and from an edge port nowhere")
    told = f"controller - {TOLD_FROM} {TOLD_TO} -\n"
    runs.run(f"trace r.yaml r.rec sw2 1 {LLDP}", 0, told)
    runs.run(f"walk r.yaml r.rec sw2 2 {LLDP}", 0, f"sw2 {told}")
    runs.run(f"walk r.yaml r.rec sw2 1 {LLDP[:24]}8100006488cc", 0, net.walk("sw2", 1, TOLD_FROM, TOLD_TO))
    runs.run(f"walk r.yaml r.rec sw2 10 {LLDP}", 0)
    runs.put("# the same ring")
    host = "02:00:00:00:00:33"
    made = ring().recording().says(3, learned(10, host)).rests(1, 2, 3)
    net.hosts[host] = ("sw3", 10)
    runs.recording("h.rec", made)
    to_host = host.replace(":", "") + FRAME[12:]
    for name in net.dps:
        runs.run(f"walk r.yaml h.rec {name} 10 {to_host}", 0, net.walk(name, 10, "02:00:00:00:00:01", host))
    from_host = FRAME[:12] + host.replace(":", "") + "0800"
    runs.run(f"walk r.yaml h.rec sw3 10 {from_host}", 0, net.walk("sw3", 10, host, BROADCAST))
    net = ring()
    net.down = {("sw1", 1), ("sw2", 1)}
    runs.recording("d.rec", ring().recording().says(1, goes_down(1)).says(2, goes_down(1)).rests(1, 2, 3))
    for name in net.dps:
        runs.run(f"walk r.yaml d.rec {name} 10 {FRAME}", 0, net.walk(name, 10, "02:00:00:00:00:01", BROADCAST))
    net.down |= {("sw2", 2), ("sw3", 2)}
    runs.recording("a.rec", ring().recording().says(2, goes_down(1), goes_down(2)).says(1, goes_down(1)).says(3, goes_down(2)).rests(1, 2, 3))
    for name in net.dps:
        runs.run(f"walk r.yaml a.rec {name} 10 {FRAME}", 0, net.walk(name, 10, "02:00:00:00:00:01", BROADCAST))

    runs.put("# who isn't ready: the first by name of those that links join to the datapath; others count for nothing")
    runs.recording("w.rec", ring().recording().says(3, goes_down(1)).rests(1, 2))
    one_down = ring()
    one_down.down = {("sw1", 2), ("sw3", 1)}
    runs.refused(f"walk r.yaml w.rec sw1 10 {FRAME}", 9, "r.yaml: sw3: NotReady")
    runs.run(f"trace r.yaml w.rec sw1 10 {FRAME}", 0, one_down.trace("sw1", 10, "02:00:00:00:00:01", BROADCAST))
    runs.refused(f"trace r.yaml w.rec sw3 10 {FRAME}", 9, "r.yaml: sw3: NotReady")
    runs.recording("busy.rec", ring().recording().says(3, learned(10, host)))
    runs.refused(f"walk r.yaml busy.rec sw3 10 {FRAME}", 9, "r.yaml: sw1: NotReady")
    runs.recording("two.rec", ring().recording().says(2, goes_down(1), goes_down(2)).says(1, goes_down(1)).says(3, goes_down(2)).rests(1, 3))
    runs.run(f"walk r.yaml two.rec sw1 10 {FRAME}", 0, net.walk("sw1", 10, "02:00:00:00:00:01", BROADCAST))
    runs.refused(f"walk r.yaml two.rec sw2 10 {FRAME}", 9, "r.yaml: sw2: NotReady")

    runs.put("# a line of four, and a tree with a tagged port")
    line = Network(a={"ports": {1: ("b", 1), 9: "native"}}, b={"ports": {1: ("a", 1), 2: ("c", 1)}},
                   c={"priority": 7, "ports": {1: ("b", 2), 2: ("d", 1), 9: "native"}}, d={"ports": {1: ("c", 2), 8: "native", 9: "tagged"}})
    tree = Network(core={"priority": 1, "ports": {1: ("east", 1), 2: ("west", 1), 5: "tagged"}}, east={"ports": {1: ("core", 1), 2: ("far", 1), 5: "native"}},
                   far={"ports": {1: ("east", 2), 5: "native", 6: "native"}}, west={"ports": {1: ("core", 2), 5: "native"}})
    for name, net, starts in (("l", line, (("a", 9), ("c", 9), ("d", 8))), ("x", tree, (("far", 5), ("west", 5), ("east", 5)))):
        runs.file(f"{name}.yaml", net.text())
        runs.recording(f"{name}.rec", net.recording())
        for start, number in starts:
            runs.run(f"walk {name}.yaml {name}.rec {start} {number} {FRAME}", 0, net.walk(start, number, "02:00:00:00:00:01", BROADCAST))


def main():
    runs = Runs()
    rested = one_switch(runs)
    where_it_comes_in(runs, rested)
    reloads(runs)
    words(runs)
    networks(runs)
    print("\n".join(runs.input if sys.argv[1] == "stdin" else runs.output))


if __name__ == "__main__":
    main()
