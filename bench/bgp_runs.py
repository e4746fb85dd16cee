#!/usr/bin/env python3
"""Writes the runs of the BGP speaker among those of crates/test_runs: python3 bench/bgp_runs.py stdin, or stdout.

What the speaker says, its records and which routes it has is worked out by the model of bgp_cases.py, with none of the program's
code; which routes stand in a text, by hand.
"""
import sys

from bgp_cases import KEEPALIVE, NOTIFICATION, OPEN, ROUTE, UPDATE, Driven, escaped, message, opening, prefixes, record, shown_ip, update

USAGE = "usage: faucet check, plan, replay, serve, gauge, gauge-serve, bench, trace, walk, bgp or bgp-serve\n"
HOP = "10.0.100."


def document(routes=(), first="", bgp=True, last=""):
    """A configuration in its canonical form, with these routes of its VLAN."""
    lines = ["vlans:", "  office:", "    vid: 100", "    faucet_vips:", '      - "10.0.100.254/24"']
    lines += ["    routes:"] if routes else []
    for dst, gw in routes:
        lines += ["      -", "        route:", f'          ip_dst: "{dst}"', f'          ip_gw: "{gw}"']
    lines += ["dps: {}", "routers:", "  edge:"]
    peer = ["as: 65001", "neighbor_as: 65002", "neighbor_addresses: []", "server_addresses: []", 'routerid: "1.1.1.1"', "vlan: office"]
    lines += ["    bgp:", *["      " + line for line in peer]] if bgp else ["    vlans:", "      - office"]
    return first + "".join(line + "\n" for line in lines) + last


def with_routes(routes):
    """Those whose next hop lies in the VLAN's network and is no address of ours."""
    shown = [("%s/%d" % (shown_ip(ip), length), shown_ip(hop)) for (ip, length), hop in sorted(routes.items())]
    return document([(dst, hop) for dst, hop in shown if hop.startswith(HOP) and hop != HOP + "254"])


def rows(records):
    """One by one, as they are printed."""
    found = []
    while records:
        length = 17 + int.from_bytes(records[13:17], "big")
        found.append("  " + records[:length].hex())
        records = records[length:]
    return found


class Run:
    """The speaker over a story: its records, its lines, and what the hub is told."""

    def __init__(self):
        self.speaker, self.records, self.err, self.hub, self.closed = Driven(with_routes), b"", "", [], set()

    def takes(self, word):
        # A hub in memory gives nothing more of a connection that was closed on it.
        if word.split(":")[0] in self.closed:
            return
        self.hub.append(" hub gave a turn")
        said, records = self.speaker.turn(word)
        self.records += records
        for piece in said:
            what, rest = piece.split(" ", 1)
            if what == "close":
                self.closed.add(rest.split(" ")[0])
                self.hub.append("  closed " + rest.split(" ")[0])
            elif what == "conn":
                self.err += piece + "\n"
            else:
                self.hub.append(f"  said {what[:-1]} {rest}")

    def written(self, last=""):
        err = self.err + last
        out = [f" out, {len(self.records)} bytes:", *rows(self.records)] if self.records else []
        return out + ([f" err: {escaped(err)}"] if err else [])


class Runs:
    def __init__(self):
        self.input, self.output, self.name, self.count = [], [], "r.rec", -1

    def put(self, line, *answer):
        line = line.replace("r.rec", self.name)
        self.input.append(line)
        self.output += [line + (answer[0] if answer else ""), *answer[1:]]

    def refused(self, words, code, line):
        self.put(f"run {words}", f" => {code}", f" err: {escaped(line)}")

    def recorded(self, records, tail=b""):
        """A recording with a name of its own, since the first file of a name counts, and the run of the speaker over it. A connection that the speaker closed stays open in the recording."""
        run, moment, shut = Run(), 0, set()
        for at, kind, conn, data in records:
            if at > moment or kind == 5:
                run.takes(f"at:{at}")
            moment = at
            open_before = run.speaker.conn
            if kind == 1:
                shut.discard(conn)
                run.takes(f"open:{conn}")
            elif kind in (2, 3) and conn not in shut:
                run.takes(f"{conn}:{data.hex()}" if kind == 2 else f"end:{conn}")
            shut |= {it for it in (open_before, conn) if it and f"conn {it}: Bgp" in run.err}
        spelled = [record(*told).hex() for told in records]
        self.count += 1
        self.name = f"r{self.count or ''}.rec"
        self.put("hex r.rec " + "".join(spelled + ([tail.hex()] if tail else [])))
        return run

    def bgp(self, records):
        run = self.recorded(records)
        self.put("run bgp f.yaml edge r.rec", " => 0", *run.written())

    def served(self, turns, words, code, last="", events=None):
        names = {"open": "opened", "end": "closed", "at": "moment"}
        spelled = []
        for turn in turns:
            what, _, rest = turn.partition(":")
            spelled.append(turn if what == "fail" else f"{names.get(what, 'heard:' + what)}:{rest}")
        self.put("hub " + " ".join(spelled))
        run = Run()
        for turn in [it for it in turns if not it.startswith("fail")][:events]:
            run.takes(turn)
        self.put(f"run {words}", f" => {code}", *run.written(last), *run.hub)


ESTABLISHED = [(0, 1, 1, b""), (0, 2, 1, message(OPEN, opening()) + message(KEEPALIVE))]


def announced(*networks):
    return message(UPDATE, update(b"", ROUTE, prefixes(*networks)))


def withdrawn(*networks):
    return message(UPDATE, update(prefixes(*networks)))


def runs():
    r = Runs()
    r.put("")
    r.put("# a BGP peer, on recordings: records of what its speaker says and of NOTIFICATIONs that end connections, and texts with its routes")
    r.put("no files")
    r.put(f"file f.yaml {escaped(document())}")
    r.bgp([(0, 1, 1, b"")])
    one = announced("172.16.0.0/16")
    r.put("# a route, the same again, and the end of the connection; the end alone would not be told where there is no route")
    r.bgp(ESTABLISHED + [(5, 2, 1, one), (7, 2, 1, one), (9, 3, 1, b"")])
    r.bgp(ESTABLISHED + [(9, 3, 1, b"")])
    r.put("# two routes in one message, of which one goes; one whose next hop is elsewhere; cut bytes")
    r.bgp(ESTABLISHED + [(5, 2, 1, announced("192.0.2.0/24", "172.16.0.0/16")), (6, 2, 1, withdrawn("172.16.0.0/16")), (7, 2, 1, withdrawn("192.0.2.0/24"))])
    away = ROUTE[:-1] + b"\xfe"
    r.bgp(ESTABLISHED + [(5, 2, 1, message(UPDATE, update(b"", away, prefixes("172.16.0.0/16")))), (6, 2, 1, one[:30]), (7, 2, 1, one[30:])])
    r.put("# an OPEN of another number, a NOTIFICATION, a further connection, and a peer that falls silent")
    r.bgp([(0, 1, 1, b""), (3, 2, 1, message(OPEN, opening(asn=65003))), (4, 2, 1, message(KEEPALIVE)), (5, 3, 1, b"")])
    r.bgp(ESTABLISHED + [(5, 2, 1, one), (6, 2, 1, message(NOTIFICATION, b"\6\4") + one), (7, 3, 1, b"")])
    r.bgp(ESTABLISHED + [(5, 1, 2, b""), (6, 2, 2, message(OPEN, opening())), (7, 2, 1, one), (8, 3, 2, b"")])
    r.bgp([(0, 1, 1, b""), (0, 2, 1, message(OPEN, opening(hold=9)) + message(KEEPALIVE) + one), (2999, 5, 0, b""), (3000, 5, 0, b""), (8999, 5, 0, b""), (9000, 5, 0, b""), (9001, 1, 2, b"")])
    r.put("# a configuration in the recording is passed over")
    r.bgp(ESTABLISHED + [(5, 4, 0, b"a: [\n"), (6, 2, 1, one)])
    r.put("# a record that is refused behind these, and a recording that isn't there")
    told = ESTABLISHED + [(5, 2, 1, one)]
    run = r.recorded(told, tail=b"\0")
    r.put("run bgp f.yaml edge r.rec", " => 5", *run.written(f"recording: record {len(told) + 1}: Cut\n"))
    r.refused("bgp f.yaml edge gone", 3, "gone: read fault\n")
    r.put("# no peer to speak with: the configuration, the router, its peer, room for routes")
    r.refused("bgp gone edge r.rec", 3, "gone: read fault\n")
    r.put(f"file bad.yaml {escaped(document().replace('1.1.1.1', '0.0.0.0'))}")
    r.refused("bgp bad.yaml edge r.rec", 2, "bad.yaml: routers.edge.bgp.routerid: OutOfRange\n")
    r.refused("bgp f.yaml core r.rec", 2, "f.yaml: routers.core: Unresolved\n")
    r.refused("bgp f.yaml Edge r.rec", 2, "f.yaml: routers.Edge: Unresolved\n")
    r.put(f"file none.yaml {escaped(document(bgp=False))}")
    r.refused("bgp none.yaml edge r.rec", 2, "none.yaml: routers.edge.bgp: Missing\n")

    def long(more):
        # An ACL that nothing attaches, with a rule whose description fills the document up.
        rule = "acls:\n  f:\n    -\n      rule:\n        description: %s\n        actions: {}\n"
        fill = 900_000 - len(document()) - len(rule % "") + more
        return escaped(document(last=rule % "@")).replace("@", f"«{fill}:x»")
    r.put(f"file long.yaml {long(1)}")
    r.refused("bgp long.yaml edge r.rec", 2, "long.yaml: TooMany Text\n")
    r.refused("bgp long.yaml core r.rec", 2, "long.yaml: routers.core: Unresolved\n")
    r.put(f"file full.yaml {long(0)}")
    run = r.recorded([(0, 1, 1, b"")])
    r.put("run bgp full.yaml edge r.rec", " => 0", *run.written())
    r.put("# writes that fail: a front stands")
    told = ESTABLISHED + [(9, 3, 1, b"")]
    run = r.recorded(told)
    r.put("fail out 1")
    r.put("run bgp f.yaml edge r.rec", " => 4")
    r.put("fail err 1")
    r.put("run bgp f.yaml edge r.rec", " => 4", *run.written()[:-1])
    r.put("# words")
    for words in ("bgp", "bgp f.yaml", "bgp f.yaml edge", "bgp f.yaml edge r.rec x", "bgp f.yaml edge r.rec --events 1", "bgp-serve", "bgp-serve f.yaml --events 1",
                  "bgp-serve f.yaml edge", "bgp-serve f.yaml edge --events 0", "bgp-serve f.yaml edge r.rec --events 1", "bgp-serve f.yaml edge --events 1 --reload-ms 100",
                  "bgp-serve f.yaml edge --events 1 --listen 127.0.0.1"):
        r.refused(words, 1, USAGE)
    r.put("# on hubs in memory: it says on the connections, and its records stand before the last line")
    live = ["open:1", "1:" + (message(OPEN, opening()) + message(KEEPALIVE)).hex(), "1:" + one.hex(), "open:2", "at:29999", "at:30000", "1:" + withdrawn("172.16.0.0/16").hex(), "end:1"]
    r.served(live, "bgp-serve f.yaml edge --events 9", 0)
    r.served(live, "bgp-serve f.yaml edge --events=3", 7, "events spent\n", 3)
    r.served(["open:1", "1:" + message(OPEN, opening(version=3)).hex(), "1:" + one.hex()], "bgp-serve --events 9 f.yaml edge", 0)
    r.served(live[:2] + ["fail:3"], "bgp-serve f.yaml edge --events 9", 6, "hub fault\n")
    r.put("poller fails")
    r.put("run bgp-serve f.yaml edge --events 3", " => 6", " err: hub fault\\n")
    r.put("# the hub isn't asked")
    r.put("hub opened:1")
    r.refused("bgp-serve f.yaml core --events 3", 2, "f.yaml: routers.core: Unresolved\n")
    r.put("hub opened:1")
    r.refused("bgp-serve gone edge --events 3", 3, "gone: read fault\n")
    return r


if __name__ == "__main__":
    made = runs()
    print("\n".join(made.input if sys.argv[1:] == ["stdin"] else made.output))
