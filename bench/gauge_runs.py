#!/usr/bin/env python3
"""Writes the runs of Gauge among those of crates/test_runs: python3 bench/gauge_runs.py stdin, or stdout.

The answers are worked out by the model of gauge_cases.py, with none of the program's code.
"""
import struct
import sys

from gauge_cases import HELLO, PROM, Gauge, escaped, features, flow, flows, stats, status, upto

FAUCET = ("{vlans: {office: {vid: 100}}, dps: {sw1: {dp_id: 0x1, hardware: \"Open vSwitch\", interfaces: "
          "{1: {name: host1, native_vlan: office}, 2: {name: host2, native_vlan: office}}}}}")
GAUGE = ("{faucet_configs: [f.yaml], watchers: {ports: {type: port_state, all_dps: true, db: s}, stats: {type: port_stats, "
         "dps: [sw1], dbs: [p, q], interval: 10}}, dbs: {p: {type: text, file: p.log}, q: {type: text, file: q.log}, "
         "s: {type: text, file: s.log}}}")
DPS = {1: ("sw1", {1: "host1", 2: "host2"})}
WATCHERS = [{"name": "ports", "type": "port_state", "dps": [1], "files": ["s.log"], "interval": 30},
            {"name": "stats", "type": "port_stats", "dps": [1], "files": ["p.log", "q.log"], "interval": 10}]
FLOWS = ("{faucet_configs: [f.yaml], watchers: {entries: {type: flow_table, all_dps: true, dbs: [m, f], interval: 10}, ports: {type: port_state, "
         "dps: [sw1], db: m}, stats: {type: port_stats, dps: [sw1], db: m}}, dbs: {f: {type: text, file: f.log}, m: {type: prometheus, "
         "prometheus_addr: localhost, prometheus_port: 9303}}}")
FLOW_WATCHERS = [{"name": "entries", "type": "flow_table", "dps": [1], "files": [PROM, "f.log"], "interval": 10},
                 {"name": "ports", "type": "port_state", "dps": [1], "files": [PROM], "interval": 30},
                 {"name": "stats", "type": "port_stats", "dps": [1], "files": [PROM], "interval": 30}]


class Runs:
    def __init__(self):
        self.input, self.output = [], []

    def put(self, line, *answer):
        self.input.append(line)
        self.output += [line + (answer[0] if answer else ""), *answer[1:]]

    def refused(self, words, code, line):
        self.put(f"run {words}", f" => {code}", *([f" err: {escaped(line)}"] if line else []))

    def written(self, out, err):
        return [f" {name}: {escaped(text)}" for name, text in (("out", out), ("err", err)) if text]

    def records(self, name, turns, tail=b""):
        parts = []
        for moment, kind, conn, piece in turns:
            parts.append(struct.pack(">QBII", moment, kind, conn, len(piece)).hex() + (" " + piece.hex() if piece else ""))
        self.put(f"hex {name} " + " ".join(parts + ([tail.hex()] if tail else [])))

    def story(self, turns):
        """What happens by these records, as the model's words."""
        last, story = 0, []
        for moment, kind, conn, piece in turns:
            if moment > last or kind == 5:
                story.append(["moment", str(moment)])
            last = moment
            if kind == 1:
                story.append(["open", str(conn)])
            elif kind == 2:
                story.append(["bytes", str(conn), piece.hex()])
            elif kind == 3:
                story.append(["end", str(conn)])
        return story

    def told(self, story, watchers=WATCHERS):
        """Standard output, lines on standard error, and what the hub was told, turn by turn."""
        gauge, out, err, hub = Gauge(DPS, watchers), "", "", []
        for words in story:
            said, lines = gauge.turn(words)
            out += "".join(lines)
            hub.append(" hub gave a turn")
            for one in said:
                what, rest = one.split(" ", 1)
                if what == "line":
                    err += rest + "\n"
                elif what == "send":
                    hub.append("  said " + rest)
                else:
                    hub.append("  closed " + rest.split(" ")[0])
        return out, err, hub

    def hub(self, turns, words, code, last="", events=None, watchers=WATCHERS):
        names = {"open": "opened", "bytes": "heard", "end": "closed", "moment": "moment"}
        self.put("hub " + " ".join(":".join([names.get(t[0], t[0]), *t[1:]]) for t in turns))
        story = [t for t in turns if t[0] != "fail"][:events]
        out, err, hub = self.told(story, watchers)
        self.put(f"run {words}", f" => {code}", *self.written(out, err + last), *hub)


def runs():
    r = Runs()
    r.put("")
    r.put("# Gauge, on recordings: the lines of what switches told stand on standard output, and what it says goes nowhere")
    r.put("no files")
    r.put(f"file f.yaml {FAUCET}")
    r.put(f"file g.yaml {GAUGE}")
    begun = [(0, 1, 1, b""), (0, 2, 1, HELLO), (0, 2, 1, features(1))]
    told = begun + [(10000, 2, 1, stats(4, [(1, upto(1))])), (10000, 2, 1, status(2, 2, 1)), (20500, 3, 1, b"")]
    r.records("r.rec", told)
    out, err, _ = r.told(r.story(told))
    r.put("run gauge g.yaml r.rec", " => 0", *r.written(out, err))
    r.put("# flow tables, and blocks for Prometheus")
    r.put(f"file flow.yaml {FLOWS}")
    entries = begun + [(10000, 2, 1, flows(5, [flow(0, 1, 5, 320)], True)), (10000, 2, 1, status(2, 1, 0, 1)), (10000, 2, 1, stats(4, [(1, upto(1))])),
                       (10001, 2, 1, flows(5, [flow(7, 10, 6, 330, bytes.fromhex("8000000400000001"))])), (10002, 2, 1, flows(5, [flow(0, 1, 5, 320)[:-1]]))]
    r.records("flow.rec", entries)
    out, err, _ = r.told(r.story(entries), FLOW_WATCHERS)
    r.put("run gauge flow.yaml flow.rec", " => 0", *r.written(out, err))
    out, err, _ = r.told(r.story(told))
    r.put("# a record that is refused behind these, a recording that isn't there, and files that fail")
    r.records("cut.rec", told, b"\0")
    r.put("run gauge g.yaml cut.rec", " => 5", *r.written(out, err + f"recording: record {len(told) + 1}: Cut\n"))
    r.refused("gauge g.yaml gone", 3, "gone: read fault\n")
    r.refused("gauge gone r.rec", 3, "gone: read fault\n")
    r.put(f"file far.yaml {GAUGE.replace('f.yaml', 'nofile.yaml')}")
    r.refused("gauge far.yaml r.rec", 3, "nofile.yaml: read fault\n")
    r.put("file both.yaml {faucet_configs: [f.yaml], watchers: {w: {type: port_stats, dps: [sw1], db: p, dbs: [p]}}, dbs: {p: {type: text, file: p.log}}}")
    r.refused("gauge both.yaml r.rec", 2, "both.yaml: watchers.w: Conflict 2\n")
    r.put("file influx.yaml {faucet_configs: [f.yaml], watchers: {w: {type: flow_table, dps: [sw1], db: p}}, dbs: {p: {type: influx, file: p.log}}}")
    r.refused("gauge influx.yaml r.rec", 2, "influx.yaml: dbs.p.type: LeftOut\n")
    r.put("file other.yaml {faucet_configs: [f.yaml], watchers: {w: {type: port_stats, dps: [sw9], db: p}}, dbs: {p: {type: text, file: p.log}}}")
    r.refused("gauge other.yaml r.rec", 2, "other.yaml: watchers.w.dps.0: Unresolved\n")
    r.put("file bad.yaml {faucet_configs: [tab.yaml], watchers: {}, dbs: {}}")
    r.put("file tab.yaml a: 1\\n\\tb: 2\\n")
    r.refused("gauge bad.yaml r.rec", 2, "tab.yaml: line 2: Tab\n")
    r.put("# the first of what is refused in the file that it names has Gauge's file in front")
    r.put("file empty.yaml {}")
    r.put("file void.yaml {faucet_configs: [empty.yaml], watchers: {}, dbs: {}}")
    r.refused("gauge void.yaml r.rec", 2, "void.yaml: dps: Missing\n")
    r.put("# writes that fail: a front stands")
    r.put("fail out 1")
    r.put("run gauge g.yaml r.rec", " => 4")
    r.put("fail room 30")
    r.put("run gauge g.yaml r.rec", " => 4", *r.written(out[:30], ""))
    r.put("fail err 1")
    r.put("run gauge g.yaml r.rec", " => 4", *r.written(out, ""))
    r.put("# words")
    for words in ("gauge", "gauge g.yaml", "gauge g.yaml r.rec x", "gauge g.yaml r.rec --events 1", "gauge-serve", "gauge-serve g.yaml",
                  "gauge-serve g.yaml --events 0", "gauge-serve g.yaml r.rec --events 1", "gauge-serve g.yaml --events 1 --reload-ms 100",
                  "gauge-serve g.yaml --events 1 --listen 127.0.0.1"):
        r.refused(words, 1, "usage: faucet check, plan, replay, serve, gauge, gauge-serve, bench, trace, walk, bgp or bgp-serve\n")
    r.put("# Gauge on hubs in memory: it polls on the connections, and its lines stand before the last one")
    live = [["open", "1"], ["bytes", "1", (HELLO + features(1)).hex()], ["bytes", "1", stats(3, [(1, upto(1)), (2, upto(101))]).hex()],
            ["moment", "9999"], ["moment", "10000"], ["bytes", "1", stats(3, [(1, upto(9))]).hex()],
            ["bytes", "1", (status(1, 2) + stats(4, [(9, [2 ** 64 - 1] * 12)])).hex()], ["end", "1"]]
    r.hub(live, "gauge-serve g.yaml --events 9", 0)
    r.hub(live, "gauge-serve g.yaml --events=5", 7, "events spent\n", 5)
    r.hub(live[:2] + [["bytes", "1", flows(3, [flow(0, 1, 5, 320)]).hex()], ["bytes", "1", status(2, 2, 1).hex()], ["moment", "10000"],
                      ["bytes", "1", (flows(3, []) + flows(5, []) + stats(4, [(2, upto(7))])).hex()], ["bytes", "1", flows(9, [b"\0"]).hex()]],
          "gauge-serve flow.yaml --events 9", 0, watchers=FLOW_WATCHERS)
    r.hub(live[:2] + [["fail", "3"]], "gauge-serve g.yaml --events 9", 6, "hub fault\n")
    r.hub([["open", "1"], ["bytes", "1", (HELLO + features(7)).hex()]], "gauge-serve --events 2 g.yaml", 7, "events spent\n", 2)
    r.put("poller fails")
    r.put("run gauge-serve g.yaml --events 3", " => 6", " err: hub fault\\n")
    r.put("# the hub isn't asked")
    r.put("hub opened:1")
    r.refused("gauge-serve both.yaml --events 3", 2, "both.yaml: watchers.w: Conflict 2\n")
    r.put("hub opened:1")
    r.refused("gauge-serve far.yaml --events 3", 3, "nofile.yaml: read fault\n")
    return r


if __name__ == "__main__":
    made = runs()
    print("\n".join(made.input if sys.argv[1:] == ["stdin"] else made.output))
