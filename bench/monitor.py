"""Has Prometheus watch a real switch by gauge-serve: see monitor.sh, which calls it in a network namespace of its own.

monitor.py PROGRAM FOLDER TOP PICTURE   FOLDER is an empty folder for files, TOP the checkout, PICTURE where the picture of
                                        the dashboard is put
"""
import atexit, collections, glob, json, os, re, signal, socket, struct, subprocess, sys, time, urllib.parse, urllib.request

import gauge, live, panels
from live import done, frames, run, until

EVENTS = 100_000
# Where node_exporter and Prometheus listen, on 127.0.0.1.
EXPORTER_AT, PROMETHEUS_AT = 9100, 9090
# The seconds between two polls, between two scrapes, and over which the picture's rates are taken.
INTERVAL, SCRAPE, RATE = 2, 2, 10
VARIABLES = {"__rate_interval": f"{RATE}s", "datapath": ".*"}
HOSTS = {"h1": [(1, 1)], "h2": [(1, 2)]}
NAMED = {1: "host1", 2: "host2"}
ADD = 0

SCRAPES = """
global: {scrape_interval: %ds, scrape_timeout: %ds}
scrape_configs:
    - job_name: switches
      static_configs: [{targets: ["127.0.0.1:%d"]}]
"""
# One poll on each connection.
ENTRIES = """
faucet_configs: [%s]
watchers:
    entries: {type: flow_table, all_dps: true, interval: 86400, dbs: [lines, blocks]}
dbs:
    lines: {type: text, file: lines}
    blocks: {type: prometheus}
"""


def begin(*words, **more):
    """Starts a program, which ends with this one."""
    process = subprocess.Popen(words, **more)

    def end():
        process.kill()
        process.wait()

    atexit.register(end)
    return process


def write(file, text):
    with open(file, "w") as out:
        out.write(text)


# ---- switches


def load(switch, bridge, plan):
    """Tells a bridge the messages of a plan, over its own socket, and returns how many entries they add."""
    told = [frame for kind, frame in frames(plan) if kind == live.FLOW_MOD]
    with socket.socket(socket.AF_UNIX) as wire:
        wire.settimeout(30)
        wire.connect(f"{switch.folder}/{bridge}.mgmt")
        wire.sendall(struct.pack("!BBHI", 4, live.HELLO, 8, 0) + b"".join(told) + struct.pack("!BBHI", 4, live.BARRIER_REQUEST, 8, 0xFFFFFF))
        heard = b""
        while live.BARRIER_REPLY not in [kind for kind, _ in frames(heard)]:
            heard += wire.recv(65536) or sys.exit("the bridge ended its connection")
    refused = [frame for kind, frame in frames(heard) if kind == live.ERROR]
    assert not refused, refused
    return sum(frame[25] == ADD for frame in told)


def tables(switch, bridge):
    """How many entries, packets and bytes each table has, as ovs-ofctl tells them."""
    said = run("ovs-ofctl", "--protocols=OpenFlow13", "dump-flows", bridge, env=switch.environment())
    sums = collections.defaultdict(lambda: [0, 0, 0])
    for table, packets, size in re.findall(r"table=(\d+), n_packets=(\d+), n_bytes=(\d+)", said):
        for place, value in enumerate((1, int(packets), int(size))):
            sums[table][place] += value
    return dict(sums)


def told_by(switch):
    return gauge.dumped(switch, NAMED), tables(switch, "br1")


# ---- Gauge, and what stands behind it


def serve(program, file, switch, **more):
    words = [program, "gauge-serve", file, "--events", str(EVENTS), "--listen", f"{switch.here}:{live.SWITCHES_AT}"]
    return begin(*words, **more)


def ask(path, **words):
    """What Prometheus answers."""
    url = f"http://127.0.0.1:{PROMETHEUS_AT}/api/v1/{path}?{urllib.parse.urlencode(words)}"
    # No proxy that the environment names.
    with urllib.request.build_opener(urllib.request.ProxyHandler({})).open(url, timeout=10) as answer:
        told = json.load(answer)
    assert told["status"] == "success" and not told.get("warnings"), told
    return told["data"]["result"]


def is_ready():
    try:
        return any(it["value"][1] == "1" for it in ask("query", query="up"))
    except OSError:
        return False


class Watch:
    """gauge-serve, and behind it tools/textfile, node_exporter and Prometheus."""

    def __init__(self, program, folder, top, switch):
        self.file = f"{folder}/textfiles/faucet.prom"
        os.mkdir(f"{folder}/textfiles")
        with open(f"{top}/examples/monitoring/gauge.yaml", encoding="utf-8") as text:
            example = text.read()
        # The example's file, but for where its configuration stands, and its intervals.
        adapted = example.replace("../", f"{top}/examples/").replace("interval: 15", f"interval: {INTERVAL}")
        assert adapted.count(f"interval: {INTERVAL}\n") == 2, adapted
        write(f"{folder}/gauge.yaml", adapted)
        self.said = open(f"{folder}/said", "w")
        self.gauge = serve(program, f"{folder}/gauge.yaml", switch, stdout=subprocess.PIPE, stderr=self.said)
        self.keeper = begin(f"{top}/tools/textfile", "--interval", str(INTERVAL), self.file, stdin=self.gauge.stdout)
        # So that each sees where the other ends.
        self.gauge.stdout.close()
        quiet = {"stdout": subprocess.DEVNULL, "stderr": open(f"{folder}/logs", "w")}
        self.exporter = begin("prometheus-node-exporter", "--collector.disable-defaults", "--collector.textfile", f"--collector.textfile.directory={folder}/textfiles", f"--web.listen-address=127.0.0.1:{EXPORTER_AT}", **quiet)
        write(f"{folder}/prometheus.yml", SCRAPES % (SCRAPE, SCRAPE, EXPORTER_AT))
        self.prometheus = begin("prometheus", f"--config.file={folder}/prometheus.yml", f"--storage.tsdb.path={folder}/prometheus", f"--web.listen-address=127.0.0.1:{PROMETHEUS_AT}", **quiet)
        until("Prometheus scrapes", is_ready)

    def is_well(self):
        """All run, and Gauge had nothing to say of a connection."""
        for process in (self.gauge, self.keeper, self.exporter, self.prometheus):
            assert process.poll() is None, process.args
        assert not open(self.said.name).read(), open(self.said.name).read()
        assert [it["value"][1] for it in ask("query", query="node_textfile_scrape_error")] == ["0"]
        assert [it["value"][1] for it in ask("query", query=f"min_over_time(up[{int(time.time() - self.since)}s])")] == ["1"]


def hold_what_promtool_says(watch):
    """promtool reads the file; what it remarks on names is told."""
    text = open(watch.file, "rb").read()
    ran = subprocess.run(["promtool", "check", "metrics"], input=text, capture_output=True, timeout=30)
    remarks = (ran.stdout + ran.stderr).decode().splitlines()
    # 3 where there are remarks, 1 where it can't be read.
    assert ran.returncode in (0, 3) and not any("error while" in it for it in remarks), (ran.returncode, remarks)
    metrics, samples = text.count(b"# TYPE "), sum(not line.startswith(b"#") for line in text.splitlines())
    assert metrics == len(gauge.NAMES) + 3, text
    done(f"promtool reads the file of {len(text)} bytes, {metrics} metrics and {samples} samples without an error; {len(remarks)} remarks:")
    print(*(f"    {it}" for it in remarks), sep="\n", flush=True)


def values_of(*labels, query):
    """The values of an answer, each by these labels of it."""
    return {tuple(it["metric"][label] for label in labels): float(it["value"][1]) for it in ask("query", query=query)}


def hold_the_counters(watch, switch):
    """While nothing is sent, Prometheus has what ovs-ofctl tells of ports and of tables."""
    before, tells = None, told_by(switch)
    while tells != before:
        # Hosts ask for each other once more some seconds behind their last packet.
        time.sleep(3 * INTERVAL)
        before, tells = tells, told_by(switch)
    ports, flows = tells
    expected = {("sw1", port, f"of_port_{name}"): float(value) for port, values in ports.items() for name, value in values}
    held = values_of("dp_name", "port_name", "__name__", query='{__name__=~"of_port_.*",__name__!="of_port_state"}')
    assert held == expected, sorted(set(held.items()) ^ set(expected.items()))
    assert sum(value > 0 for value in expected.values()) > 8
    done(f"while nothing is sent, {len(held)} values of {len(ports)} ports are those of ovs-ofctl dump-ports")
    asked = ("count by (dp_name, table) (of_flow_packets)", "sum by (dp_name, table) (of_flow_packets)", "sum by (dp_name, table) (of_flow_bytes)")
    for place, query in enumerate(asked):
        expected = {("sw1", table): float(values[place]) for table, values in flows.items()}
        held = values_of("dp_name", "table", query=query)
        assert held == expected and sum(held.values()) > 0, (query, held, expected)
    entries = ", ".join(f"{table}: {values[0]}" for table, values in sorted(flows.items()))
    done(f"and entries, packets and bytes of each table are those of ovs-ofctl dump-flows: entries by table {entries}")


def traffic(watch, hosts):
    """What the picture shows: packets at three rates, and a port that goes down and comes up."""
    h1, h2 = hosts["h1"], hosts["h2"]
    h1.reaches(h2.address)
    assert h1.asked("ping", h2.address, 150, 0.1) >= 149
    assert h1.asked("ping", h2.address, 600, 0.025) >= 599
    h2.ask("ip", "link", "set", "eth0", "down")
    h1.asked("ping", h2.address, 50, 0.1)
    h2.ask("ip", "link", "set", "eth0", "up")
    until("the file has the state of a port that is up", lambda: re.search(r'^of_port_state\{.*port_name="host2"\} 1$', open(watch.file).read(), re.M), 10)
    hold_what_promtool_says(watch)
    h1.reaches(h2.address)
    assert h1.asked("ping", h2.address, 300, 0.05) >= 299
    states = {it["metric"]["port_name"]: [float(value) for _, value in it["values"]] for it in ask("query", query=f"of_port_state[{int(time.time() - watch.since)}s]")}
    assert list(states) == ["host2"] and states["host2"][-1] == 1 and 0 in states["host2"], states
    done("Prometheus was told that a port went down and came up")


def hold_the_panels(watch, top, picture):
    """Each query of the dashboard is answered, and the picture is drawn of the answers."""
    end = int(time.time())
    answered, count, points = [], 0, 0
    for panel in panels.panels_of(f"{top}/examples/monitoring/dashboard.json"):
        series = []
        for target in panel["targets"]:
            query = panels.query(target, VARIABLES)
            assert ask("query", query=query), f"{panel['title']}: nothing is answered to {query}"
            found = ask("query_range", query=query, start=watch.since, end=end, step=INTERVAL)
            assert found, f"{panel['title']}: nothing is answered to {query}"
            series += [(panels.legend(target, it["metric"]), [(float(when), float(value)) for when, value in it["values"]]) for it in found]
            count, points = count + 1, points + sum(len(it["values"]) for it in found)
        answered.append((panel, sorted(series)))
    write(picture, panels.picture(answered, watch.since, end))
    done(f"{count} queries of {len(answered)} panels are answered, with {points} points; the picture has {os.path.getsize(picture)} bytes")


def watched(program, folder, top, picture):
    """A switch with the plan of the example, watched by Prometheus."""
    live.HOSTS = HOSTS
    switch = live.Switch(1, folder)
    hosts = {name: live.Host(name, number, {1: switch}) for number, name in enumerate(HOSTS, 1)}
    for host in hosts.values():
        host.lives_at(100)
    switch.connect()
    plan = subprocess.run([program, "plan", f"{top}/examples/quick-start/faucet.yaml", "sw1"], capture_output=True, check=True).stdout
    entries = load(switch, "br1", plan)
    watch = Watch(program, folder, top, switch)
    until("Prometheus has flow entries", lambda: ask("query", query="of_flow_packets"), 20)
    watch.since = int(time.time())
    assert len(ask("query", query="of_flow_packets")) == entries
    done(f"a switch with the {entries} entries of the plan is watched")
    traffic(watch, hosts)
    hold_the_panels(watch, top, picture)
    hold_the_counters(watch, switch)
    watch.is_well()
    size = next(line.split()[1] for line in open(f"/proc/{watch.gauge.pid}/status") if line.startswith("VmRSS"))
    done(f"no scrape failed in {time.time() - watch.since:.0f} s, and the collector read each file; memory of the program: {size} KB")
    watch.gauge.kill()
    watch.gauge.wait()
    assert watch.keeper.wait(10) == 0
    switch.set_up("del-br", "br1")
    return switch


# ---- the plans of the examples


def bridges_of(program, file, switch):
    """A bridge for each datapath of a configuration, with its plan: the name of each datapath, its bridge and its entries."""
    conf = json.loads(subprocess.run([program, "check", file], capture_output=True, check=True).stdout)
    made = []
    for name, dp in conf["dps"].items():
        bridge = f"dp{len(made)}"
        settings = ["datapath_type=netdev", "protocols=OpenFlow13", "fail_mode=secure", f"other_config:datapath-id={dp['dp_id']:016x}"]
        switch.set_up("add-br", bridge, "--", "set", "bridge", bridge, *settings)
        switch.set_up("set-controller", bridge, f"tcp:{switch.here}:{live.SWITCHES_AT}")
        switch.set_up("set", "controller", bridge, "connection_mode=out-of-band", "max_backoff=1000")
        plan = subprocess.run([program, "plan", file, name], capture_output=True, check=True).stdout
        made.append((name, bridge, load(switch, bridge, plan)))
    return made


def told_of(stream):
    """How many lines of each counter, and how many samples of each metric, gauge-serve gave of each datapath."""
    lines = collections.Counter()
    for line in open(stream).read().splitlines():
        columns, sample = line.split("\t"), re.match(r'(of_flow_\w+)\{dp_id="\d+",dp_name="([^"]*)",', line)
        if len(columns) == 6 and columns[0] == "lines":
            lines[columns[2], columns[4]] += 1
        elif sample:
            lines[sample[2], sample[1]] += 1
        else:
            assert not line or line.startswith("# TYPE of_flow_"), line
    return lines


def hold_the_entries(program, folder, file, switch):
    """Of each entry of each plan there is a line and a sample of each counter."""
    example = os.path.basename(os.path.dirname(file))
    made = bridges_of(program, file, switch)
    write(f"{folder}/{example}.yaml", ENTRIES % file)
    stream, said = f"{folder}/{example}.out", f"{folder}/{example}.said"
    process = serve(program, f"{folder}/{example}.yaml", switch, stdout=open(stream, "w"), stderr=open(said, "w"))
    kinds = ["packets", "bytes", "of_flow_packets", "of_flow_bytes"]

    def blocks():
        text = open(stream).read()
        return text.count("\n\n") if text.endswith("\n\n") else 0

    until(f"a block of each datapath of {example}", lambda: blocks() == len(made), 30)
    expected = collections.Counter({(name, kind): entries for name, _, entries in made for kind in kinds})
    for name, bridge, entries in made:
        held = sum(values[0] for values in tables(switch, bridge).values())
        assert held == entries, f"{example} {name}: the switch holds {held} entries, of {entries} in the plan"
    told = told_of(stream)
    assert told == expected, (example, sorted(told.items()), sorted(expected.items()))
    assert process.poll() is None and not open(said).read(), open(said).read()
    process.kill()
    process.wait()
    for _, bridge, _ in made:
        switch.set_up("del-br", bridge)
    done(f"{example}: " + ", ".join(f"{name} {entries} entries" for name, _, entries in made) + ", a line and a sample of both counters each")
    return [entries for _, _, entries in made]


def main(program, folder, top, picture):
    run("ip", "link", "set", "lo", "up")
    switch = watched(program, folder, top, picture)
    counts = [count for file in sorted(glob.glob(f"{top}/examples/*/faucet.yaml")) for count in hold_the_entries(program, folder, file, switch)]
    done(f"{sum(counts)} entries of {len(counts)} datapaths, in flow replies of Open vSwitch")


if __name__ == "__main__":
    signal.signal(signal.SIGTERM, lambda *_: sys.exit("stopped"))
    main(*sys.argv[1:])
