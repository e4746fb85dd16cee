"""Runs Gauge with two real switches: see gauge.sh, which calls it in a network namespace of its own.

gauge.py PROGRAM FOLDER EXAMPLE RECORDING   FOLDER is an empty folder for files, EXAMPLE the file gauge.yaml of which a
                                            recording is made, RECORDING where that is put
"""
import atexit, os, re, signal, socket, struct, subprocess, sys, time

import live
from live import done, frames, run, until

EVENTS = 100_000
MULTIPART_REQUEST, PORT_STATS = 18, 4
NAMES = "rx_packets tx_packets rx_bytes tx_bytes rx_dropped tx_dropped rx_errors tx_errors rx_frame_err rx_over_err rx_crc_err collisions".split()
# The same counters as dump-ports names them.
DUMPED = "rx.pkts tx.pkts rx.bytes tx.bytes rx.drop tx.drop rx.errs tx.errs rx.frame rx.over rx.crc tx.coll".split()
UNKNOWN = 2**64 - 1

CONFIGURATION = """
vlans:
    office: {vid: 100}
dps:
    sw1:
        dp_id: 1
        interfaces:
            1: {name: host1, native_vlan: office}
            2: {name: host2, native_vlan: office}
    sw2:
        dp_id: 2
        interfaces:
            1: {name: host3, native_vlan: office}
"""
WATCHES = """
faucet_configs: [faucet.yaml]
watchers:
    counters: {type: port_stats, all_dps: true, interval: 1, db: stats}
    seldom: {type: port_stats, dps: [sw2], interval: 3, dbs: [slow, same]}
    links: {type: port_state, all_dps: true, dbs: [stats, events]}
dbs:
    stats: {type: text, file: stats.log}
    slow: {type: text, file: slow.log}
    same: {type: text, file: same.log}
    events: {type: text, file: events.log}
"""
# A file of counters: the seconds between two polls, and the datapaths that are polled for it.
POLLED = {"stats.log": (1, ["sw1", "sw2"]), "slow.log": (3, ["sw2"]), "same.log": (3, ["sw2"])}
HOSTS = {"h1": [(1, 1)], "h2": [(1, 2)], "h3": [(2, 1)], "h4": [(2, 2)]}
# Open vSwitch's port LOCAL, which no configuration has.
LOCAL = 0xFFFFFFFE


class Proxy(live.Proxy):
    """Keeps what switches say, and a moment for each poll, which is an interval behind the one before also where the
    clocks of the program and of this one differ by some milliseconds. So a replay polls where the program did."""

    def __init__(self):
        self.last, self.polls, self.interval = 0, {}, 0
        super().__init__()

    def begin(self, interval=0):
        self.last, self.polls, self.interval = 0, {}, 1000 * interval
        super().begin()

    def clock(self):
        pass

    def record(self, kind, conn=0, data=b"", of=None, at=0):
        with self.lock:
            if of is None or of is self.run:
                self.last = max(self.last, at, int(1000 * (time.time() - self.started)))
                self.records.append(struct.pack("!QBII", self.last, kind, conn, len(data)) + data)

    def pass_back(self, controller, switch, conn, of):
        whole = b""
        try:
            while piece := controller.recv(65536):
                whole += piece
                for kind, frame in frames(whole):
                    whole = whole[len(frame) :]
                    if kind == MULTIPART_REQUEST and struct.unpack("!H", frame[8:10])[0] == PORT_STATS:
                        self.record(live.MOMENT, of=of, at=self.polls.get(conn, -self.interval) + self.interval)
                        self.polls[conn] = self.last
                switch.sendall(piece)
        except OSError:
            pass
        self.shut(switch, controller)


class Gauge:
    def __init__(self, program, folder):
        self.program, self.folder, self.process = program, folder, None
        atexit.register(self.kill)

    def start(self, file, run):
        self.out, self.said = f"{self.folder}/lines{run}", f"{self.folder}/said{run}"
        words = [self.program, "gauge-serve", file, "--events", str(EVENTS), "--listen", f"127.0.0.1:{live.PROGRAM_AT}"]
        self.started = time.time()
        self.process = subprocess.Popen(words, stdout=open(self.out, "w"), stderr=open(self.said, "w"))

    def lines(self):
        """Its whole lines, each as its columns."""
        text = open(self.out).read()
        split = [line.split("\t") for line in text[: text.rfind("\n") + 1].splitlines()]
        assert all(len(line) == 6 for line in split), split
        return split

    def errors(self):
        return open(self.said).read().splitlines()

    def memory(self):
        return next(line.split()[1] for line in open(f"/proc/{self.process.pid}/status") if line.startswith("VmRSS")) + " KB"

    def kill(self):
        if self.process:
            self.process.kill()
            self.process.wait()


def polls_of(lines):
    """What polls gave: of each file and datapath, moment by moment, of each port its counters and values."""
    polls = {}
    for file, moment, dp, port, counter, value in lines:
        if counter != "state":
            ports = polls.setdefault((file, dp), {}).setdefault(int(moment), {})
            ports.setdefault(port, []).append((counter, int(value)))
    return polls


def dumped(switch, named):
    """The counters of a switch's ports as ovs-ofctl tells them, under the names that lines have."""
    said = run("ovs-ofctl", "--protocols=OpenFlow13", "--no-names", "dump-ports", f"br{switch.number}", env=switch.environment())
    ports = {}
    for port, rx, tx in re.findall(r"port +(\S+): rx (.*)\n +tx (.*)", said):
        told = {f"{way}.{name}": value for way, part in (("rx", rx), ("tx", tx)) for name, value in re.findall(r"(\w+)=(\?|\d+)", part)}
        number = LOCAL if port == "LOCAL" else int(port)
        values = [UNKNOWN if told[name] == "?" else int(told[name]) for name in DUMPED]
        ports[named.get(number, str(number))] = list(zip(NAMES, values))
    assert ports, said
    return ports


class Stage:
    """All that runs."""

    def __init__(self, program, folder):
        live.HOSTS = HOSTS
        run("ip", "link", "set", "lo", "up")
        self.switches = {number: live.Switch(number, folder) for number in (1, 2)}
        self.hosts = {name: live.Host(name, number, self.switches) for number, name in enumerate(HOSTS, 1)}
        for host in self.hosts.values():
            host.lives_at(100)
        self.proxy, self.gauge = Proxy(), Gauge(program, folder)

    def talk(self, switch, one, other):
        """Packets go between two hosts. Gauge sends no entry, so this does; a switch has none once controllers are set."""
        run("ovs-ofctl", "--protocols=OpenFlow13", "add-flow", f"br{switch}", "actions=normal", env=self.switches[switch].environment())
        self.hosts[one].reaches(self.hosts[other].address)

    def wait_for_state(self, dp, port, value, files):
        def told():
            return [line[0] for line in self.gauge.lines()[self.seen :] if line[2:] == [dp, port, "state", value]]

        until(f"a line that says {value} of {dp} {port}", lambda: len(told()) >= len(files), 10)
        assert sorted(set(told())) == sorted(files), told()

    def after(self):
        self.seen = len(self.gauge.lines())


def hold_the_counters(stage):
    """While nothing is sent, the last lines have the values of dump-ports."""
    named = {1: {1: "host1", 2: "host2"}, 2: {1: "host3"}}

    def dump():
        return {f"sw{number}": dumped(switch, named[number]) for number, switch in stage.switches.items()}

    before, tells = None, dump()
    while tells != before:
        # Each datapath is polled anew; hosts ask for each other once more some seconds behind their last packet.
        time.sleep(6)
        before, tells = tells, dump()
    polls = polls_of(stage.gauge.lines())
    count = 0
    for (file, dp), moments in sorted(polls.items()):
        held = moments[max(moments)]
        assert held == tells[dp], f"{file} {dp}: {held}, where dump-ports tells {tells[dp]}"
        count += sum(map(len, held.values()))
    assert {file for file, _ in polls} == set(POLLED)
    assert any(value > 0 for (_, dp), moments in polls.items() for _, value in moments[max(moments)]["host1" if dp == "sw1" else "host3"])
    done(f"while nothing is sent, {count} values are those of ovs-ofctl dump-ports")


def hold_the_polls(stage):
    """Each poll gives twelve lines for each port and file, and they lie an interval apart."""
    polls, gaps = polls_of(stage.gauge.lines()), []
    assert sorted(polls) == sorted((file, dp) for file, (_, dps) in POLLED.items() for dp in dps), sorted(polls)
    for (file, dp), moments in polls.items():
        for moment, ports in moments.items():
            assert len(ports) == 3 and all([name for name, _ in values] == NAMES for values in ports.values()), (file, dp, moment, ports)
        own = sorted(moments)
        # A reply comes some milliseconds behind its poll, and has the moment that was shown last.
        gaps += [(later - before) / (1000 * POLLED[file][0]) for before, later in zip(own, own[1:])]
    assert 0.8 <= min(gaps) and max(gaps) <= 2, (min(gaps), max(gaps))
    assert polls["slow.log", "sw2"] == polls["same.log", "sw2"]
    done(f"{sum(map(len, polls.values()))} replies gave twelve lines for each of three ports; {min(gaps):.2f} to {max(gaps):.2f} intervals between two of them")


def hold_the_states(stage):
    """A port that goes down, comes up or is deleted gives its line in each file."""
    files, hosts = ["stats.log", "events.log"], stage.hosts
    assert not any(line[4] == "state" for line in stage.gauge.lines())
    stage.after()
    hosts["h3"].ask("ip", "link", "set", "eth0", "down")
    stage.wait_for_state("sw2", "host3", "0", files)
    stage.after()
    hosts["h3"].ask("ip", "link", "set", "eth0", "up")
    stage.wait_for_state("sw2", "host3", "1", files)
    stage.after()
    stage.switches[2].set_up("del-port", "br2", "s2p2")
    stage.wait_for_state("sw2", "2", "0", files)
    time.sleep(1.5)
    stage.after()
    time.sleep(1.5)
    assert not any(line[2:4] == ["sw2", "2"] for line in stage.gauge.lines()[stage.seen :])
    done("a port that went down, one that came up and one that was deleted gave their lines")


def two_switches(stage):
    folder, gauge = stage.gauge.folder, stage.gauge
    for name, text in (("faucet.yaml", CONFIGURATION), ("gauge.yaml", WATCHES)):
        with open(f"{folder}/{name}", "w") as out:
            out.write(text)
    stage.proxy.begin()
    gauge.start(f"{folder}/gauge.yaml", 1)
    for switch in stage.switches.values():
        switch.connect()
    until("lines of both switches", lambda: {line[2] for line in gauge.lines()} == {"sw1", "sw2"}, 20)
    stage.talk(1, "h1", "h2")
    stage.talk(2, "h3", "h4")
    hold_the_counters(stage)
    hold_the_polls(stage)
    hold_the_states(stage)
    assert not gauge.errors(), gauge.errors()
    stage.switches[2].restart()
    stage.after()
    until("lines of a switch that came back", lambda: any(line[0] == "slow.log" for line in gauge.lines()[stage.seen :]), 30)
    assert len(gauge.errors()) == 1 and gauge.errors()[0].startswith("conn "), gauge.errors()
    done("a switch that was killed and came back is polled anew: " + gauge.errors()[0])
    assert not stage.proxy.errors, stage.proxy.errors
    assert gauge.process.poll() is None
    seconds = time.time() - gauge.started
    done(f"no error from a switch in all that: {len(gauge.lines())} lines, {os.path.getsize(gauge.out)} bytes in {seconds:.0f} s")
    print("memory of the program:", gauge.memory())
    gauge.kill()
    for switch in stage.switches.values():
        switch.set_up("del-controller", f"br{switch.number}")


def example(stage, file, recording):
    """A recording of what a switch says to the example's Gauge: three polls, and a port that goes down and comes up."""
    gauge, hosts = stage.gauge, stage.hosts
    interval = int(re.search(r"interval: (\d+)", open(file).read())[1])
    stage.proxy.begin(interval)
    gauge.start(file, 2)
    stage.switches[1].connect()

    def polled(times):
        until(f"{times} polls", lambda: len(polls_of(gauge.lines()).get(("stats.log", "sw1"), {})) >= times, 2 * interval + 10)

    polled(1)
    stage.talk(1, "h1", "h2")
    polled(2)
    for step in ("down", "up"):
        stage.after()
        hosts["h2"].ask("ip", "link", "set", "eth0", step)
        stage.wait_for_state("sw1", "host2", "1" if step == "up" else "0", ["events.log"])
        time.sleep(1)
    polled(3)
    with stage.proxy.lock, open(recording, "wb") as out:
        out.write(b"".join(stage.proxy.records))
        count, size = len(stage.proxy.records), sum(map(len, stage.proxy.records))
    lines = gauge.lines()
    gauge.kill()
    ran = subprocess.run([gauge.program, "gauge", file, recording], capture_output=True, text=True)
    assert ran.returncode == 0 and not ran.stderr, (ran.returncode, ran.stderr)
    replayed = [line.split("\t") for line in ran.stdout.splitlines()]
    assert [line[:1] + line[2:] for line in replayed] == [line[:1] + line[2:] for line in lines]
    done(f"a replay of a recording of {count} records and {size} bytes gives the same {len(lines)} lines, but for their moments")


def hold_the_ends(program, folder):
    """Each way to end that needs no switch has its status and its last line."""

    def ran(file, *more):
        words = [program, "gauge-serve", file, "--listen", f"127.0.0.1:{live.PROGRAM_AT}", "--events", *more]
        it = subprocess.run(words, capture_output=True, text=True, timeout=20)
        assert not it.stdout, it.stdout
        return it.returncode, it.stderr

    good, bad, absent = (f"{folder}/{name}.yaml" for name in ("gauge", "bad", "absent"))
    with open(bad, "w") as out:
        out.write(WATCHES.replace("all_dps: true, interval: 1", "dps: [sw3], interval: 1"))
    assert ran(good, "20") == (7, "events spent\n")
    assert ran(good, "0")[0] == 1
    assert ran(bad, "20") == (2, f"{bad}: watchers.counters.dps.0: Unresolved\n")
    assert ran(absent, "20") == (3, f"{absent}: read fault\n")
    with socket.create_server(("127.0.0.1", live.PROGRAM_AT)):
        assert ran(good, "20") == (6, "hub fault\n")
    done("it ends behind its events (7), and at wrong words (1), a refused (2) and a missing file (3) and a port that is taken (6)")


def whole(program, folder, file, recording):
    stage = Stage(program, folder)
    two_switches(stage)
    hold_the_ends(program, folder)
    example(stage, file, recording)


if __name__ == "__main__":
    signal.signal(signal.SIGTERM, lambda *_: sys.exit("stopped"))
    whole(*sys.argv[1:])
