"""Runs a controller with two real switches and their hosts: see live.sh, which calls it in a network namespace of its own.

live.py PROGRAM FOLDER [RECORDER]   the whole; FOLDER is an empty folder for files. RECORDER is faucet_recorded: it runs in the
                                    place of PROGRAM's serve, and what its recordings say is compared with the wire
live.py host                        a host: does what its standard input says, a line of JSON each
"""
import atexit, json, os, re, select, signal, socket, struct, subprocess, sys, threading, time

SWITCHES_AT, PROGRAM_AT, CHECK_AT = 6653, 6753, 6700
HELLO, ERROR, FEATURES_REPLY, FLOW_MOD, BARRIER_REQUEST, BARRIER_REPLY = 0, 1, 6, 14, 20, 21
# The kinds of records (docs/reference/recordings.md): what is heard, and what is said.
OPENED, HEARD, CLOSED, RELOAD, MOMENT, SAID = 1, 2, 3, 4, 5, 130

CONFIGURATION = """
vlans:
    office: {vid: 100, faucet_vips: ["10.0.100.254/24"]}
    lab: {vid: 200, faucet_vips: ["10.0.200.254/24"], faucet_mac: "0e:00:00:00:20:01"}
routers:
    between: {vlans: [office, lab]}
dps:
    sw1:
        dp_id: 1
        stack: {priority: 1}
        interfaces:
            1: {native_vlan: office}
            2: {native_vlan: office}
            3: {stack: {dp: sw2, port: 3}}
            4: {native_vlan: office}
    sw2:
        dp_id: 2
        interfaces:
            1: {native_vlan: office}
            2: {native_vlan: VLAN_OF_H4}
            3: {stack: {dp: sw1, port: 3}}
"""
# A host's name: its interfaces, each with the switch and the port that it leads to.
HOSTS = {"h1": [(1, 1)], "h2": [(1, 2), (1, 4)], "h3": [(2, 1)], "h4": [(2, 2)]}


def run(*words, **more):
    ran = subprocess.run(words, capture_output=True, text=True, **more)
    if ran.returncode:
        sys.exit(f"{' '.join(words)}: {ran.stderr}")
    return ran.stdout


def until(what, holds, seconds=30):
    """Waits until a thing holds."""
    end = time.time() + seconds
    while time.time() < end:
        if holds():
            return
        time.sleep(0.1)
    sys.exit(f"not so within {seconds} s: {what}")


def done(what):
    print("ok:", what, flush=True)


# ---- hosts


def checksum(data):
    total = sum(struct.unpack(f"!{len(data) // 2}H", data))
    total = (total & 0xFFFF) + (total >> 16)
    return ~(total + (total >> 16)) & 0xFFFF


def ping(to, count, every):
    """Sends so many echo requests over the address's family, and says how many were answered within a second."""
    six = ":" in to
    family, protocol, asks, answers = (socket.AF_INET6, socket.IPPROTO_ICMPV6, 128, 129) if six else (socket.AF_INET, socket.IPPROTO_ICMP, 8, 0)
    with socket.socket(family, socket.SOCK_RAW, protocol) as raw:
        ident, answered, sent, start = os.getpid() & 0xFFFF, set(), 0, time.time()
        while time.time() < start + count * every + 1 and len(answered) < count:
            if sent < count and time.time() >= start + sent * every:
                # The system puts the checksum of ICMPv6 in.
                packet = struct.pack("!BBHHH", asks, 0, 0, ident, sent) + bytes(32)
                packet = packet if six else packet[:2] + struct.pack("!H", checksum(packet)) + packet[4:]
                try:
                    raw.sendto(packet, (to, 0))
                except OSError:
                    pass
                sent += 1
            if select.select([raw], [], [], min(every, 0.02))[0]:
                data, sender = raw.recvfrom(2048)
                kind, _, _, its, number = struct.unpack("!BBHHH", data[:8] if six else data[20:28])
                if kind == answers and its == ident and sender[0] == to:
                    answered.add(number)
        return len(answered)


def be_host():
    for line in sys.stdin:
        words = json.loads(line)
        if words[0] == "ping":
            answer = ping(*words[1:])
        else:
            answer = subprocess.run(words, capture_output=True, text=True).returncode
        print(json.dumps(answer), flush=True)


class Host:
    def __init__(self, name, number, switches):
        self.name, self.number, self.on, self.mac = name, number, 0, f"02:00:00:00:00:{number:02x}"
        # A host has no namespace of processes of its own, so that it can be ended by its id.
        self.process = subprocess.Popen(["unshare", "--net", sys.executable, __file__, "host"], stdin=subprocess.PIPE, stdout=subprocess.PIPE, text=True)
        atexit.register(self.process.kill)
        assert self.asked("true") == 0
        for place, (switch, port) in enumerate(HOSTS[name]):
            switches[switch].add_wire(port, f"eth{place}", self.process.pid)
            self.ask("sysctl", "-qw", f"net.ipv6.conf.eth{place}.disable_ipv6=1")
            self.ask("ip", "link", "set", f"eth{place}", "address", self.mac, "up")

    def begin(self, *words):
        print(json.dumps(words), file=self.process.stdin, flush=True)

    def answer(self):
        return json.loads(self.process.stdout.readline())

    def asked(self, *words):
        self.begin(*words)
        return self.answer()

    def ask(self, *words):
        assert self.asked(*words) == 0, (self.name, words)

    def lives_at(self, vlan, place=0):
        """Has its address in the VLAN on one of its interfaces, and the VLAN's gateway."""
        self.address = f"10.0.{vlan}.{self.number}"
        self.ask("ip", "address", "flush", "dev", f"eth{self.on}")
        self.on = place
        self.ask("ip", "address", "add", f"{self.address}/24", "dev", f"eth{place}")
        self.ask("ip", "route", "replace", "default", "via", f"10.0.{vlan}.254")

    def reaches(self, *addresses):
        for address in addresses:
            until(f"{self.name} reaches {address}", lambda: self.asked("ping", address, 3, 0.1) == 3)


# ---- switches


class Switch:
    def __init__(self, number, folder):
        self.number, self.folder, self.processes = number, f"{folder}/sw{number}", {}
        os.mkdir(self.folder)
        self.database = f"unix:{self.folder}/database.sock"
        # Its namespace, with a wire to this one. Two daemons in one would both want the same interface.
        self.processes["its namespace"] = subprocess.Popen(["unshare", "--net", "sleep", "infinity"])
        space = self.processes["its namespace"].pid
        until("a namespace", lambda: os.readlink(f"/proc/{space}/ns/net") != os.readlink("/proc/self/ns/net"))
        self.inside = ["nsenter", f"--net=/proc/{space}/ns/net"]
        self.here, self.there = f"192.168.{number}.1", f"192.168.{number}.2"
        run("ip", "link", "add", f"to{number}", "type", "veth", "peer", "name", "control", "netns", str(space))
        run("ip", "address", "add", f"{self.here}/24", "dev", f"to{number}")
        run("ip", "link", "set", f"to{number}", "up")
        run(*self.inside, "ip", "address", "add", f"{self.there}/24", "dev", "control")
        run(*self.inside, "ip", "link", "set", "control", "up")
        run("ovsdb-tool", "create", f"{self.folder}/database.db", "/usr/share/openvswitch/vswitch.ovsschema")
        atexit.register(self.end)
        self.start("ovsdb-server", f"{self.folder}/database.db", f"--remote=p{self.database}")
        until("a database", lambda: os.path.exists(f"{self.folder}/database.sock"))
        self.set_up("--no-wait", "init")
        self.start("ovs-vswitchd", self.database, "--disable-system")
        self.set_up("set", "Open_vSwitch", ".", "other_config:vlan-limit=2")
        self.set_up("add-br", f"br{number}", "--", "set", "bridge", f"br{number}", "datapath_type=netdev", "protocols=OpenFlow13", "fail_mode=secure", f"other_config:datapath-id={number:016x}")

    def environment(self):
        return {**os.environ, "OVS_RUNDIR": self.folder}

    def start(self, name, *words):
        words = [*self.inside, name, *words, f"--unixctl={self.folder}/{name}.ctl", f"--log-file={self.folder}/{name}.log"]
        self.processes[name] = subprocess.Popen(words, env=self.environment(), stderr=subprocess.DEVNULL)

    def set_up(self, *words):
        return run("ovs-vsctl", f"--db={self.database}", *words, env=self.environment(), timeout=60)

    def add_wire(self, port, name, space):
        """A port with a wire to the interface of this name in the namespace of a process."""
        wire = f"s{self.number}p{port}"
        run(*self.inside, "ip", "link", "add", wire, "type", "veth", "peer", "name", name, "netns", str(space))
        self.add_port(port, wire)

    def add_port(self, port, name):
        run(*self.inside, "sysctl", "-qw", f"net.ipv6.conf.{name}.disable_ipv6=1")
        run(*self.inside, "ip", "link", "set", name, "up")
        self.set_up("add-port", f"br{self.number}", name, "--", "set", "interface", name, f"ofport_request={port}")

    def connect(self):
        bridge = f"br{self.number}"
        self.set_up("set-controller", bridge, f"tcp:{self.here}:{SWITCHES_AT}")
        self.set_up("set", "controller", bridge, "connection_mode=out-of-band", "max_backoff=1000")

    def entries(self, bridge=None):
        said = run("ovs-ofctl", "--protocols=OpenFlow13", "--no-stats", "--no-names", "dump-flows", bridge or f"br{self.number}", env=self.environment())
        return sorted(line.strip() for line in said.splitlines() if "actions" in line or "priority" in line)

    def knows(self, host):
        """An entry says that the host is known at a port."""
        return any(f"dl_src={host.mac}" in entry for entry in self.entries())

    def restart(self):
        self.processes["ovs-vswitchd"].kill()
        self.processes["ovs-vswitchd"].wait()
        time.sleep(1)
        self.start("ovs-vswitchd", self.database, "--disable-system")

    def end(self):
        for process in reversed(self.processes.values()):
            process.kill()
            process.wait()


def frames(data):
    while len(data) >= 8 and len(data) >= struct.unpack("!H", data[2:4])[0]:
        length = struct.unpack("!H", data[2:4])[0]
        yield data[1], data[:length]
        data = data[length:]


def entries_of(check, messages):
    """The entries that a bridge of no ports has once it was told these messages."""
    run("ovs-ofctl", "--protocols=OpenFlow13", "del-flows", "check", env=check.environment())
    told = b"".join(frame for kind, frame in frames(messages) if kind == FLOW_MOD)
    with socket.create_connection((check.there, CHECK_AT), timeout=30) as switch:
        switch.sendall(struct.pack("!BBHI", 4, HELLO, 8, 0) + told + struct.pack("!BBHI", 4, BARRIER_REQUEST, 8, 0xFFFFFF))
        heard = b""
        while BARRIER_REPLY not in [kind for kind, _ in frames(heard)]:
            heard += switch.recv(65536) or sys.exit("the bridge to check by ended its connection")
        refused = [frame for kind, frame in frames(heard) if kind == ERROR]
        assert not refused, refused
    return check.entries("check")


def sayings(data):
    """What written records say on each connection."""
    said = {}
    while data:
        _, kind, conn, length = struct.unpack("!QBII", data[:17])
        if kind == SAID:
            said[conn] = said.get(conn, b"") + data[17 : 17 + length]
        data = data[17 + length :]
    return said


def same(number, held, expected):
    """A switch holds the entries that it should."""
    if held != expected:
        more, less = (sorted(set(a) - set(b)) for a, b in ((held, expected), (expected, held)))
        sys.exit("\n".join([f"switch {number} holds, and shouldn't:", *more, "and should, and doesn't:", *less]))


# ---- the proxy, and the controller


class Proxy:
    """Passes on what switches and the controller say, and keeps what the switches said as a recording."""

    def __init__(self):
        self.lock, self.errors = threading.Lock(), []
        self.listener = socket.create_server(("", SWITCHES_AT))
        self.begin()
        threading.Thread(target=self.accept, daemon=True).start()
        threading.Thread(target=self.clock, daemon=True).start()

    def begin(self):
        """Begins another recording."""
        with self.lock:
            self.records, self.started, self.run = [], time.time() - 1, object()
            self.number, self.open, self.datapath, self.wire = 0, set(), {}, {}

    def record(self, kind, conn=0, data=b"", of=None):
        with self.lock:
            if of is None or of is self.run:
                moment = int(1000 * (time.time() - self.started))
                self.records.append(struct.pack("!QBII", moment, kind, conn, len(data)) + data)
                if kind == OPENED:
                    self.open.add(conn)
                if kind == CLOSED:
                    self.open.discard(conn)

    def clock(self):
        while True:
            time.sleep(0.1)
            self.record(MOMENT)

    def accept(self):
        while True:
            switch, _ = self.listener.accept()
            try:
                controller = socket.create_connection(("127.0.0.1", PROGRAM_AT), timeout=5)
            except OSError:
                switch.close()
                continue
            switch.settimeout(None)
            controller.settimeout(None)
            with self.lock:
                self.number += 1
                conn, of = self.number, self.run
            self.record(OPENED, conn, of=of)
            threading.Thread(target=self.pass_on, args=(switch, controller, conn, of), daemon=True).start()
            threading.Thread(target=self.pass_back, args=(controller, switch, conn, of), daemon=True).start()

    def pass_on(self, switch, controller, conn, of):
        whole = b""
        try:
            while piece := switch.recv(65536):
                self.record(HEARD, conn, piece, of)
                controller.sendall(piece)
                whole += piece
                for kind, frame in frames(whole):
                    whole = whole[len(frame) :]
                    if kind == FEATURES_REPLY:
                        self.datapath[conn] = struct.unpack("!Q", frame[8:16])[0]
                    if kind == ERROR:
                        self.errors.append(struct.unpack("!HH", frame[8:12]))
        except OSError:
            pass
        self.record(CLOSED, conn, of=of)
        self.shut(switch, controller)

    def pass_back(self, controller, switch, conn, of):
        try:
            while piece := controller.recv(65536):
                with self.lock:
                    if of is self.run:
                        self.wire[conn] = self.wire.get(conn, b"") + piece
                switch.sendall(piece)
        except OSError:
            pass
        self.shut(switch, controller)

    def shut(self, *both):
        for it in both:
            try:
                it.shutdown(socket.SHUT_RDWR)
            except OSError:
                pass


class Controller:
    def __init__(self, program, folder, recorder=None):
        self.program, self.file, self.said = program, f"{folder}/faucet.yaml", f"{folder}/said"
        self.folder, self.recorder, self.flights, self.process = folder, recorder, 0, None
        atexit.register(self.kill)

    def write(self, text):
        """Writes the file beside, and renames it."""
        with open(self.file + ".new", "w") as out:
            out.write(text)
        os.rename(self.file + ".new", self.file)

    def start(self):
        words = [self.program, "serve"]
        if self.recorder:
            self.flights += 1
            with open(self.file) as now, open(f"{self.folder}/flight{self.flights}.yaml", "w") as kept:
                kept.write(now.read())
            words = [self.recorder, "--record", f"{self.folder}/flight{self.flights}.rec"]
        words += [self.file, "--events", "1000000000", "--reload-ms", "500", "--listen", f"127.0.0.1:{PROGRAM_AT}"]
        self.started = time.time()
        self.process = subprocess.Popen(words, stderr=open(self.said, "a"))

    def lines(self):
        return open(self.said).read().splitlines()

    def memory(self):
        return next(line.split()[1] for line in open(f"/proc/{self.process.pid}/status") if line.startswith("VmRSS")) + " KB"

    def kill(self):
        if self.process:
            self.process.kill()
            self.process.wait()


class Stage:
    """All that runs."""

    def __init__(self, program, folder, recorder=None):
        self.program, self.folder = program, folder
        run("ip", "link", "set", "lo", "up")
        self.switches = {number: Switch(number, folder) for number in (1, 2)}
        self.hosts = {name: Host(name, number, self.switches) for number, name in enumerate(HOSTS, 1)}
        self.switches[1].add_wire(3, "s2p3", self.switches[2].processes["its namespace"].pid)
        self.switches[2].add_port(3, "s2p3")
        check = self.switches[1]
        check.set_up("add-br", "check", "--", "set", "bridge", "check", "datapath_type=netdev", "protocols=OpenFlow13", "fail_mode=secure", "--", "set-controller", "check", f"ptcp:{CHECK_AT}:{check.there}")
        self.proxy, self.controller = Proxy(), Controller(program, folder, recorder)
        for name, vlan in (("h1", 100), ("h2", 100), ("h3", 100), ("h4", 200)):
            self.hosts[name].lives_at(vlan)

    def filled(self):
        """Both switches hold entries."""
        until("both switches hold entries", lambda: all(len(switch.entries()) > 10 for switch in self.switches.values()), 60)

    def begin(self, text):
        self.controller.write(text)
        self.first = text
        self.proxy.begin()
        self.controller.start()

    def reload(self, text):
        self.controller.write(text)
        time.sleep(2)
        self.proxy.record(RELOAD, 0, text.encode())
        time.sleep(1)

    def replayed(self):
        """What a replay of the recording says on each connection. Its moments are not those of the program, so it may put
        changes into other batches, with other numbers; so each barrier that it waits for in the end is replied to."""
        with open(f"{self.folder}/first.yaml", "w") as out:
            out.write(self.first)
        with self.proxy.lock:
            heard, open_ones, end = b"".join(self.proxy.records), sorted(self.proxy.open), self.proxy.records[-1][:8]
        before, waited = None, {}
        while waited != before:
            before = waited
            with open(f"{self.folder}/heard.rec", "wb") as out:
                out.write(heard)
            ran = subprocess.run([self.program, "replay", f"{self.folder}/first.yaml", f"{self.folder}/heard.rec"], capture_output=True)
            if ran.returncode:
                sys.exit(f"the replay ended with {ran.returncode}: {ran.stderr.decode()}")
            said = sayings(ran.stdout)
            waited = {conn: [frame[4:8] for kind, frame in frames(said[conn]) if kind == BARRIER_REQUEST][-1] for conn in open_ones}
            for conn, xid in waited.items():
                heard += end + struct.pack("!BII", HEARD, conn, 8) + struct.pack("!BBH", 4, BARRIER_REPLY, 8) + xid
        return said

    def hold_what_a_replay_says(self, when):
        """Each switch holds the entries to which what a replay of the recording says leads."""
        time.sleep(3)
        held = {number: switch.entries() for number, switch in self.switches.items()}
        said = self.replayed()
        for number in self.switches:
            conn = max(conn for conn, datapath in self.proxy.datapath.items() if datapath == number)
            same(number, held[number], entries_of(self.switches[1], said[conn]))
        with self.proxy.lock:
            entries = ", ".join(str(len(it)) for it in held.values())
            done(f"{when}, each switch holds what a replay of the {len(self.proxy.records)} records leads to: {entries} entries")

    def end(self):
        """Ends the controller. What a replay of its recording says on each connection has to begin with what went over the wire,
        and to be just that, but for what wasn't sent any more on a connection when it ended."""
        controller = self.controller
        time.sleep(1)
        controller.kill()
        if not controller.recorder:
            return
        flight = f"{self.folder}/flight{controller.flights}"
        ran = subprocess.run([self.program, "replay", f"{flight}.yaml", f"{flight}.rec"], capture_output=True)
        # A record that was cut when it was ended is refused as such.
        if ran.returncode not in (0, 5):
            sys.exit(f"the replay of the recording ended with {ran.returncode}: {ran.stderr.decode()}")
        said = sayings(ran.stdout)
        with self.proxy.lock:
            wire, last = dict(self.proxy.wire), max(self.proxy.datapath)
        for conn, sent in wire.items():
            if not said.get(conn, b"").startswith(sent):
                sys.exit(f"on connection {conn} the replay of the recording says something else than the wire")
        if said.get(last, b"") != wire[last]:
            sys.exit(f"on connection {last} the replay of the recording says more than went over the wire")
        size, hours = os.path.getsize(f"{flight}.rec"), (time.time() - controller.started) / 3600
        done(f"a replay of the recording says what went over the wire, {sum(map(len, wire.values()))} bytes on {len(wire)} connections; the recording has {size} bytes, {size / hours:.0f} an hour")

    def hold_the_plan(self, path):
        for number, switch in self.switches.items():
            plan = subprocess.run([self.program, "plan", path, f"sw{number}"], capture_output=True, check=True).stdout
            expected, held = entries_of(self.switches[1], plan), switch.entries()
            same(number, held, expected)
        done(f"with no host known, each switch holds just the cold start: {', '.join(str(len(switch.entries())) for switch in self.switches.values())} entries")

    def all_reach(self):
        hosts = self.hosts
        hosts["h1"].reaches(hosts["h2"].address, hosts["h3"].address, "10.0.100.254", hosts["h4"].address)
        hosts["h4"].reaches("10.0.200.254", hosts["h3"].address)


def whole(program, folder, recorder=None):
    lab, office = (CONFIGURATION.replace("VLAN_OF_H4", vlan) for vlan in ("lab", "office"))
    stage = Stage(program, folder, recorder)
    hosts, switches, controller = stage.hosts, stage.switches, stage.controller
    for switch in switches.values():
        switch.connect()
    stage.begin(lab)
    stage.filled()
    time.sleep(2)
    stage.hold_the_plan(controller.file)
    stage.all_reach()
    done("hosts reach each other, the gateway and a host of another VLAN")
    stage.hold_what_a_replay_says("with hosts")

    start = time.time()
    hosts["h2"].lives_at(100, 1)
    hosts["h2"].reaches(hosts["h1"].address)
    hosts["h1"].reaches(hosts["h2"].address)
    done(f"a host that moved to another port reaches and is reached after {time.time() - start:.1f} s")
    hosts["h3"].ask("ip", "link", "set", "eth0", "down")
    until("a host at a port that is down is forgotten", lambda: not switches[2].knows(hosts["h3"]))
    hosts["h3"].ask("ip", "link", "set", "eth0", "up")
    hosts["h3"].ask("ip", "route", "replace", "default", "via", "10.0.100.254")
    hosts["h3"].reaches(hosts["h1"].address)
    assert switches[2].knows(hosts["h3"])
    done("a port that went down lost its host, and went up")

    hosts["h1"].begin("ping", hosts["h3"].address, 300, 0.02)
    time.sleep(1)
    stage.reload(office)
    answered = hosts["h1"].answer()
    assert answered == 300, f"of 300 packets over a reload {answered} were answered"
    hosts["h4"].lives_at(100)
    hosts["h4"].reaches(hosts["h1"].address)
    done("a reload that moved a port to another VLAN; of 300 packets between others none was lost")
    stage.reload(office.replace("native_vlan: office", "native_vlan: ofice", 1))
    assert any(line.startswith("reload: ") for line in controller.lines()), controller.lines()
    hosts["h1"].reaches(hosts["h3"].address)
    done("a refused reload says, and changes nothing: " + controller.lines()[-1])
    stage.reload(office)
    stage.hold_what_a_replay_says("behind reloads")

    switches[2].restart()
    time.sleep(3)
    stage.filled()
    hosts["h1"].reaches(hosts["h3"].address, hosts["h4"].address)
    done("a switch that was killed and came back")
    stage.hold_what_a_replay_says("behind that")

    stage.end()
    assert hosts["h1"].asked("ping", hosts["h2"].address, 5, 0.1) == 5
    done("known hosts reach each other with no controller")
    hosts["h1"].begin("ping", hosts["h2"].address, 500, 0.02)
    stage.begin(office)
    answered = hosts["h1"].answer()
    stage.filled()
    hosts["h1"].reaches(hosts["h2"].address, hosts["h3"].address, "10.0.100.254")
    done(f"the controller was started again: of 500 packets, one each 20 ms, {500 - answered} were lost")
    stage.hold_what_a_replay_says("at the end")
    assert not stage.proxy.errors, stage.proxy.errors
    done("no error from a switch in all that")
    print("memory of the program:", controller.memory())
    stage.end()


if __name__ == "__main__":
    if sys.argv[1:] == ["host"]:
        be_host()
    else:
        signal.signal(signal.SIGTERM, lambda *_: sys.exit("stopped"))
        whole(*sys.argv[1:])
