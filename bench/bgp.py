"""Has real peers of BGP speak with `faucet bgp-serve`: see bgp.sh, which calls it in a network namespace of its own.

bgp.py PROGRAM FOLDER TOP [KEEP]   FOLDER is an empty folder for files, TOP the checkout, KEEP where the recordings are put
"""
import atexit, json, os, re, shutil, signal, socket, struct, subprocess, sys, threading, time

import bgp_cases, live
from live import done, run, until

EVENTS = 1_000_000
# Where bgp-serve listens, and where the wire does that keeps what the peer says.
PROGRAM_AT, WIRE_AT = 9179, 9180
HERE, THERE = "192.0.2.1", "192.0.2.2"
OURS, THEIRS = 65001, 65002
ROUTER = "between"
# The next hop is the router's address in VLAN 100; the other one lies in the network of VLAN 200.
HOP, ELSEWHERE = "10.0.100.1", "10.0.200.9"
FIRST, SECOND, OUTSIDE = "172.16.0.0/16", "203.0.113.0/24", "198.51.100.0/24"
# An address of the router in each of the networks.
INSIDE = {FIRST: "172.16.5.9", SECOND: "203.0.113.9"}
HOSTS = {"h1": [(1, 1)], "h2": [(1, 2)]}
KEEPALIVE = bgp_cases.message(bgp_cases.KEEPALIVE)


def write(file, text):
    with open(file, "w") as out:
        out.write(text)


def begin(words, **more):
    """Starts a program, which ends with this one."""
    process = subprocess.Popen(words, **more)
    atexit.register(end, process)
    return process


def end(process):
    process.kill()
    process.wait()


def records(data):
    while data:
        moment, kind, conn, length = struct.unpack("!QBII", data[:17])
        yield moment, kind, conn, data[17 : 17 + length]
        data = data[17 + length :]


# ---- the controller's side


class Wire:
    """Passes on what a peer and bgp-serve say, and keeps what the peer said as a recording."""

    def __init__(self):
        self.lock, self.listener = threading.Lock(), socket.create_server((HERE, WIRE_AT))
        self.begin()
        threading.Thread(target=self.accept, daemon=True).start()
        threading.Thread(target=self.clock, daemon=True).start()

    def begin(self):
        """Begins another recording."""
        with self.lock:
            self.kept, self.began, self.conns = [], time.monotonic(), 0

    def keep(self, kind, conn=0, data=b""):
        with self.lock:
            moment = int(1000 * (time.monotonic() - self.began))
            self.kept.append(struct.pack("!QBII", moment, kind, conn, len(data)) + data)

    def recording(self):
        with self.lock:
            return b"".join(self.kept)

    def clock(self):
        while True:
            time.sleep(0.1)
            self.keep(live.MOMENT)

    def accept(self):
        while True:
            peer, _ = self.listener.accept()
            try:
                program = socket.create_connection(("127.0.0.1", PROGRAM_AT), timeout=5)
            except OSError:
                peer.close()
                continue
            program.settimeout(None)
            self.conns += 1
            self.keep(live.OPENED, self.conns)
            threading.Thread(target=self.pass_on, args=(peer, program, self.conns), daemon=True).start()
            threading.Thread(target=self.pass_back, args=(program, peer), daemon=True).start()

    def pass_on(self, peer, program, conn):
        try:
            while piece := peer.recv(65536):
                self.keep(live.HEARD, conn, piece)
                program.sendall(piece)
        except OSError:
            pass
        self.keep(live.CLOSED, conn)
        self.shut(peer, program)

    def pass_back(self, program, peer):
        try:
            while piece := program.recv(65536):
                peer.sendall(piece)
        except OSError:
            pass
        # The program's clock shows ten moments a second, and so does this one: where its hold time is over, this one's is soon.
        time.sleep(0.5)
        self.shut(peer, program)

    def shut(self, *both):
        for it in both:
            try:
                it.shutdown(socket.SHUT_RDWR)
            except OSError:
                pass


class Speaker:
    """bgp-serve, and tools/bgp2file behind it; what is written is kept."""

    def __init__(self, program, folder, top, config, file):
        self.said, self.written = f"{folder}/speaker.said", b""
        words = [program, "bgp-serve", config, ROUTER, "--events", str(EVENTS), "--listen", f"127.0.0.1:{PROGRAM_AT}"]
        self.process = begin(words, stdout=subprocess.PIPE, stderr=open(self.said, "w"))
        self.keeper = begin([f"{top}/tools/bgp2file", config, file], stdin=subprocess.PIPE)
        threading.Thread(target=self.pass_on, daemon=True).start()
        until("bgp-serve listens", self.listens)

    def pass_on(self):
        while piece := self.process.stdout.read1(65536):
            self.written += piece
            self.keeper.stdin.write(piece)
            self.keeper.stdin.flush()
        self.keeper.stdin.close()

    def listens(self):
        assert self.process.poll() is None, open(self.said).read()
        return run("ss", "-Hltn", f"sport = :{PROGRAM_AT}").strip() != ""

    def lines(self):
        return open(self.said).read().splitlines()

    def is_told(self, *tells):
        """Waits for a line that ends with these words, behind those that are there already."""
        before = len(self.lines())

        def is_there():
            return any(line.split(": ", 1)[1] in tells for line in self.lines()[before:])

        return lambda what: until(f"{what}: one of {tells} in {self.lines()[before:]}", is_there, 60)

    def texts(self):
        return [data for _, kind, _, data in records(self.written) if kind == live.RELOAD]


# ---- peers


class Peer:
    """A router's speaker, in the namespace of a host. Each of the networks leads to its next hop."""

    def __init__(self, folder, host):
        self.folder, self.networks, self.hold, self.process = f"{folder}/{self.name}", {}, 90, None
        os.mkdir(self.folder)
        self.inside = ["nsenter", f"--net=/proc/{host.process.pid}/ns/net"]

    def start(self):
        self.set_up()
        log = open(f"{self.folder}/log", "a")
        self.process = begin([*self.inside, *self.words()], stdout=log, stderr=log)
        until(f"{self.name} answers", self.answers)

    def ask(self, *words):
        return subprocess.run([*self.inside, *words], capture_output=True, text=True, timeout=20)

    def kill(self):
        end(self.process)

    def freeze(self):
        self.process.send_signal(signal.SIGSTOP)

    def go_on(self):
        self.process.send_signal(signal.SIGCONT)


class Bird(Peer):
    name = "bird"

    def set_up(self):
        routes = "".join(f"    route {net} blackhole;\n" for net in self.networks)
        hops = "".join(f"        if net = {net} then bgp_next_hop = {hop};\n" for net, hop in self.networks.items())
        write(f"{self.folder}/bird.conf", f"""
router id {HOP};
protocol device {{ }}
protocol static announced {{
    ipv4;
{routes}}}
protocol bgp controller {{
    local {THERE} as {THEIRS};
    neighbor {HERE} port {WIRE_AT} as {OURS};
    hold time {self.hold};
    connect delay time 1;
    connect retry time 2;
    error wait time 1, 2;
    ipv4 {{
        import none;
        export filter {{
{hops}            accept;
        }};
    }};
}}
""")

    def words(self):
        return ["/usr/sbin/bird", "-f", "-c", f"{self.folder}/bird.conf", "-s", f"{self.folder}/ctl", "-P", f"{self.folder}/pid"]

    def control(self, *words):
        return self.ask("/usr/sbin/birdc", "-s", f"{self.folder}/ctl", *words)

    def answers(self):
        return self.control("show", "status").returncode == 0

    def is_established(self):
        return " Established" in self.control("show", "protocols", "controller").stdout

    def announce(self, networks):
        self.networks = networks
        self.set_up()
        assert "Reconfigur" in self.control("configure").stdout

    def leave(self):
        self.control("disable", "controller")

    def come_back(self):
        self.control("enable", "controller")


class Frr(Peer):
    name = "frr"

    def set_up(self):
        hops = sorted(set(self.networks.values()) | {HOP})
        lists = "".join(f"ip prefix-list to{at} seq 5 deny 0.0.0.0/32\n" for at, _ in enumerate(hops))
        networks = "".join(f"  network {net}\n" for net in self.networks)
        maps = "".join(f"route-map out permit {10 + at}\n match ip address prefix-list to{at}\n set ip next-hop {hop}\n" for at, hop in enumerate(hops))
        lists += "".join(f"ip prefix-list to{hops.index(hop)} seq {10 + at} permit {net}\n" for at, (net, hop) in enumerate(self.networks.items()))
        write(f"{self.folder}/bgpd.conf", f"""
{lists}{maps}router bgp {THEIRS}
 bgp router-id {HOP}
 no bgp ebgp-requires-policy
 no bgp network import-check
 neighbor {HERE} remote-as {OURS}
 neighbor {HERE} port {WIRE_AT}
 neighbor {HERE} ebgp-multihop 2
 neighbor {HERE} timers {max(1, self.hold // 3)} {self.hold}
 neighbor {HERE} timers connect 1
 neighbor {HERE} advertisement-interval 0
 address-family ipv4 unicast
{networks}  neighbor {HERE} route-map out out
 exit-address-family
""")

    def words(self):
        return ["/usr/lib/frr/bgpd", "--no_zebra", "--no_kernel", "--skip_runas", "-f", f"{self.folder}/bgpd.conf", "-i", f"{self.folder}/pid", "--vty_socket", self.folder, "-p", "0", "-P", "0", "--log", f"file:{self.folder}/log"]

    def control(self, *words):
        return self.ask("/usr/bin/vtysh", "--vty_socket", self.folder, "-d", "bgpd", *(it for word in words for it in ("-c", word)))

    def answers(self):
        return self.control("show version").returncode == 0

    def is_established(self):
        told = self.control("show bgp neighbors json").stdout
        return '"bgpState":"Established"' in told.replace(" ", "")

    def announce(self, networks):
        old, self.networks = self.networks, networks
        words = [f"no network {net}" for net in old if net not in networks]
        words += [f"network {net}" for net in networks if net not in old]
        lists = [f"ip prefix-list to{sorted({*networks.values(), HOP}).index(hop)} seq {50 + at} permit {net}" for at, (net, hop) in enumerate(networks.items())]
        if not set(networks.values()) <= set(old.values()):
            maps = [it for at, hop in enumerate(sorted({*networks.values(), HOP})) for it in (f"route-map out permit {10 + at}", f"match ip address prefix-list to{at}", f"set ip next-hop {hop}", "exit")]
        else:
            maps = []
        assert self.control("configure terminal", *lists, *maps, f"router bgp {THEIRS}", "address-family ipv4 unicast", *words).returncode == 0
        self.set_up()

    def leave(self):
        self.control("configure terminal", f"router bgp {THEIRS}", f"neighbor {HERE} shutdown")

    def come_back(self):
        self.control("configure terminal", f"router bgp {THEIRS}", f"no neighbor {HERE} shutdown")


# ---- the stage, and what is held


class Stage:
    """All that runs."""

    def __init__(self, program, folder, top):
        self.program, self.folder = program, folder
        run("ip", "link", "set", "lo", "up")
        live.HOSTS = HOSTS
        self.switch = live.Switch(1, folder)
        self.router, self.host = (live.Host(name, number, {1: self.switch}) for number, name in enumerate(HOSTS, 1))
        self.router.lives_at(100)
        self.host.lives_at(200)
        assert self.router.address == HOP
        self.router.ask("ip", "link", "set", "lo", "up")
        for address in INSIDE.values():
            self.router.ask("ip", "address", "add", f"{address}/32", "dev", "lo")
        # The link for the session.
        run("ip", "link", "add", "session", "type", "veth", "peer", "name", "session", "netns", str(self.router.process.pid))
        run("ip", "address", "add", f"{HERE}/24", "dev", "session")
        run("ip", "link", "set", "session", "up")
        self.router.ask("ip", "address", "add", f"{THERE}/24", "dev", "session")
        self.router.ask("ip", "link", "set", "session", "up")
        self.config = f"{top}/examples/bgp/faucet.yaml"
        live.Proxy()
        self.controller, self.wire = live.Controller(program, folder), Wire()
        self.speaker = Speaker(program, folder, top, self.config, self.controller.file)
        until("the file is written", lambda: os.path.exists(self.controller.file))
        self.controller.start()
        self.switch.connect()
        until("the switch has entries", lambda: len(self.switch.entries()) > 10, 60)
        done("serve runs on the file of bgp2file, and the switch has its tables")

    def routes(self):
        """The routes of VLAN 100 in the file that serve follows."""
        said = run(self.program, "check", self.controller.file)
        return {it["ip_dst"]: it["ip_gw"] for it in json.loads(said)["vlans"]["100"]["routes"]}

    def held(self):
        """The networks that the switch routes from VLAN 200, beside those of the VLANs."""
        found = re.findall(r"table=4,.*dl_vlan=200.*nw_dst=([0-9./]+)", "\n".join(self.switch.entries()))
        return {net for net in found if not net.startswith("10.")}

    def has(self, *networks):
        """The file and the switch come to have the routes to just these networks, by the next hop in the VLAN."""
        until(f"the file has the routes to {networks}: {self.routes()}", lambda: self.routes() == {net: HOP for net in networks}, 60)
        until(f"the switch routes to {networks}: {self.held()}", lambda: self.held() == set(networks), 60)

    def reaches(self, *networks):
        self.host.reaches(*(INSIDE[net] for net in networks))

    def misses(self, *networks):
        for net in networks:
            assert self.host.asked("ping", INSIDE[net], 2, 0.1) == 0, net

    def is_well(self):
        for process in (self.speaker.process, self.speaker.keeper, self.controller.process):
            assert process.poll() is None, process.args
        assert not any("reload" in line for line in self.controller.lines()), self.controller.lines()


def comes_and_goes(stage, peer):
    """What a peer announces and withdraws."""
    peer.networks = {FIRST: HOP}
    peer.start()
    until(f"{peer.name} is established", peer.is_established, 60)
    stage.has(FIRST)
    stage.reaches(FIRST)
    stage.misses(SECOND)
    done(f"{peer.name} is established, and the network that it announces is reached over the switch")
    peer.announce({FIRST: HOP, SECOND: HOP, OUTSIDE: ELSEWHERE})
    stage.has(FIRST, SECOND)
    stage.reaches(FIRST, SECOND)
    peer.announce({SECOND: HOP})
    stage.has(SECOND)
    stage.misses(FIRST)
    assert not any(OUTSIDE.encode() in text for text in stage.speaker.texts())
    done("a second network came, the first one went, and one whose next hop lies in another VLAN never did")


def ends(stage, peer):
    """Each way in which a session ends."""
    told = stage.speaker.is_told("End")
    peer.kill()
    told("killed")
    stage.has()
    stage.misses(SECOND)
    peer.start()
    stage.has(SECOND)
    done("it was killed, its routes went, and it came back")
    told = stage.speaker.is_told(*(f"BgpHeard 6 {sub}" for sub in range(9)))
    peer.leave()
    told("it says goodbye")
    stage.has()
    peer.come_back()
    stage.has(SECOND)
    done("it said goodbye, and came back")
    told = stage.speaker.is_told("BgpSent 6 0")
    with socket.create_connection((HERE, WIRE_AT), timeout=10) as other:
        heard = b""
        while piece := other.recv(4096):
            heard += piece
    assert heard == bgp_cases.message(bgp_cases.NOTIFICATION, bgp_cases.codes("6/0")), heard.hex()
    told("a further connection")
    assert peer.is_established()
    stage.has(SECOND)
    done("a further connection was turned away")
    peer.kill()
    stage.has()
    peer.hold = 9
    peer.start()
    stage.has(SECOND)
    time.sleep(12)
    assert peer.is_established()
    told = stage.speaker.is_told("BgpSent 4 0")
    peer.freeze()
    told("silent")
    stage.has()
    peer.go_on()
    stage.has(SECOND)
    done("with a hold time of 9 seconds it stayed for 12, its routes went where it fell silent, and it came back")
    peer.kill()
    stage.has()
    told = stage.speaker.is_told("BgpSent 2 2")
    # The configuration says that the peer's number is THEIRS: one with another number is refused.
    wrong = socket.create_connection((HERE, WIRE_AT), timeout=10)
    wrong.sendall(bgp_cases.message(bgp_cases.OPEN, bgp_cases.opening(asn=OURS)))
    told("another number")
    wrong.close()
    done("a peer with another number was refused")


def said_on(data):
    """What is said on each connection, but for the messages that hang on the moment alone."""
    found = {}
    for _, kind, conn, body in records(data):
        if kind in (130, 131) and body != KEEPALIVE:
            found.setdefault(conn, []).append((kind, body))
    return found


def recorded(stage, peer, recording, texts, keep):
    """`bgp` says of the recording what bgp-serve said; `replay` takes its texts."""
    file = f"{stage.folder}/{peer.name}.rec"
    with open(file, "wb") as out:
        out.write(recording)
    ran = subprocess.run([stage.program, "bgp", stage.config, ROUTER, file], capture_output=True)
    assert ran.returncode == 0, (ran.returncode, ran.stderr)
    again = [data for _, kind, _, data in records(ran.stdout) if kind == live.RELOAD]
    assert again == texts, (len(again), len(texts))
    with open(f"{stage.folder}/texts.rec", "wb") as out:
        out.write(b"".join(struct.pack("!QBII", moment, kind, conn, len(data)) + data for moment, kind, conn, data in records(ran.stdout) if kind == live.RELOAD))
    taken = subprocess.run([stage.program, "replay", stage.config, f"{stage.folder}/texts.rec"], capture_output=True)
    assert taken.returncode == 0 and not taken.stderr, (taken.returncode, taken.stderr)
    if keep:
        shutil.copy(file, keep)
    done(f"`bgp` gives the same {len(texts)} texts of the recording ({len(recording)} bytes), and `replay` takes them")
    return said_on(ran.stdout)


def main(program, folder, top, keep=None):
    stage = Stage(program, folder, top)
    for kind in (Bird, Frr):
        peer, before = kind(folder, stage.router), len(stage.speaker.written)
        # The numbers of connections go on, so the recording's own ones are told apart from those by their order alone.
        stage.wire.begin()
        comes_and_goes(stage, peer)
        ends(stage, peer)
        time.sleep(1)
        written = stage.speaker.written[before:]
        texts = [data for _, kind, _, data in records(written) if kind == live.RELOAD]
        again = recorded(stage, peer, stage.wire.recording(), texts, keep)
        assert list(again.values()) == list(said_on(written).values()), (again, said_on(written))
        done(f"and says the same on each of {len(again)} connections")
        stage.is_well()
    end(stage.speaker.process)
    assert stage.speaker.keeper.wait(10) == 0
    assert open(stage.controller.file).read() == open(stage.config).read()
    done("where bgp-serve ends, the file is the configuration again")


if __name__ == "__main__":
    signal.signal(signal.SIGTERM, lambda *_: sys.exit("stopped"))
    main(*sys.argv[1:])
