"""Runs tools on switches: see test.sh, which calls it in a network namespace of its own.

test_switch.py preflight FOLDER   tools/preflight on an Open vSwitch, of which everything has to hold
test_switch.py broken FOLDER      the same on a switch that does next to nothing, of which it has to tell what doesn't hold
test_switch.py trace FOLDER       opens each datapath that standard input names, as FILE and NAME, on an Open vSwitch, sends it frames made by
                                  chance, and compares what leaves with what tools/why says
"""
import atexit, collections, os, random, socket, struct, subprocess, sys, threading, time

TOOLS = os.path.dirname(os.path.abspath(__file__))
PORTS = [1, 2, 3, 4, 10, 11, 24]
FOLDER = sys.argv[2]
os.environ["OVS_RUNDIR"] = FOLDER
sys.path.append(f"{TOOLS}/../bench")
import openflow, program, tables


def run(*words):
    subprocess.run(words, check=True, stdout=subprocess.DEVNULL)


def set_up(*words):
    run("ovs-vsctl", f"--db=unix:{FOLDER}/database.sock", *words)


def until(holds):
    for _ in range(200):
        if holds():
            return
        time.sleep(0.05)
    sys.exit("a switch didn't come up")


def switch(controller):
    """An Open vSwitch in user space with no network, and its bridge br0."""
    run("ip", "link", "set", "lo", "up")
    run("ovsdb-tool", "create", f"{FOLDER}/database.db", "/usr/share/openvswitch/vswitch.ovsschema")
    for words in (["ovsdb-server", f"{FOLDER}/database.db", f"--remote=punix:{FOLDER}/database.sock"], ["ovs-vswitchd", f"unix:{FOLDER}/database.sock", "--disable-system", "--enable-dummy=override"]):
        started = subprocess.Popen([*words, f"--unixctl={FOLDER}/{'switch' if words[0] == 'ovs-vswitchd' else 'database'}.ctl", f"--log-file={FOLDER}/{words[0]}.log"], stderr=subprocess.DEVNULL)
        atexit.register(lambda it=started: (it.kill(), it.wait()))
        if words[0] == "ovsdb-server":
            until(lambda: os.path.exists(f"{FOLDER}/database.sock"))
            set_up("--no-wait", "init")
    set_up("set", "Open_vSwitch", ".", "other_config:vlan-limit=2")
    set_up("add-br", "br0", "--", "set", "bridge", "br0", "datapath_type=dummy", "protocols=OpenFlow13", "fail_mode=secure", "other_config:datapath-id=0000000000000001")
    for port in PORTS:
        set_up("add-port", "br0", f"p{port}", "--", "set", "interface", f"p{port}", "type=dummy", f"ofport_request={port}", f"options:tx_pcap={FOLDER}/{port}.pcap")
    set_up("set-controller", "br0", controller, "--", "set", "controller", "br0", "connection_mode=out-of-band", "max_backoff=1000")


def preflight():
    switch("tcp:127.0.0.1:6653")
    tried = subprocess.run([f"{TOOLS}/preflight", "127.0.0.1:6653"], capture_output=True, text=True, timeout=120)
    print(tried.stdout, tried.stderr)
    assert tried.returncode == 0 and "NOT" not in tried.stdout
    print("told:", tried.stdout.splitlines()[-1].partition(";")[0])


def be_broken(port):
    """A switch with eight tables, which takes nothing and replies to barriers all the same."""
    for _ in range(100):
        try:
            link = socket.create_connection(("127.0.0.1", port))
            break
        except OSError:
            time.sleep(0.05)
    rest = b""
    link.sendall(openflow.message(openflow.HELLO, 0))
    while piece := link.recv(65536):
        frames, rest = openflow.cut(rest + piece)
        for frame in frames:
            kind, xid = openflow.kind_of(frame), openflow.xid_of(frame)
            if kind == openflow.FEATURES_REQUEST:
                link.sendall(openflow.message(openflow.FEATURES_REPLY, xid, struct.pack("!QIBB2xII", 1, 0, 8, 0, 0, 0)))
            elif kind == openflow.ECHO_REQUEST:
                link.sendall(openflow.message(openflow.ECHO_REPLY, xid, b"other"))
            elif kind == openflow.FLOW_MOD and frame[25] == openflow.ADD:
                link.sendall(openflow.message(openflow.ERROR, xid, struct.pack("!HH", 5, 1)))
            elif kind == openflow.BARRIER_REQUEST:
                link.sendall(openflow.message(openflow.BARRIER_REPLY, xid))
            elif kind == openflow.MULTIPART_REQUEST:
                link.sendall(openflow.message(openflow.MULTIPART_REPLY, xid, frame[8:10] + bytes(6)))


def broken():
    with socket.create_server(("127.0.0.1", 0)) as free:
        port = free.getsockname()[1]
    threading.Thread(target=be_broken, args=(port,), daemon=True).start()
    tried = subprocess.run([f"{TOOLS}/preflight", f"127.0.0.1:{port}"], capture_output=True, text=True, timeout=120)
    print(tried.stdout, tried.stderr)
    assert tried.returncode == 1
    for line in ("NOT    datapath 0x1: nine flow tables or more, no auxiliary connection: 8 tables", "NOT    an echo request", "NOT    table 0 takes an entry and leads on: error 5 1", "NOT    eth_dst with a mask", "holds  a delete of all"):
        assert line in tried.stdout, line
    print("told:", tried.stdout.splitlines()[-1].partition(";")[0])


def sent_by(held, frame, port):
    return [(to, data) for *_, sent, _ in tables.way(held, frame, port) for to, data in sent]


def trace():
    import switch as bench

    bench.PORTS = PORTS
    switch("ptcp:6653:127.0.0.1")
    until(lambda: os.path.exists(f"{FOLDER}/{PORTS[-1]}.pcap"))
    time.sleep(1)
    random.seed(11)
    passed, number, sends = {port: 24 for port in PORTS}, 0, 0
    for line in sys.stdin:
        file, name = line.split()
        plan, held = program.run("plan", file, name).stdout, tables.Tables()
        ports = [it for it in map(int, program.check(file)["dps"][name]["interfaces"]) if it in PORTS]
        for message in openflow.cut(plan)[0]:
            if openflow.kind_of(message) == openflow.FLOW_MOD:
                held.do(message)
        connection = bench.Connection()
        connection.socket.sendall(plan)
        connection.wait_for(connection.say(bench.BARRIER_REQUEST, b""))
        frames = {}
        for _ in range(20):
            number += 1
            frames[number] = random.choice(ports), bench.frame(number)
            bench.put_in(*frames[number])
        left = bench.collect(connection, None, passed)
        connection.close()
        assert not connection.errors, connection.errors
        for it, (port, data) in frames.items():
            mine = sorted(bench.shown(to, sent) for to, sent in sent_by(held, data, port))
            sends += len(mine)
            assert mine == sorted(left[it]), (file, name, port, data.hex(), mine, sorted(left[it]))
    print(f"told: {number} frames, {sends} packets")


if __name__ == "__main__":
    {"preflight": preflight, "broken": broken, "trace": trace}[sys.argv[1]]()
