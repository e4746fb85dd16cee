"""Holds what is sent of packets against a real switch: see switch.sh, which calls it.

switch.py examples FAUCET EXAMPLES   opens each datapath of each example on the switch; it has to refuse nothing, and to hold what was sent
switch.py frames N                   prints cases for the program test_plans: states of datapaths, and for each N frames by chance, and LLDP by each port
switch.py answers FILE               fills the switch with the entries of each state in what test_plans answered, sends it the frames, and compares
switch.py fields FILE                gives the switch each match and each action on IPv6 in FILE, the answers of test_packets, and compares
"""
import collections, glob, json, os, random, re, socket, struct, subprocess, sys, threading, time

RUN = os.environ.get("OVS_RUNDIR", "")
HELLO, ERROR, ECHO_REQUEST, ECHO_REPLY, SET_CONFIG, PACKET_IN, FLOW_MOD, MULTIPART_REQUEST, MULTIPART_REPLY, BARRIER_REQUEST, BARRIER_REPLY = 0, 1, 2, 3, 9, 10, 14, 18, 19, 20, 21
CONTROLLER, IN_PORT, ANY = 0xFFFFFFFD, 0xFFFFFFF8, 0xFFFFFFFF
PORTS = [1, 2, 3, 4, 5, 6, 12, 13, 21]


# ---- a connection to the switch (OpenFlow 1.3, 7)


class Connection:
    def __init__(self):
        self.socket = socket.create_connection(("127.0.0.1", 6653))
        self.xid, self.errors, self.packets, self.parts, self.replied = 0x10000, [], [], [], set()
        self.reader = threading.Thread(target=self.read, daemon=True)
        self.reader.start()
        self.say(HELLO, b"")
        self.say(SET_CONFIG, struct.pack("!HH", 0, 0xFFFF))

    def say(self, kind, body):
        self.xid += 1
        self.socket.sendall(struct.pack("!BBHI", 4, kind, 8 + len(body), self.xid) + body)
        return self.xid

    def take(self, count):
        data = b""
        while len(data) < count:
            piece = self.socket.recv(count - len(data))
            if not piece:
                raise EOFError
            data += piece
        return data

    def read(self):
        try:
            while True:
                _, kind, length, xid = struct.unpack("!BBHI", self.take(8))
                body = self.take(length - 8)
                if kind == ECHO_REQUEST:
                    self.socket.sendall(struct.pack("!BBHI", 4, ECHO_REPLY, length, xid) + body)
                elif kind == ERROR:
                    self.errors.append((xid, struct.unpack("!HH", body[:4])))
                elif kind == PACKET_IN:
                    match_length = struct.unpack("!H", body[18:20])[0]
                    self.packets.append(body[16 + (match_length + 7) // 8 * 8 + 2 :])
                elif kind == MULTIPART_REPLY:
                    self.parts.append(body[8:])
                elif kind == BARRIER_REPLY:
                    self.replied.add(xid)
        except (EOFError, OSError):
            pass

    def close(self):
        """The reader ends first, so that it never reads what comes on a later socket of the same number."""
        self.socket.shutdown(socket.SHUT_RDWR)
        self.reader.join()
        self.socket.close()

    def wait_for(self, xid):
        for _ in range(3000):
            if xid in self.replied:
                return
            time.sleep(0.01)
        sys.exit("the switch replied to no barrier")

    def held(self):
        """Table, priority, match and instructions of each entry that the switch holds, as bytes."""
        self.parts = []
        every = struct.pack("!B3xII4xQQ", 0xFF, ANY, ANY, 0, 0) + struct.pack("!HH4x", 1, 4)
        self.say(MULTIPART_REQUEST, struct.pack("!HH4x", 1, 0) + every)
        self.wait_for(self.say(BARRIER_REQUEST, b""))
        found, data = [], b"".join(self.parts)
        while data:
            length, table, priority = struct.unpack("!HBxIIH", data[:14])[0:2] + struct.unpack("!H", data[12:14])
            found.append(entry_of(table, priority, data[48:length]))
            data = data[length:]
        return found


def entry_of(table, priority, data):
    """The fields of the match count as a set: a switch may tell them in another order."""
    length = struct.unpack("!H", data[2:4])[0]
    fields, rest, padded = set(), data[4:length], (length + 7) // 8 * 8
    while rest:
        size = 4 + rest[3]
        fields.add(rest[:size])
        rest = rest[size:]
    return table, priority, frozenset(fields), data[padded:]


# ---- the examples


def open_one(data):
    """Says the messages of a plan, and returns the entries, the errors, and what the switch then holds."""
    connection, sent = Connection(), []
    connection.socket.sendall(data)
    while data:
        _, kind, length, xid = struct.unpack("!BBHI", data[:8])
        if kind == FLOW_MOD and data[25] == 0:
            sent.append(entry_of(data[24], struct.unpack("!H", data[30:32])[0], data[48:length]))
        if kind == BARRIER_REQUEST:
            last = xid
        data = data[length:]
    connection.wait_for(last)
    held = connection.held()
    connection.close()
    return sent, connection.errors, held


def examples(faucet, folder):
    wrong = 0
    for file in sorted(glob.glob(f"{folder}/*/faucet.yaml")):
        conf = json.loads(subprocess.run([faucet, "check", file], check=True, capture_output=True).stdout)
        for name in conf["dps"]:
            plan = subprocess.run([faucet, "plan", file, name], check=True, capture_output=True).stdout
            sent, errors, held = open_one(plan)
            same = sorted(sent, key=repr) == sorted(held, key=repr)
            wrong += bool(errors) or not same
            print(f"{os.path.basename(os.path.dirname(file))} {name}: {len(sent)} entries, {len(errors)} errors, held {'as sent' if same else 'OTHERWISE'}")
    return wrong


# ---- frames by chance (Ethernet; RFC 826; RFC 791; RFC 768; RFC 9293; RFC 792; RFC 8200; RFC 4443; RFC 4861)

STATIONS = ["02:00:00:00:00:01", "02:00:00:00:00:02", "02:00:00:00:00:03", "02:00:00:00:00:09", "0e:00:00:00:00:01"]
GROUPS = ["ff:ff:ff:ff:ff:ff", "01:00:5e:00:00:01", "01:80:c2:00:00:00", "01:00:0c:cc:cc:cd", "33:33:ff:00:00:fe", "01:80:c2:00:00:0e"]
NO_SOURCES = ["ff:ff:ff:ff:ff:ff", "01:00:5e:00:00:02", "0e:00:00:00:00:01"]
ADDRESSES = ["10.0.1.9", "10.0.2.2", "10.0.2.3", "10.0.2.254", "10.0.1.254", "10.9.9.9", "8.8.8.8", "10.0.1.7", "10.0.0.1"]
ADDRESSES6 = ["fd00::1", "fd00::fe", "fe80::1", "fe80::fe", "fd00:2::2", "fd00:2::3", "fd00:2::fe", "2001:db8::9", "ff02::1:ff00:fe"]
FRONT, BACK = b"\xfa\xce", b"\xca\xfe"


def mac(text):
    return bytes.fromhex(text.replace(":", ""))


def ip4(text):
    return bytes(map(int, text.split(".")))


def checksum(data):
    data += bytes(len(data) % 2)
    total = sum(struct.unpack(f"!{len(data) // 2}H", data))
    while total >> 16:
        total = (total & 0xFFFF) + (total >> 16)
    return struct.pack("!H", total ^ 0xFFFF)


def ip6(text):
    return socket.inet_pton(socket.AF_INET6, text)


def packet(protocol, body):
    header = struct.pack("!BBHHHBB", 0x45, 0, 20 + len(body), 0, 0, random.choice([64, 64, 64, 2, 1, 0]), protocol)
    ends = ip4(random.choice(ADDRESSES)) + ip4(random.choice(ADDRESSES))
    return b"\x08\x00" + header + checksum(header + bytes(2) + ends) + ends + body


def packet6(protocol, body):
    ends = ip6(random.choice(ADDRESSES6)) + ip6(random.choice(ADDRESSES6))
    header = struct.pack("!IHBB", 6 << 28 | random.choice([0, 0xB812345]), len(body), protocol, random.choice([255, 64, 64, 2, 1, 0]))
    if protocol == 58:
        body = body[:2] + checksum(ends + struct.pack("!II", len(body), protocol) + body) + body[4:]
    return b"\x86\xdd" + header + ends + body


def message6(data):
    """An echo, or how a neighbour is asked for and told of, with the option of a link-layer address."""
    kind = random.choice([128, 129, 134, 135, 136])
    front = bytes([kind, random.choice([0, 0, 1])]) + bytes(6)
    if kind in (135, 136):
        front += ip6(random.choice(ADDRESSES6)) + bytes([kind - 134, 1]) + mac(random.choice(STATIONS))
    return packet6(58, front + data)


def payload(number):
    """What stands behind addresses and tags, with the frame's number in it."""
    data = bytes(random.randrange(4) * 2) + FRONT + struct.pack("!I", number) + BACK + bytes(12)
    kind = random.choice(["other", "arp", "udp", "udp", "tcp", "icmp", "udp6", "tcp6", "icmp6", "icmp6"])
    if kind == "other":
        return struct.pack("!H", random.choice([0x1234, 0x88CC, 0x86DD, 0x9000])) + bytes(24) + data
    if kind == "arp":
        sender, target = ip4(random.choice(ADDRESSES)), ip4(random.choice(ADDRESSES))
        return bytes.fromhex("0806000108000604") + struct.pack("!H", random.choice([1, 2])) + mac(STATIONS[0]) + sender + bytes(6) + target + data
    if kind == "icmp6":
        return message6(data)
    above = packet6 if kind.endswith("6") else packet
    if kind.startswith("udp"):
        return above(17, struct.pack("!HHHH", random.choice([53, 67, 5353]), random.choice([53, 80, 5353]), 8 + len(data), 0) + data)
    if kind.startswith("tcp"):
        return above(6, struct.pack("!HHIIBBHHH", random.choice([7, 80]), random.choice([80, 22]), 1, 0, 0x50, 2, 100, 0, 0) + data)
    front, rest = bytes([random.choice([0, 8]), random.choice([0, 0, 3])]), struct.pack("!I", 1) + data
    return packet(1, front + checksum(front + bytes(2) + rest) + rest)


def frame(number):
    tags = b"".join(struct.pack("!HH", 0x8100, random.randrange(8) << 13 | random.choice([100, 200, 0, 7])) for _ in range(random.choice([0, 0, 1, 1, 1, 2])))
    target = random.choice(STATIONS + GROUPS if random.random() < 0.5 else STATIONS)
    source = random.choice(STATIONS if random.random() < 0.93 else NO_SOURCES)
    return mac(target) + mac(source) + tags + payload(number)


def lldp(number):
    """LLDP without a tag, as the end of a link tells of itself (IEEE 802.1AB)."""
    return mac("01:80:c2:00:00:0e") + mac(STATIONS[0]) + bytes.fromhex("88cc" "0207040200000000010403075031" "06020078") + FRONT + struct.pack("!I", number) + BACK


# ---- states of datapaths: a name, a configuration, what was learned, and the ports where frames come in

ACLS = """{f: [{rule: {dl_type: 0x0806, actions: {mirror: 4, output: {ports: [2, 1, 2, 5]}}}}, {rule: {dl_src: 02:00:00:00:00:00/ff:ff:ff:ff:ff:fe, dl_type: 0x0800, nw_proto: 6, tcp_dst: 80, actions: {allow: 1}}}, {rule: {dl_type: 0x86dd, actions: {allow: 1, output: {port: 4}}}}],
 g: [{rule: {dl_type: 0x0800, nw_proto: 17, udp_dst: 53, actions: {allow: 1, mirror: 4}}}, {rule: {dl_dst: ff:ff:ff:ff:ff:ff, actions: {}}}, {rule: {vlan_vid: 100, vlan_pcp: 3, actions: {output: {port: 4}}}}, {rule: {dl_type: 0x0800, nw_proto: 1, icmpv4_type: 8, actions: {output: {port: 4}}}}, {rule: {actions: {allow: 1}}}],
 h: [{rule: {eth_type: 0x0800, ipv4_src: 10.0.0.0/16, ipv4_dst: 10.0.2.0/30, actions: {allow: 1}}}, {rule: {eth_type: 0x0806, arp_op: 1, arp_tpa: 10.0.1.0/24, actions: {allow: 1, output: {port: 4}}}}, {rule: {eth_type: 0x0806, arp_spa: 10.0.2.2, actions: {}}}, {rule: {eth_type: 0x1234, actions: {allow: 1}}}, {rule: {eth_type: 0x86dd, vlan_vid: 200, actions: {mirror: 4}}}, {rule: {eth_type: 0x86dd, actions: {allow: 1}}}],
 v: [{rule: {dl_type: 0x86dd, dl_dst: 33:33:00:00:00:00/ff:ff:00:00:00:00, actions: {allow: 1, mirror: 4}}}, {rule: {dl_type: 0x0800, nw_proto: 17, udp_src: 53, actions: {allow: 1, mirror: 4}}}, {rule: {dl_type: 0x0800, ipv4_dst: 10.0.0.0/8, actions: {allow: 0, output: {ports: [4, 2]}}}}, {rule: {actions: {allow: 1}}}]}"""
ROUTED = "routers: {r: {vlans: [100, 200]}}"
ONE, TWO, THREE = "02:00:00:00:00:01", "02:00:00:00:00:02", "02:00:00:00:00:03"
STATES = [
    ("members of VLANs", "{dps: {a: {dp_id: 1, interfaces: {1: {native_vlan: 100}, 2: {native_vlan: 100}, 3: {tagged_vlans: [100, 200]}, 4: {native_vlan: 200, tagged_vlans: [100]}}}}}",
     [f"host 1 1 100 {ONE} 0", f"host 1 3 200 {TWO} 0", f"host 1 2 100 {THREE} 0"], [1, 2, 3, 4]),
    ("mirrors, hairpin and hosts that stay", "{dps: {a: {dp_id: 1, interfaces: {1: {native_vlan: 100, hairpin: true}, 2: {native_vlan: 100, max_hosts: 1}, 3: {tagged_vlans: [100, 200]}, 4: {mirror: [1, 3]}, 5: {native_vlan: 200, permanent_learn: true}, 6: {native_vlan: 100, output_only: true}}}}}",
     [f"host 1 1 100 {ONE} 0", f"host 1 2 100 {TWO} 0", f"host 1 5 200 {THREE} 0"], [1, 2, 3, 4, 5, 6]),
    ("stale hosts, without drops and floods", "{dps: {a: {dp_id: 1, drop_bpdu: false, drop_lldp: false, drop_broadcast_source_address: false, drop_spoofed_faucet_mac: false, interfaces: {1: {native_vlan: 100, max_hosts: 2}, 2: {native_vlan: 100, unicast_flood: false}, 3: {tagged_vlans: [100, 200]}, 4: {native_vlan: 200}}}}, vlans: {200: {unicast_flood: false}}}",
     ["state 300000", f"host 1 1 100 {ONE} 0", f"host 1 2 100 {TWO} 1", f"host 1 3 200 {THREE} 1"], [1, 2, 3, 4]),
    ("ACLs", "{dps: {a: {dp_id: 1, interfaces: {1: {native_vlan: 100, acls_in: [f, g]}, 2: {native_vlan: 100, tagged_vlans: [200]}, 3: {native_vlan: 200, acl_in: h}, 4: {}, 5: {tagged_vlans: [100, 200]}}}}, vlans: {100: {acl_in: v}}, acls: %s}" % ACLS.replace("\n", ""),
     [f"host 1 1 100 {ONE} 0", f"host 1 5 200 {TWO} 0"], [1, 2, 3, 4, 5]),
    ("routes", "{dps: {a: {dp_id: 1, interfaces: {1: {tagged_vlans: [100, 200], hairpin: true}, 2: {native_vlan: 100}, 3: {native_vlan: 200}}}}, vlans: {100: {faucet_vips: [10.0.1.254/24]}, 200: {faucet_vips: [10.0.2.254/24], routes: [{route: {ip_dst: 0.0.0.0/0, ip_gw: 10.0.2.3}}, {route: {ip_dst: 10.0.0.0/8, ip_gw: 10.0.2.2}}]}}, %s}" % ROUTED,
     [f"host 1 1 100 {ONE} 0", f"host 1 3 200 {TWO} 0", f"host 1 1 200 {THREE} 0", f"neighbour 1 200 10.0.2.2 {TWO}", f"neighbour 1 200 10.0.2.3 {THREE}", f"neighbour 1 100 10.0.1.9 {ONE}"], [1, 2, 3]),
    ("routes of both families", "{dps: {a: {dp_id: 1, interfaces: {1: {tagged_vlans: [100, 200], hairpin: true}, 2: {native_vlan: 100}, 3: {native_vlan: 200}}}}, vlans: {100: {faucet_vips: [10.0.1.254/24, 'fd00::fe/64', 'fe80::fe/64']}, 200: {faucet_vips: ['fd00:2::fe/64', 'fe80::fe/64', 10.0.2.254/24], faucet_mac: 0e:00:00:00:00:02, routes: [{route: {ip_dst: '::/0', ip_gw: 'fe80::1'}}, {route: {ip_dst: '2001:db8::/32', ip_gw: 'fd00:2::2'}}, {route: {ip_dst: 8.0.0.0/8, ip_gw: 10.0.2.2}}]}}, %s}" % ROUTED,
     [f"host 1 1 100 {ONE} 0", f"host 1 3 200 {TWO} 0", f"host 1 1 200 {THREE} 0", f"neighbour 1 200 fd00:2::2 {TWO}", "neighbour 1 200 fd00:2::3", f"neighbour 1 200 fe80::1 {THREE}", f"neighbour 1 100 fd00::1 {ONE}", f"neighbour 1 200 10.0.2.2 {TWO}"], [1, 2, 3]),
    ("VLANs with gateways of their own", "{dps: {a: {dp_id: 1, interfaces: {1: {native_vlan: 100}, 2: {native_vlan: 100, acl_in: f}, 3: {tagged_vlans: [200]}}}}, vlans: {100: {faucet_vips: [10.0.1.254/24, 10.0.2.254/24], routes: [{route: {ip_dst: 10.9.0.0/16, ip_gw: 10.0.1.9}}]}, 200: {faucet_vips: [10.0.2.254/24], faucet_mac: 0e:00:00:00:00:02}}, acls: {f: [{rule: {dl_type: 0x0800, ip_proto: 17, udp_dst: 53, actions: {output: {port: 3}}}}, {rule: {dl_type: 0x86dd, ip_proto: 17, udp_dst: 53, actions: {output: {port: 3}}}}, {rule: {dl_type: 0x86dd, ip_proto: 6, tcp_src: 7, actions: {}}}, {rule: {actions: {allow: 1}}}]}}",
     [f"host 1 1 100 {ONE} 0", f"neighbour 1 100 10.0.1.9 {ONE}"], [1, 2, 3]),
    ("the root of a stack", "{dps: {a: {dp_id: 1, stack: {priority: 1}, interfaces: {1: {native_vlan: 100}, 2: {tagged_vlans: [200]}, 4: {mirror: 1}, 12: {stack: {dp: b, port: 21}}, 13: {stack: {dp: c, port: 31}}}}, b: {dp_id: 2, interfaces: {1: {native_vlan: 100}, 21: {stack: {dp: a, port: 12}}, 23: {stack: {dp: c, port: 32}}}}, c: {dp_id: 3, interfaces: {1: {native_vlan: 200}, 31: {stack: {dp: a, port: 13}}, 32: {stack: {dp: b, port: 23}}}}}}",
     [f"host 1 1 100 {ONE} 0", f"host 2 1 100 {TWO} 0", f"host 3 1 200 {THREE} 0"], [1, 2, 4, 12, 13]),
    ("the far end of a stack, routed", "{dps: {a: {dp_id: 2, stack: {priority: 1}, interfaces: {1: {native_vlan: 100}, 12: {stack: {dp: b, port: 21}}}}, b: {dp_id: 1, interfaces: {1: {native_vlan: 100, acl_in: f}, 2: {native_vlan: 200}, 21: {stack: {dp: a, port: 12}}}}}, vlans: {100: {faucet_vips: [10.0.1.254/24]}, 200: {faucet_vips: [10.0.2.254/24]}}, %s, acls: {f: [{rule: {dl_type: 0x0800, nw_proto: 1, actions: {allow: 1, output: {port: 2}}}}, {rule: {actions: {allow: 1}}}]}}" % ROUTED,
     [f"host 2 1 100 {ONE} 0", f"host 1 2 200 {TWO} 0", f"neighbour 1 200 10.0.2.2 {TWO}", f"neighbour 1 100 10.0.1.9 {ONE}"], [1, 2, 21]),
]


def frames(count):
    random.seed(7)
    number = 0
    for name, conf, learned, ports in STATES:
        print(f"# {name}", f"conf {conf}", *learned, "cold 1", sep="\n")
        for made, port in [(frame, random.choice(ports)) for _ in range(count)] + [(lldp, port) for port in ports]:
            number += 1
            print(f"sends 1 {port} {made(number).hex()}")


# ---- the entries that test_plans prints, as messages (OpenFlow 1.3, 7.2.3 to 7.2.5 and 7.3.4.1)

FIELDS = {"in_port": (0, 4), "eth_dst": (3, 6), "eth_src": (4, 6), "eth_type": (5, 2), "vlan_vid": (6, 2), "vlan_pcp": (7, 1), "ip_proto": (10, 1), "ipv4_src": (11, 4), "ipv4_dst": (12, 4), "tcp_src": (13, 2), "tcp_dst": (14, 2), "udp_src": (15, 2), "udp_dst": (16, 2), "icmpv4_type": (19, 1), "icmpv4_code": (20, 1), "arp_op": (21, 2), "arp_spa": (22, 4), "arp_tpa": (23, 4), "ipv6_src": (26, 16), "ipv6_dst": (27, 16), "icmpv6_type": (29, 1), "icmpv6_code": (30, 1), "ipv6_nd_target": (31, 16)}


def value(name, text):
    if name.startswith("ipv6"):
        return socket.inet_pton(socket.AF_INET6, text)
    if ":" in text:
        return mac(text)
    if "." in text:
        return ip4(text)
    present = 0x1000 if name == "vlan_vid" and not text.startswith("0x") else 0
    return (int(text, 0) + present).to_bytes(FIELDS[name][1], "big")


def field(text):
    name, _, more = text.partition("=")
    first, _, mask = more.partition("/")
    data = value(name, first) + (value(name, mask) if mask else b"")
    return struct.pack("!HBB", 0x8000, FIELDS[name][0] << 1 | bool(mask), len(data)) + data


def padded(data):
    return data + bytes(-len(data) % 8)


def action(text):
    words = text.split()
    if words[0] == "output":
        port = {"controller": CONTROLLER, "in_port": IN_PORT}.get(words[1]) or int(words[1])
        return struct.pack("!HHIH6x", 0, 16, port, int(words[4], 0) if len(words) > 2 else 0)
    if words[0] == "push":
        return struct.pack("!HHH2x", 17, 8, int(words[1], 0))
    if words[0] == "set":
        data = padded(bytes(4) + field(words[1]))
        return struct.pack("!HH", 25, len(data)) + data[4:]
    return struct.pack("!HH4x", {"pop": 18, "dec_ttl": 24}[words[0]], 8)


def instruction(text):
    if text.startswith("goto "):
        return struct.pack("!HHB3x", 1, 8, int(text[5:]))
    actions = b"".join(map(action, text.split(", ")))
    return struct.pack("!HH4x", 4, 8 + len(actions)) + actions


def flow_mod(command, table, priority, match, instructions):
    front = struct.pack("!QQBBHHHIIIHH", 0, 0, table, command, 0, 0, priority, ANY, ANY, ANY, 0, 0)
    return front + padded(struct.pack("!HH", 1, 4 + len(match)) + match) + instructions


def add(line):
    key, _, what = line.partition(": ")
    table, priority, *fields = key.split()
    instructions = b"" if what == "drop" else b"".join(map(instruction, what.split("; ")))
    return flow_mod(0, int(table[6:]), int(priority[9:]), b"".join(map(field, fields)), instructions)


# ---- what test_plans answered, and what the switch does


def read_answers(file):
    states = []
    lines = open(file, encoding="utf-8").read().split("\n")
    for line in lines:
        if line.startswith("# "):
            states.append({"name": line[2:], "entries": [], "frames": []})
        elif line.startswith("cold "):
            here = states[-1]["entries"]
        elif line.startswith("sends "):
            port, digits = line.split(" =>")[0].split()[2:]
            described, sent = [], []
            states[-1]["frames"].append((int(port), bytes.fromhex(digits), described, sent))
            here = described
        elif line == "  sent":
            here = sent
        elif line.startswith("    "):
            here.append(line.strip())
    return states


def shown(port, data):
    """As test_plans shows a packet that is sent: addresses, the VLANs of the tags, the time to live or hop limit."""
    text = ":".join(f"{b:02x}" for b in data[:6]) + " " + ":".join(f"{b:02x}" for b in data[6:12])
    at = 12
    while data[at : at + 2] == b"\x81\x00":
        text += f" vlan {struct.unpack('!H', data[at + 2 : at + 4])[0] & 0xFFF}"
        at += 4
    if data[at : at + 2] == b"\x08\x00":
        text += f" ttl {data[at + 10]}"
    if data[at : at + 2] == b"\x86\xdd" and len(data) >= at + 42 and data[at + 2] >> 4 == 6:
        text += f" hops {data[at + 9]}"
    return f"port {port}: {text}"


def number_of(data):
    at = data.find(FRONT)
    while at >= 0 and data[at + 6 : at + 8] != BACK:
        at = data.find(FRONT, at + 1)
    return struct.unpack("!I", data[at + 2 : at + 6])[0] if at >= 0 else None


def left_by(port, passed):
    """The frames that left by a port, but for the first so many bytes of its recording."""
    data, found = open(f"{RUN}/{port}.pcap", "rb").read(), []
    while passed + 16 <= len(data):
        length = struct.unpack("<I", data[passed + 8 : passed + 12])[0]
        found.append(data[passed + 16 : passed + 16 + length])
        passed += 16 + length
    return found, passed


def put_in(port, data):
    words = ["ovs-appctl", "-t", f"{RUN}/switch.ctl", "netdev-dummy/receive", f"p{port}", data.hex()]
    subprocess.run(words, check=True, stdout=subprocess.DEVNULL)


def collect(connection, state, passed):
    """What left of each frame, once the switch has been quiet for a second."""
    before = None
    while before != (now := [os.path.getsize(f"{RUN}/{port}.pcap") for port in PORTS] + [len(connection.packets)]):
        before = now
        time.sleep(1)
    left = collections.defaultdict(list)
    for port in PORTS:
        found, passed[port] = left_by(port, passed[port])
        for data in found:
            left[number_of(data)].append(shown(port, data))
    for data in connection.packets:
        left[number_of(data)].append(shown(CONTROLLER, data))
    return left


def answers(file):
    wrong, passed = 0, {port: 24 for port in PORTS}
    for state in read_answers(file):
        connection = Connection()
        connection.say(FLOW_MOD, flow_mod(3, 0xFF, 0, b"", b""))
        connection.wait_for(connection.say(BARRIER_REQUEST, b""))
        for line in state["entries"]:
            connection.say(FLOW_MOD, add(line))
        connection.wait_for(connection.say(BARRIER_REQUEST, b""))
        for port, data, _, _ in state["frames"]:
            put_in(port, data)
        left = collect(connection, state, passed)
        connection.close()
        other = 0
        for port, data, described, sent in state["frames"]:
            if not sorted(left[number_of(data)]) == sorted(described) == sorted(sent):
                other += 1
                print(f"OTHERWISE by port {port}: {data.hex()}", *described, "on the switch:", *left[number_of(data)], sep="\n    ")
        wrong += other + len(connection.errors)
        count = sum(len(sent) for _, _, _, sent in state["frames"])
        print(f"{state['name']}: {len(state['entries'])} entries, {len(connection.errors)} errors, {len(state['frames'])} frames, {count} packets sent, {other} otherwise")
    return wrong


# ---- matches and actions on IPv6, as test_packets answers

NAMES = {number: name for name, (number, _) in FIELDS.items()}
IPV6, ICMPV6 = [(5, 0x86DD)], [(5, 0x86DD), (10, 58)]
# what the fields of IPv6 ask of their match (OpenFlow 1.3, 7.2.3.6)
ASKED = {10: IPV6, 26: IPV6, 27: IPV6, 29: ICMPV6, 30: ICMPV6} | {it: IPV6 + [(10, proto)] for proto, pair in ((6, (13, 14)), (17, (15, 16))) for it in pair}
HIT, OTHER = 2, 3


def kind_of(data):
    """The first byte behind a frame's IPv6 header."""
    return data[data.index(b"\x86\xdd") + 42]


def field_of(number, bits, mask=None):
    size = FIELDS[NAMES[number]][1]
    data = bits.to_bytes(size, "big") + (mask.to_bytes(size, "big") if mask is not None else b"")
    return struct.pack("!HBB", 0x8000, number << 1 | (mask is not None), len(data)) + data


def match_of(words, data):
    """The match that asks for these fields and for what they ask for; None where a mask leaves out all bits."""
    found = {}
    for word in words.split(","):
        number, bits, mask = int(word.split("=")[0]), *(int(it, 16) for it in word.split("=")[1].split("/"))
        if not mask:
            return None
        whole = mask == (1 << 8 * FIELDS[NAMES[number]][1]) - 1
        for asked, wanted in ASKED.get(number, []) + (ICMPV6 + [(29, 136 if kind_of(data) == 136 else 135)] if number == 31 else []):
            found.setdefault(asked, field_of(asked, wanted))
        found[number] = field_of(number, bits & mask, None if whole else mask)
    return b"".join(found[it] for it in sorted(found))


def outputs(port):
    return struct.pack("!HHIH6x", 0, 16, port, 0)


def actions_of(words):
    """The actions, where ports 8 and 9 are 12 and 13; what is left of the packet leaves by port 2."""
    data = b""
    for word in words.split():
        kind, _, rest = word.partition(":")
        if kind == "out":
            data += outputs({8: 12, 9: 13}[int(rest)])
        if kind == "ttl":
            data += struct.pack("!HH4x", 24, 8)
        if kind == "set":
            number, _, bits = rest.partition("=")
            body = padded(bytes(4) + field_of(int(number), int(bits.split("/")[0], 16)))
            data += struct.pack("!HH", 25, len(body)) + body[4:]
    return data + outputs(HIT)


def applied(actions):
    return struct.pack("!HH4x", 4, 8 + len(actions)) + actions


def given(words, answer):
    """The entries and the frame of a case, and which packets have to leave: a port and, of actions, what the packet is."""
    if words[0] == "hits":
        data = bytes.fromhex(words[3])
        match = match_of(words[1], data)
        hit = match is not None and [flow_mod(0, 0, 1, match, applied(outputs(HIT))), flow_mod(0, 0, 0, b"", applied(outputs(OTHER)))]
        return hit, data, [(HIT if answer == "true" else OTHER, None)]
    sents = [({"8": 12, "9": 13}[port], text) for port, text in re.findall(r"Sent \{ port: (\d+), packet: (Packet \{.*?rest: Items \{ items: \[[^]]*\] \} \}) \}", answer)]
    left = re.search(r"left: Some\((Packet \{.*\})\) \}$", answer)
    data = bytes.fromhex(words[2])
    asked = IPV6 + [(10, data[data.index(b"\x86\xdd") + 8])]
    match = b"".join(field_of(*it) for it in asked + ([(29, kind_of(data))] if asked == ICMPV6 else []))
    return [flow_mod(0, 0, 0, match, applied(actions_of(" ".join(words[3:]))))], data, sents + ([(HIT, left[1])] if left else [])


def without_rest(text):
    """A packet as it is shown, but for the bytes that no part has: a switch mends the checksums among them."""
    return text and text[: text.index("rest: ")]


def left_of_case(connection, entries, data, count, passed):
    """What the switch sends of the frame, or None where it refuses an entry."""
    connection.errors.clear()
    for message in [flow_mod(3, 0xFF, 0, b"", b"")] + entries:
        connection.say(FLOW_MOD, message)
    connection.wait_for(connection.say(BARRIER_REQUEST, b""))
    if connection.errors:
        return None
    put_in(1, data)
    found, end = [], time.time() + 2
    while time.time() < end:
        for port in (HIT, OTHER, 12, 13):
            more, passed[port] = left_by(port, passed[port])
            found += [(port, it) for it in more]
        if len(found) >= count:
            end = min(end, time.time() + 0.1)
        time.sleep(0.02)
    return found


def fields(file):
    from frames6 import Held
    connection, passed = Connection(), {port: 24 for port in PORTS}
    counts = collections.Counter()
    for line in open(file, encoding="utf-8").read().split("\n"):
        words, _, answer = line.partition(" => ")
        words = words.split()
        if not words or words[0] not in ("hits", "act") or "86dd" not in words[3 if words[0] == "hits" else 2]:
            continue
        entries, data, wanted = given(words, answer)
        found = entries and left_of_case(connection, entries, data, len(wanted), passed)
        if not entries or found is None:
            counts[f"{words[0]}: asks for no bit" if not entries else f"{words[0]}: refused with ERROR %d %d" % connection.errors[0][1]] += 1
            continue
        seen = [(port, None if words[0] == "hits" else without_rest(Held(it).said())) for port, it in found]
        same = sorted(seen, key=repr) == sorted(((port, without_rest(text)) for port, text in wanted), key=repr)
        counts[f"{words[0]}: {'as answered' if same else 'OTHERWISE'}"] += 1
        if not same:
            print("OTHERWISE", line, "on the switch:", *seen, sep="\n    ")
    connection.close()
    print("matches and actions on IPv6:", ", ".join(f"{count} {it}" for it, count in sorted(counts.items())))
    return counts["hits: OTHERWISE"] + counts["act: OTHERWISE"] + (counts["hits: as answered"] == 0)


if __name__ == "__main__":
    calls = {"examples": examples, "answers": answers, "frames": lambda n: frames(int(n)), "fields": fields}
    sys.exit(bool(calls[sys.argv[1]](*sys.argv[2:])))
