"""Measures how the time of runs grows: see linear.sh, which calls it.

linear.py PROGRAM FOLDER    FOLDER is an empty folder for files
"""
import os
import resource
import signal
import struct
import subprocess
import sys

from one_vlan import COOKIE, HELLO, NO_PORT, match, message
from switches import Switch, heard, source

PROGRAM, FOLDER = sys.argv[1:]
MOST_SECONDS = int(os.environ.get("MOST", "20"))
ONE = "vlans: {100: }\ndps:\n  s1:\n    dp_id: 1\n    interfaces: {1: {native_vlan: 100}}\n"


def put(name, text):
    with open(f"{FOLDER}/{name}", "wb") as file:
        file.write(text if isinstance(text, bytes) else text.encode())
    return f"{FOLDER}/{name}"


def one_run(words, status):
    """The seconds of a processor of a run; None where it took more than MOST_SECONDS, after which it was ended."""
    limit = lambda: resource.setrlimit(resource.RLIMIT_CPU, (MOST_SECONDS, MOST_SECONDS))
    process = subprocess.Popen([PROGRAM, *words], stdout=subprocess.DEVNULL, stderr=subprocess.DEVNULL, preexec_fn=limit)
    try:
        _, ended, usage = os.wait4(process.pid, 0)
    except BaseException:
        process.kill()
        raise
    code = os.waitstatus_to_exitcode(ended)
    if code in (-signal.SIGKILL, -signal.SIGXCPU):
        return None
    assert code == status, (words, code)
    return usage.ru_utime + usage.ru_stime


def spent(words, status):
    """The least seconds of a processor of three runs, or of one that takes more than one second."""
    least = one_run(words, status)
    for _ in range(2):
        if least is None or least > 1:
            break
        least = min(least, one_run(words, status))
    return least


# ---- inputs, by their size: the words of a run and its status


def keys_of_a_map(n):
    return ["check", put("f.yaml", "".join(f"key{k}: {k}\n" for k in range(n)))], 2


def keys_of_a_flow_map(n):
    return ["check", put("f.yaml", "{" + ", ".join(f"key{k}: {k}" for k in range(n)) + "}\n")], 2


def acls_of_a_file(n):
    return ["check", put("f.yaml", ONE + "acls:\n" + "".join(f"  acl{k}: []\n" for k in range(n)))], 0


def acls_of_two_files(n):
    put("more.yaml", "acls:\n" + "".join(f"  more{k}: []\n" for k in range(n // 2)))
    return ["check", put("f.yaml", ONE + "include: [more.yaml]\nacls:\n" + "".join(f"  acl{k}: []\n" for k in range(n // 2)))], 0


def files_in_a_list(n):
    for k in range(n):
        put(f"i{k}.yaml", f"acls: {{acl{k}: []}}\n")
    return ["check", put("f.yaml", ONE + f"include: [{', '.join(f'i{k}.yaml' for k in range(n))}]\n")], 0


def files_behind_many_keys(n):
    """A file of many keys, and files that each give a name of a section that stands behind these keys."""
    for k in range(n):
        put(f"i{k}.yaml", f"acls: {{acl{k}: []}}\n")
    keys = "".join(f"key{k}: {k}\n" for k in range(16 * n))
    return ["check", put("f.yaml", f"{keys}{ONE}acls:\ninclude: [{', '.join(f'i{k}.yaml' for k in range(n))}]\n")], 2


def names_of_each_section(n):
    """Datapaths, ACLs and routers, as many of each; the datapaths are more than there may be."""
    dps = "".join(f"  s{k}: {{dp_id: {k + 1}, interfaces: {{1: {{native_vlan: 100}}}}}}\n" for k in range(n))
    acls = "".join(f"  acl{k}: []\n" for k in range(n))
    routers = "".join(f"  router{k}: {{vlans: []}}\n" for k in range(n))
    return ["check", put("f.yaml", f"vlans: {{100: }}\ndps:\n{dps}acls:\n{acls}routers:\n{routers}")], 2


def files_8_deep(n):
    """Chains of files, of which each includes the next, 8 deep."""
    for chain in range(n // 8):
        for deep in range(8):
            below = f"include: [c{chain}d{deep + 1}.yaml]\n" if deep < 7 else ""
            put(f"c{chain}d{deep}.yaml", f"{below}acls: {{acl{chain}at{deep}: []}}\n")
    return ["check", put("f.yaml", ONE + f"include: [{', '.join(f'c{chain}d0.yaml' for chain in range(n // 8))}]\n")], 0


def ports(n, more=""):
    return "".join(f"      {port}: {{native_vlan: 100{more}}}\n" for port in range(1, n + 1))


def interfaces(count):
    return f"vlans: {{100: {{max_hosts: 16384}}}}\ndps:\n  s1:\n    dp_id: 1\n    interfaces:\n{ports(count, ', max_hosts: 16384')}"


def acl_outputs(n):
    """One ACL at one port: n outputs, of 256 ports for each rule."""
    named = ", ".join(map(str, range(1, 257)))
    rules = "".join(f"    - rule: {{dl_type: 0x800, nw_proto: 6, tcp_dst: {k}, actions: {{output: {{ports: [{named}]}}}}}}\n" for k in range(n // 256))
    text = "vlans: {100: }\ndps:\n  s1:\n    dp_id: 1\n    interfaces:\n" + ports(256).replace("1: {native_vlan: 100}", "1: {native_vlan: 100, acl_in: a}", 1)
    return ["plan", put("f.yaml", text + "acls:\n  a:\n" + rules), "s1"], 0


def acl_rules(n):
    """As many rules, at as many ports as needed."""
    rules = "".join(f"    - rule: {{dl_type: 0x800, nw_proto: 6, tcp_dst: {k}, actions: {{allow: 1}}}}\n" for k in range(1000))
    text = "vlans: {100: }\ndps:\n  s1:\n    dp_id: 1\n    interfaces:\n" + ports(n // 1000, ", acl_in: a")
    return ["plan", put("f.yaml", text + "acls:\n  a:\n" + rules), "s1"], 0


def record(moment, kind, conn=0, body=b""):
    return struct.pack(">QBII", moment, kind, conn, len(body)) + body


def connections(n):
    """Connections that open and stay."""
    return ["replay", put("f.yaml", ONE), put("r.rec", b"".join(record(0, 1, conn) for conn in range(1, n + 1)))], 0


def connections_that_speak(n):
    """A hundred connections that stay, and messages on each in turn."""
    opened = b"".join(record(0, 1, conn) for conn in range(1, 101))
    return ["replay", put("f.yaml", ONE), put("r.rec", opened + b"".join(record(0, 2, 1 + k % 100, HELLO) for k in range(n)))], 0


def connections_one_by_one(n):
    return ["replay", put("f.yaml", ONE), put("r.rec", b"".join(record(0, 1, conn) + record(0, 3, conn) for conn in range(1, n + 1)))], 0


def moments(n):
    return ["replay", put("f.yaml", ONE), put("r.rec", b"".join(record(10 * k, 5) for k in range(n)))], 0


def answered(configuration, ports_told, story):
    """The records of a switch that is opened and then says each of these at its moment; what is said to it is answered at once."""
    pipe = f"{FOLDER}/pipe"
    if not os.path.exists(pipe):
        os.mkfifo(pipe)
    process = subprocess.Popen([PROGRAM, "replay", configuration, pipe], stdout=subprocess.PIPE, bufsize=0)
    switch, kept, came = Switch(1, ports_told), [], b""
    with open(pipe, "wb", buffering=0) as told:
        def tell(*parts):
            kept.append(record(*parts))
            told.write(kept[-1])

        def settle(moment):
            nonlocal came
            mark = len(kept).to_bytes(8, "big")
            tell(moment, 2, 1, message(2, mark))
            while mark not in switch.echoes:
                came += process.stdout.read(1 << 16)
                while len(came) >= 17 and len(came) >= 17 + struct.unpack(">I", came[13:17])[0]:
                    length = 17 + struct.unpack(">I", came[13:17])[0]
                    answer, came = switch.take(came[17:length]), came[length:]
                    if answer:
                        tell(moment, 2, 1, answer)
            switch.echoes.clear()

        tell(0, 1, 1)
        tell(0, 2, 1, HELLO)
        for moment, body in [(0, b"")] * 8 + story:
            if body is None:
                tell(moment, 5)
            elif body:
                tell(moment, 2, 1, body)
            if body is None or moment == 0 and not body or len(body) > 2000:
                settle(moment)
    process.stdout.read()
    assert process.wait() == 0
    return b"".join(kept)


def hosts_due_at_once(n):
    """Hosts that are heard in one piece, so that they are learned without a batch between, and grow old and are forgotten at once."""
    name = put("f.yaml", interfaces(8))
    told = b"".join(heard(1 + k % 8, k) for k in range(n))
    story = [(0, told), *((15_000 * k, None) for k in range(1, 23)), (335_000, None)]
    return ["replay", name, put("r.rec", answered(name, range(1, 9), with_echoes(story)))], 0


def neighbours_due_at_once(n):
    """Addresses that are looked for at once: they are asked for ten times each, all at one moment."""
    name = put("f.yaml", ONE.replace("{100: }", "{100: {faucet_vips: [\"10.0.0.254/16\"]}}"))
    told = b"".join(gleaned(k) for k in range(n))
    due = [1000 * moment for moment in (1, 3, 7, 15, 31, 63, 127, 191, 255, 319)]
    story = sorted([(0, told), *((moment, None) for moment in due), *((15_000 * k, None) for k in range(1, 23))], key=lambda it: it[0])
    return ["replay", name, put("r.rec", answered(name, [1], with_echoes(story)))], 0


def with_echoes(story):
    """The switch is heard every so often, so that it isn't silent."""
    return [it for moment, body in story for it in ([(moment, body), (moment, message(3))] if body is None else [(moment, body)])]


def gleaned(number):
    """A PACKET_IN of table 4: a packet for an address of the VLAN's network that nobody has told of."""
    address = bytes([10, 0, 1 + number // 250, 1 + number % 250])
    header = bytes.fromhex("450000200007000040110000") + bytes([10, 0, 0, 1]) + address
    frame = bytes([14, 0, 0, 0, 0, 1]) + source(1) + bytes.fromhex("810000640800") + header + bytes(12)
    return message(10, struct.pack(">IHBBQ", NO_PORT, len(frame), 1, 4, COOKIE) + match(in_port=1) + bytes(2) + frame, 9)


INPUTS = [
    (keys_of_a_map, 12_000), (keys_of_a_flow_map, 12_000), (acls_of_a_file, 2_000), (acls_of_two_files, 2_000), (files_in_a_list, 500),
    (files_behind_many_keys, 500), (names_of_each_section, 2_000), (files_8_deep, 512), (acl_outputs, 16_384), (acl_rules, 4_000),
    (connections, 8_000), (connections_that_speak, 20_000), (connections_one_by_one, 20_000), (moments, 100_000),
    (hosts_due_at_once, 1_000), (neighbours_due_at_once, 512),
]


def times_of(make, sizes, nothing):
    """The seconds at each size, up to the first that takes too many."""
    times = []
    for size in sizes:
        words, status = make(size)
        seconds = spent(words, status)
        if seconds is None:
            break
        times.append(seconds - nothing)
    return times


def main():
    only = os.environ.get("ONLY", "")
    nothing = spent(["check", put("f.yaml", ONE)], 0)
    print(f"a run on nothing: {nothing:.3f} s")
    for make, least in INPUTS:
        if only and make.__name__ not in only.split(","):
            continue
        sizes = least, 2 * least, 4 * least
        times = times_of(make, sizes, nothing)
        seconds = ", ".join([f"{it:.3f}" for it in times] + [f"more than {MOST_SECONDS}"] * (len(times) < len(sizes)))
        ratios = ", ".join(f"{b / max(a, 0.0005):.2f}" for a, b in zip(times, times[1:]))
        print(f"{make.__name__}: {', '.join(map(str, sizes))}: {seconds} s; ratios {ratios}", flush=True)


if __name__ == "__main__":
    signal.signal(signal.SIGTERM, lambda *_: sys.exit("stopped"))
    main()
