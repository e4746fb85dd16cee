"""Measures what an event costs a controller that knows many hosts: see grown.sh, which calls it.

grown.py PROGRAM FOLDER HOSTS ROUTES    FOLDER is an empty folder for files
"""
import signal
import struct
import sys

from one_vlan import COOKIE, NO_PORT, match, message, port_status
from replayed import HEARD, MOMENT, Replay
from switches import ECHO_REPLY, heard, source

PROGRAM, FOLDER, HOSTS, ROUTES = *sys.argv[1:3], int(sys.argv[3]), int(sys.argv[4])
PORTS, DPS = 48, 16
VIPS = 6  # the table that sends up what is for a gateway of a VLAN


def write(name, text):
    with open(f"{FOLDER}/{name}", "w") as file:
        file.write(text)
    return f"{FOLDER}/{name}"


def edges():
    return ", ".join(f"{port}: {{native_vlan: 100, max_hosts: 16384}}" for port in range(1, PORTS + 1))


def one():
    return write("one.yaml", f"vlans: {{100: {{max_hosts: 16384}}}}\ndps:\n  s1: {{dp_id: 1, interfaces: {{{edges()}}}}}\n")


def ring():
    """Datapaths in a ring of links: port 49 leads to port 50 of the next one."""
    text = "vlans: {100: {max_hosts: 16384}}\ndps:\n"
    for dp in range(1, DPS + 1):
        after, before = dp % DPS + 1, (dp - 2) % DPS + 1
        links = f"49: {{stack: {{dp: s{after}, port: 50}}}}, 50: {{stack: {{dp: s{before}, port: 49}}}}"
        text += f"  s{dp}: {{dp_id: {dp},{' stack: {priority: 1},' if dp == 1 else ''} interfaces: {{{edges()}, {links}}}}}\n"
    return write("ring.yaml", text)


def routed():
    """As many routes as are asked for, each by a gateway of its own."""
    route = "{{route: {{ip_dst: \"10.{0}.{1}.0/24\", ip_gw: \"172.16.{2}.{3}\"}}}}"
    routes = ", ".join(route.format(1 + k // 256, k % 256, 1 + k // 250, 1 + k % 250) for k in range(ROUTES))
    vlan = f"{{faucet_vips: [\"172.16.0.254/16\"], routes: [{routes}], max_hosts: 16384}}"
    return write("routed.yaml", f"vlans: {{100: {vlan}}}\ndps:\n  s1: {{dp_id: 1, interfaces: {{{edges()}}}}}\n")


def reply(number):
    """An ARP reply of the gateway of this number to the VLAN's own address, as its switch sends it up."""
    address, mac = bytes([172, 16, 1 + number // 250, 1 + number % 250]), source(number)
    own = bytes([14, 0, 0, 0, 0, 1])
    arp = struct.pack(">HHBBH", 1, 0x0800, 6, 4, 2) + mac + address + own + bytes([172, 16, 0, 254])
    frame = (own + mac + struct.pack(">HHH", 0x8100, 100, 0x0806) + arp).ljust(64, b"\0")
    return message(10, struct.pack(">IHBBQ", NO_PORT, len(frame), 1, VIPS, COOKIE) + match(in_port=1) + bytes(2) + frame, 9)


def pass_time(replay, seconds):
    """The clock goes on, and the switches are heard."""
    for _ in range(seconds):
        replay.now += 1000
        replay.tell(MOMENT)
        if replay.now % 15_000 == 0:
            for dp in replay.switches:
                replay.tell(HEARD, dp, message(ECHO_REPLY))
    replay.settle()


def spent(replay, events):
    """The seconds of a processor that these take, each told and all that is said of it answered before the next one."""
    begun = replay.spent()
    for dp, body in events:
        replay.tell(HEARD, dp, body)
        replay.settle()
    return replay.spent() - begun


def learned(replay, dps):
    """Hosts one after another, by thousands: the first and the last thousand, and what they hold."""
    idle, times = replay.memory()[0], []
    for first in range(0, HOSTS, 1000):
        hosts = range(first, min(first + 1000, HOSTS))
        times.append(spent(replay, [(1 + host % dps, heard(1 + host // dps % PORTS, host)) for host in hosts]) / len(hosts))
    held, most = replay.memory()
    last = times[-1] if HOSTS % 1000 == 0 or len(times) == 1 else times[-2]
    print(f"  {HOSTS} hosts: {1e6 * times[0]:.0f} us of a processor for each of the first thousand, {1e6 * last:.0f} us of the last whole one, "
          f"{last / times[0]:.2f} times; {1024 * (held - idle) / HOSTS:.0f} bytes a host at rest, {most} KB at most, {idle} KB before")
    return last <= 1.3 * times[0]


def on_one():
    print(f"a datapath with {PORTS} ports")
    replay = Replay(PROGRAM, one(), FOLDER, {1: range(1, PORTS + 1)})
    replay.begin()
    replay.settle()
    grown = learned(replay, 1)
    return (replay.finish() == 0) and grown


def on_a_ring():
    print(f"a ring of {DPS} datapaths with {PORTS} ports each")
    replay = Replay(PROGRAM, ring(), FOLDER, {dp: range(1, PORTS + 3) for dp in range(1, DPS + 1)})
    replay.begin()
    replay.settle()
    grown = learned(replay, DPS)
    for what, state in (("goes down", 1), ("comes up again", 0)):
        said = replay.said
        seconds = spent(replay, [(1, port_status(49, state)), (2, port_status(50, state))])
        print(f"  a link {what}: {1000 * seconds:.0f} ms of a processor, {replay.said - said} flow mods; {replay.memory()[1]} KB at most")
    return (replay.finish() == 0) and grown


def on_routes():
    print(f"a datapath with {PORTS} ports and {ROUTES} routes")
    configuration = routed()
    replay = Replay(PROGRAM, configuration, FOLDER, {1: range(1, PORTS + 1)})
    replay.begin()
    pass_time(replay, 1)
    for host in range(1000):
        replay.tell(HEARD, 1, heard(1 + host % PORTS, 100_000 + host))
    replay.settle()
    times, said = [], replay.said
    for number in range(ROUTES):
        times.append(spent(replay, [(1, reply(number))]))
    tenth = max(ROUTES // 10, 1)
    first, last = sum(times[:tenth]) / tenth, sum(times[-tenth:]) / tenth
    print(f"  gateways that answer one after another: {1e6 * first:.0f} us of a processor for each of the first tenth, {1e6 * last:.0f} us of the last, "
          f"{last / first:.2f} times; {(replay.said - said) / ROUTES:.1f} flow mods each; {replay.memory()[1]} KB at most")
    return replay.finish() == 0


def main():
    return not all([on_one(), on_a_ring(), on_routes()])


if __name__ == "__main__":
    signal.signal(signal.SIGTERM, lambda *_: sys.exit("stopped"))
    sys.exit(main())
