"""Runs a controller with two real switches and hosts that speak IPv6 over a gateway: see live.sh, which calls it in a network
namespace of its own.

live6.py PROGRAM FOLDER   FOLDER is an empty folder for files
"""
import re, signal, socket, struct, sys, time

import live

CONFIGURATION = """
vlans:
    office: {vid: 100, faucet_vips: ["10.0.100.254/24", "fd00:100::fe/64"]}
    lab: {vid: 200, faucet_vips: ["10.0.200.254/24", "fd00:200::fe/64"], faucet_mac: "0e:00:00:00:20:01"}
routers:
    between: {vlans: [office, lab]}
dps:
    sw1:
        dp_id: 1
        arp_neighbor_timeout: 1
        stack: {priority: 1}
        interfaces:
            1: {native_vlan: office}
            2: {native_vlan: office}
            3: {stack: {dp: sw2, port: 3}}
            4: {native_vlan: office}
    sw2:
        dp_id: 2
        arp_neighbor_timeout: 1
        interfaces:
            1: {native_vlan: office}
            2: {native_vlan: lab}
            3: {stack: {dp: sw1, port: 3}}
"""
VLANS = {"h1": 100, "h2": 100, "h3": 100, "h4": 200}
# Milliseconds from a try that is the first unanswered one to the end of the last wait, and how much later that may be seen.
GIVEN_UP, LATE = 319_000, 8_000


class Host(live.Host):
    """A host with an address of each family."""

    def lives_at(self, vlan, place=0):
        super().lives_at(vlan, place)
        self.address6 = f"fd00:{vlan}::{self.number}"
        for other in range(len(live.HOSTS[self.name])):
            self.ask("sysctl", "-qw", f"net.ipv6.conf.eth{other}.disable_ipv6={int(other != place)}")
        self.ask("sysctl", "-qw", f"net.ipv6.conf.eth{place}.accept_ra=0")
        self.ask("ip", "-6", "address", "add", f"{self.address6}/64", "dev", f"eth{place}", "nodad")
        self.ask("ip", "-6", "route", "replace", "default", "via", f"fd00:{vlan}::fe")


def solicitations(proxy, address):
    """How many messages of the controller have a neighbour solicitation for an address."""
    target = socket.inet_pton(socket.AF_INET6, address)
    body = re.compile(re.escape(struct.pack("!BB", 135, 0)) + b".{6}" + re.escape(target), re.DOTALL)
    with proxy.lock:
        return sum(len(body.findall(wire)) for wire in proxy.wire.values())


def leads_to(switch, host):
    """An entry of the routes of IPv6 leads to the host."""
    return any(f"ipv6_dst={host.address6}" in entry for entry in switch.entries())


def whole(program, folder):
    live.Host = Host
    stage = live.Stage(program, folder)
    hosts, switches, controller = stage.hosts, stage.switches, stage.controller
    for name, vlan in VLANS.items():
        hosts[name].lives_at(vlan)
    for switch in switches.values():
        switch.connect()
    stage.begin(CONFIGURATION)
    stage.filled()
    time.sleep(2)
    hosts["h4"].reaches("fd00:200::fe")
    hosts["h1"].reaches("fd00:100::fe")
    live.done("hosts reach the gateways of their VLANs over IPv6")

    target, start = hosts["h2"], time.time()
    hosts["h4"].reaches(target.address6)
    asked = solicitations(stage.proxy, target.address6)
    assert asked, "no solicitation went to the switches"
    assert all(leads_to(switch, target) for switch in switches.values())
    live.done(f"a host of another VLAN is solicited ({asked} messages), resolved and reached after {time.time() - start:.1f} s; both switches route to it")
    hosts["h1"].reaches(hosts["h4"].address6, hosts["h3"].address6)
    hosts["h1"].reaches(hosts["h4"].address)
    live.done("hosts reach each other over IPv6 within a VLAN and between two, and over IPv4 as before")
    stage.hold_what_a_replay_says("with neighbours of both families")

    start = time.time()
    target.lives_at(100, 1)
    target.reaches("fd00:100::fe")
    hosts["h4"].reaches(target.address6)
    live.done(f"a host that moved to another port is reached from the other VLAN after {time.time() - start:.1f} s")
    stage.hold_what_a_replay_says("behind the move")

    target.ask("ip", "link", "set", "eth1", "down")
    gone, before = time.time(), solicitations(stage.proxy, target.address6)
    live.until("a host that is gone is forgotten", lambda: not any(leads_to(switch, target) for switch in switches.values()), (GIVEN_UP + LATE) / 1000 + 10)
    took, asked = 1000 * (time.time() - gone), solicitations(stage.proxy, target.address6) - before
    assert GIVEN_UP - 2_000 <= took <= GIVEN_UP + LATE, took
    live.done(f"a host that is gone is forgotten {took / 1000:.0f} s later, behind {asked} messages that ask for it")
    hosts["h1"].reaches(hosts["h4"].address6)
    stage.hold_what_a_replay_says("behind that")
    assert not stage.proxy.errors, stage.proxy.errors
    live.done("no error from a switch in all that")
    stage.end()


if __name__ == "__main__":
    signal.signal(signal.SIGTERM, lambda *_: sys.exit("stopped"))
    whole(*sys.argv[1:])
