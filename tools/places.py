"""Which lines of a configuration a flow entry comes from, for the tools beside it. The rows of docs/reference/flow-tables.md."""
import ipaddress

import openflow
from subset import Map


def number(text):
    """What a key or value is as a number, or None."""
    try:
        return int(text, 16 if text.lower().startswith("0x") else 10)
    except (TypeError, ValueError):
        return None


def place(it, text):
    return f"{it.file}:{it.line}: {text}"


class Places:
    """A configuration's tree with its lines, beside what it means."""

    def __init__(self, tree, conf):
        self.tree, self.conf = tree, conf

    def section(self, name):
        return self.tree.get(name) or Map()

    def datapath(self, name):
        return next((key, it) for key, it in self.section("dps").items() if it.get("name", key) == name)

    def interface(self, dp, port):
        """The key and the map of an interface, by its number."""
        for key, it in self.datapath(dp)[1].get("interfaces", Map()).items():
            it = it or Map()
            if number(it.get("number", key)) == port:
                return key, it
        return None, Map()

    def vlan(self, vid):
        """The key and the map of a VLAN, or nothing where only numbers name it."""
        for key, it in self.section("vlans").items():
            it = it if isinstance(it, Map) else Map()
            if number(it.get("vid", key)) == vid:
                return key, it
        return None, Map()

    def vlan_place(self, vid):
        key, _ = self.vlan(vid)
        return f"VLAN {vid}, which only its number names" if key is None else place(key, f"VLAN {vid}, {key}")

    def interface_place(self, dp, port, *keys):
        """An interface's line, or that of the first of these keys which it has."""
        key, it = self.interface(dp, port)
        if key is None:
            return f"port {port} of {dp}"
        for name in keys:
            if name in it:
                at = next(one for one in it if one == name)
                return place(at, f"{name} of port {port} of {dp}")
        return place(key, f"port {port} of {dp}")

    def vlan_key_place(self, vid, name):
        key, it = self.vlan(vid)
        return place(next(one for one in it if one == name), f"{name} of VLAN {vid}") if name in it else self.vlan_place(vid)

    def rule_place(self, names, count):
        """The rule of this number, counted over all of some ACLs."""
        for name in names:
            rules = self.section("acls").get(name) or []
            if count < len(rules):
                return place(rules[count], f"rule {count} of the ACL {name}")
            count -= len(rules)
        return "a rule of " + ", ".join(names)

    def drop_place(self, dp, key):
        name, it = self.datapath(dp)
        return place(next(one for one in it if one == key), f"{key} of {dp}") if key in it else place(name, f"{dp}, where {key} isn't written, and so is true")

    def route_place(self, vid, network, gateway):
        """The VIP or the route of a VLAN's router that has this network."""
        router = next((vids for vids in self.conf["routers"].values() if vid in vids), [vid])
        for one in router:
            _, it = self.vlan(one)
            for vip in it.get("faucet_vips", []):
                face = ipaddress.ip_interface(str(vip))
                if network in (face.network, ipaddress.ip_network(face.ip)):
                    return place(vip, f"the VIP {vip} of VLAN {one}")
            for route in it.get("routes", []):
                if ipaddress.ip_network(str(route["route"]["ip_dst"])) == network:
                    return place(route, f"the route to {network} of VLAN {one}")
        return f"the neighbour {network.network_address}, whose Ethernet address {gateway} was heard"


def origin(places, dp, entry):
    """Where an entry comes from: lines of the file, and what was learned."""
    has = {name: value for name, value, _ in entry.fields}
    port, vid = has.get("in_port"), has.get("vlan_vid", 0) & 0xFFF
    rule = 10000 - entry.priority
    if entry.priority == 0:
        return ["each datapath has it: on to the next table"]
    return {0: of_port, 1: of_admission, 2: of_vlan_rule, 3: of_source, 4: of_routing, 6: of_gateway, 7: of_destination, 8: of_flood}[entry.table](places, dp, entry, has, port, vid, rule)


def of_port(places, dp, entry, has, port, vid, rule):
    interface = places.conf["dps"][dp]["interfaces"][str(port)]
    if entry.priority > 1:
        return [places.rule_place(interface["acls_in"], rule), places.interface_place(dp, port, "acls_in", "acl_in")]
    if interface["acls_in"]:
        return [places.interface_place(dp, port, "acls_in", "acl_in") + ": no rule of its ACLs takes the packet"]
    return [places.interface_place(dp, port, "stack")]


def of_admission(places, dp, entry, has, port, vid, rule):
    drops = {32: "drop_lldp", 33: "drop_bpdu", 31: "drop_broadcast_source_address", 30: "drop_spoofed_faucet_mac"}
    if entry.priority in drops:
        return [places.drop_place(dp, drops[entry.priority])]
    if entry.priority == 40 and "eth_type" in has:
        return [places.interface_place(dp, port, "stack")]
    if entry.priority == 40:
        return [places.interface_place(dp, port, "stack"), places.vlan_place(vid)]
    return [places.interface_place(dp, port, "tagged_vlans" if vid else "native_vlan")]


def of_vlan_rule(places, dp, entry, has, port, vid, rule):
    names = places.conf["vlans"][str(vid)]["acls_in"]
    at = places.vlan_key_place(vid, "acls_in" if "acls_in" in places.vlan(vid)[1] else "acl_in")
    return [places.rule_place(names, rule), at] if entry.priority > 1 else [at + ": no rule of its ACLs takes the packet"]


def of_source(places, dp, entry, has, port, vid, rule):
    host = f"the host {openflow.mac_text(has['eth_src'])} of VLAN {vid}" if "eth_src" in has else ""
    if entry.priority == 40:
        return ["each datapath has it: a group address is no source to learn"]
    if entry.priority == 30:
        return [f"{host} was learned here", places.interface_place(dp, port)]
    if entry.priority == 20:
        return [f"{host} stays at another port, which has permanent_learn"]
    more = "" if entry.actions else ": nothing more is learned here"
    return [places.interface_place(dp, port, "permanent_learn", "max_hosts", "native_vlan", "tagged_vlans") + more, places.vlan_place(vid)]


def of_routing(places, dp, entry, has, port, vid, rule):
    if entry.priority == 9:
        return [places.vlan_key_place(vid, "faucet_vips") + ": no route holds the address"]
    network = ipaddress.ip_network((has.get("ipv4_dst", 0), entry.priority - 10))
    gateway = next((openflow.mac_text(more[1]) for kind, *more in entry.actions if kind == "set" and more[0] == "eth_dst"), "")
    return [places.route_place(vid, network, gateway), places.vlan_key_place(vid, "faucet_vips")]


def of_gateway(places, dp, entry, has, port, vid, rule):
    return [places.vlan_key_place(vid, "faucet_vips")]


def of_destination(places, dp, entry, has, port, vid, rule):
    host = f"the host {openflow.mac_text(has['eth_dst'])} of VLAN {vid} was learned"
    to = next((more[0] for kind, *more in entry.actions if kind == "output"), None)
    if entry.priority == 20:
        return [f"{host} at this port: no packet goes back without hairpin", places.interface_place(dp, port, "hairpin")]
    return [host, places.interface_place(dp, to, "stack")]


def of_flood(places, dp, entry, has, port, vid, rule):
    own = [places.interface_place(dp, port, "hairpin")] if port is not None else []
    return own + [places.vlan_key_place(vid, "unicast_flood") if entry.priority in (10, 20) else places.vlan_place(vid)]
