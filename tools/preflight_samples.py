"""Match fields and actions as the entries of a plan have them, for tools/preflight and the tests."""
from openflow import CONTROLLER, IN_PORT

TO_CONTROLLER = [("output", CONTROLLER)]
HERE, THERE, GATEWAY = 0x020000000001, 0x020000000002, 0x0E0000000001
# What each field asks of its match, a value, and a mask of it where one may stand (OpenFlow 1.3, 7.2.3.8).
IP, ARP = [("eth_type", 0x0800, None)], [("eth_type", 0x0806, None)]
TCP, UDP, ICMP = (IP + [("ip_proto", it, None)] for it in (6, 17, 1))
SAMPLES = {
    "in_port": ([], 1, None), "eth_dst": ([], 0x010000000000, 0x010000000000), "eth_src": ([], 0x020000000000, 0xFFFFFFFFFF00), "eth_type": ([], 0x88CC, None),
    "vlan_vid": ([], 0x1064, None), "vlan_pcp": ([("vlan_vid", 0x1064, None)], 3, None), "ip_proto": (IP, 17, None),
    "ipv4_src": (IP, 0x0A000000, 0xFF000000), "ipv4_dst": (IP, 0x0A000000, 0xFF000000), "tcp_src": (TCP, 22, None), "tcp_dst": (TCP, 80, None),
    "udp_src": (UDP, 67, None), "udp_dst": (UDP, 53, None), "icmpv4_type": (ICMP, 8, None), "icmpv4_code": (ICMP, 0, None), "arp_op": (ARP, 1, None),
    "arp_spa": (ARP, 0x0A000000, 0xFF000000), "arp_tpa": (ARP, 0x0A000000, 0xFF000000),
}
ACTIONS = {
    "OUTPUT to a port": [("output", 1)], "OUTPUT to IN_PORT": [("output", IN_PORT)], "OUTPUT to the controller": TO_CONTROLLER, "PUSH_VLAN 0x8100": [("push", 0x8100)],
    "POP_VLAN": [("pop",)], "SET_FIELD eth_src": [("set", "eth_src", HERE)], "SET_FIELD eth_dst": [("set", "eth_dst", HERE)],
    "SET_FIELD vlan_vid": [("set", "vlan_vid", 0x1064)], "DEC_NW_TTL": [("dec_ttl",)],
}
TAGGED = [("vlan_vid", 0x1064, None)]
