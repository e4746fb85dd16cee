"""Prints each FLOW_MOD of a file of messages, and of some made by chance, in the words of `ovs-ofctl ofp-parse`: see test.sh. The
messages stand in FILE.and.more.

test_words.py FILE COUNT
"""
import random, sys

import openflow
from preflight_samples import ACTIONS, SAMPLES

IPV6 = [("eth_type", 0x86DD, None)]
ICMPV6 = IPV6 + [("ip_proto", 58, None)]
SOLICITATION = ICMPV6 + [("icmpv6_type", 135, None)]
HOST, PREFIX, ENDS = 0xFD << 120 | 1, (1 << 128) - (1 << 64), 1 << 127 | 1
# The fields of IPv6, in the same form, and fields of other protocols behind it.
SAMPLES |= {
    "ipv6_src": (IPV6, HOST & PREFIX, PREFIX), "ipv6_dst": (IPV6, HOST & ENDS, ENDS), "icmpv6_type": (ICMPV6, 128, None), "icmpv6_code": (ICMPV6, 0, None),
    "ipv6_nd_target": (SOLICITATION, HOST, None),
}
BEHIND = {"tcp_dst": 6, "udp_src": 17, "ip_proto": 0}


def some_match():
    """Fields with what they ask for, in the order of their numbers."""
    found = {}
    for name in random.sample(sorted(SAMPLES), random.randrange(4)):
        needs, value, mask = SAMPLES[name]
        if name in BEHIND and random.random() < 0.5:
            needs, value = (IPV6, 0) if name == "ip_proto" else (IPV6 + [("ip_proto", BEHIND[name], None)], value)
        wanted = {it[0]: it for it in needs} | {name: (name, value, mask if random.random() < 0.5 else None)}
        if all(found.get(it, one)[1] == one[1] for it, one in wanted.items()):
            found.update({it: found.get(it, one) for it, one in wanted.items()})
    return sorted(found.values(), key=lambda it: openflow.FIELDS[it[0]][0])


def some_mod():
    fields = some_match()
    ip = any(("eth_type", it, None) in fields for it in (0x0800, 0x86DD))
    able = [it for name, it in ACTIONS.items() if (name != "DEC_NW_TTL" or ip) and "VLAN" not in name.upper().replace("PUSH_VLAN", "")]
    actions = [it for one in random.sample(able, random.randrange(3)) for it in one]
    command = random.choice([openflow.ADD, openflow.ADD, openflow.DELETE_STRICT])
    table = random.randrange(8)
    if command == openflow.DELETE_STRICT:
        return openflow.flow_mod(command, table, random.choice([0, 1, 9999, 0x8000]), fields)
    return openflow.flow_mod(command, table, random.choice([0, 1, 9999, 0x8000]), fields, actions, random.choice([None, table + 1]), random.choice([0, 0x5ADC15C0]))


random.seed(7)
with open(sys.argv[1], "rb") as source:
    messages, _ = openflow.cut(source.read())
messages += [openflow.message(openflow.FLOW_MOD, 100000 + it, some_mod()) for it in range(int(sys.argv[2]))]
with open(sys.argv[1] + ".and.more", "wb") as out:
    out.write(b"".join(messages))
for message in messages:
    if openflow.kind_of(message) == openflow.FLOW_MOD:
        print(openflow.flow_mod_text(message))
