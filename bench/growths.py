"""Refuses each growth in turn: see growths.sh, which calls it.

growths.py PROGRAM FOLDER STEP    FOLDER has fail.so
"""
import collections
import os
import re
import subprocess
import sys

from gauge_cases import stats, status, upto
from gauge_runs import FAUCET, GAUGE
from one_vlan import HELLO, barrier_reply, descriptions, features, frame_of, message, packet_in, port_status

PROGRAM, FOLDER, STEP = sys.argv[1], sys.argv[2], int(sys.argv[3])
REFUSED = "no memory"
PLAIN = "{vlans: {100: {faucet_vips: [\"10.0.100.254/24\"]}}, dps: {a: {dp_id: 1, interfaces: {1: {native_vlan: 100}, 2: {native_vlan: 100}}}}}"
SETUP = [HELLO, features(1), descriptions([1, 2]), barrier_reply(5)]
# a solicitation, and an echo request over IPv6 of an odd length with bytes behind it
SOLICITATION = ("3333ff0000fe020000000001" "81000064" "86dd6000000000203aff" "fd000000000000000000000000000001" "ff0200000000000000000001ff0000fe"
                "87007b9f00000000" "fd0000000000000000000000000000fe" "0101020000000001")
PING = ("0e00000000010200000000018100006486dd" "6000000000113a40" "fd000000000000000000000000000001" "fd0000000000000000000000000000fe" "80008a1b0001000161626364656667686900ff")
ARP = bytes.fromhex("ffffffffffff020000000009810000640806000108000604000102000000" + "00090a0064010000000000000a0064fe")


def happenings(setup, *more):
    return ["open 1", *(f"bytes 1 {piece.hex()}" for piece in setup), *more, "end 1"]


def heard(piece):
    return f"bytes 1 {piece.hex()}"


# replies to any barrier that may be outstanding
ANSWERS = heard(b"".join(barrier_reply(xid) for xid in range(6, 120)))

# a story of each, as the lines of the program
STORIES = {
    "session": [f"feed {piece.hex()}" for piece in (
        HELLO, features(1), descriptions([1, 2], 7, True), descriptions([4], 7), barrier_reply(7), message(2, b"hello"), port_status(3),
        packet_in(1, frame_of(bytes([2, 0, 0, 0, 0, 9]), 100)), barrier_reply(7), message(4, bytes(3000))[:2000],
        message(4, bytes(3000))[2000:])],
    "load": [
        "file main {include: [b], include-optional: [none], vlans: {office: {vid: 100, faucet_vips: [\"10.0.100.254/24\"]}}, acls: {a: "
        "[{rule: {dl_type: 0x800, nw_dst: 10.0.0.0/8, actions: {allow: 1, mirror: 2}}}]}}",
        "file b dps:\\n  a:\\n    dp_id: 1\\n    interfaces:\\n      1: {native_vlan: office, acl_in: a}\\n      2: {tagged_vlans: [office, 200]}\\n"
        "routers:\\n  r: {vlans: [office]}\\n", "load main"],
    "frames": [f"frame packet {SOLICITATION}", "frame solicit", "frame advert", f"frame reply {PING}", f"frame packet {PING}"],
    "controller": [f"conf {PLAIN}", "steer", *happenings(
        SETUP, ANSWERS, "moment 10", heard(packet_in(1, frame_of(bytes([2, 0, 0, 0, 0, 9]), 100))), ANSWERS,
        heard(packet_in(1, ARP, 6)), "moment 1010", ANSWERS, "moment 20010", heard(port_status(1, 1)), ANSWERS, f"reload {PLAIN}",
        "reload {}", f"reload {PLAIN.replace('2: {native_vlan: 100}', '2: {tagged_vlans: [100]}')}", ANSWERS, "moment 330000")],
    "gauge": [f"conf {FAUCET}", f"gauge {GAUGE}", *happenings(
        [HELLO, features(1), stats(3, [(1, upto(1)), (2, upto(5))]), status(2, 2, 1)], "moment 10000", heard(stats(4, [(7, upto(9))])),
        "moment 20000", heard(message(2, b"hello")))],
    "hub": [f"hub {bytes(range(40)).hex()}", *["call turn"] * 3, f"call say 1 {bytes(500).hex()}", f"call say 2 {bytes(9).hex()}",
            *["call turn"] * 3, f"call say 3 {bytes(9000).hex()}", "call turn", f"call say 3 {bytes(5000).hex()}", *["call turn"] * 3,
            "call say 1 00", f"call say 2 {bytes(9999).hex()}", *["call turn"] * 2],
}


def run(lines, failing):
    counted = f"{FOLDER}/counted"
    env = {**os.environ, "LD_PRELOAD": f"{FOLDER}/fail.so", "FAILING": str(failing), "COUNTED": counted}
    ran = subprocess.run([PROGRAM], input="\n".join(lines) + "\n", env=env, capture_output=True, text=True, timeout=60)
    count = os.path.getsize(counted)
    os.remove(counted)
    return ran.returncode, ran.stdout, count


def is_spent(whole, told):
    """As ever up to the first refusal, and from there on each call is refused."""
    groups = [re.split(r"\n(?! )", text) for text in (whole, told)]
    first = next(place for place, group in enumerate(groups[1]) if REFUSED in group)
    same = groups[0][:first] == groups[1][:first] and len(groups[0]) == len(groups[1])
    return same and all(not group or group.endswith(" => no memory") for group in groups[1][first:])


def way(kind, whole, code, told):
    if code == 0 and told == whole:
        return "as ever"
    if code == 0 and REFUSED in told:
        if kind in ("session", "load", "frames"):
            again = told.replace("no memory, as it was; ", "").replace("no memory; ", "")
            return "refused once, and then as ever" if again == whole else "OTHERWISE"
        return "spent" if is_spent(whole, told) else "OTHERWISE"
    return "own" if code != 0 else "OTHERWISE"


def differing(whole, told):
    """The first line that is another one, as it was to be and as it was, and how many there are of both."""
    texts = whole.split("\n"), told.split("\n")
    place = next((it for it, pair in enumerate(zip(*texts)) if pair[0] != pair[1]), min(map(len, texts)))
    ends = [repr(text[place][:400]) if place < len(text) else "nothing" for text in texts]
    return f"line {place + 1} of {len(texts[0])} is {ends[1]}, and was to be {ends[0]}; there are {len(texts[1])}"


def main():
    wrong = False
    for kind, lines in STORIES.items():
        code, whole, count = run(lines, 0)
        assert code == 0 and whole and REFUSED not in whole, (kind, code, whole)
        ways = collections.Counter()
        for number in range(1, count + 1, STEP):
            code, told, _ = run(lines, number)
            it = way(kind, whole, code, told)
            ways[it] += 1
            if it == "OTHERWISE":
                wrong = True
                print(f"{kind}: allocation {number}: {differing(whole, told)}")
        print(f"{kind}: {count} allocations:", ", ".join(f"{n} {it}" for it, n in ways.most_common()), flush=True)
    return wrong


if __name__ == "__main__":
    sys.exit(main())
