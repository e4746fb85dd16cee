"""Makes a recording of some days, and replays it: see week.sh, which calls it.

week.py PROGRAM FOLDER DAYS    FOLDER is an empty folder for files
"""
import filecmp
import os
import random
import signal
import struct
import subprocess
import sys
import time

from one_vlan import message, port_status
from replayed import HEARD as SAYS, MOMENT, Replay
from switches import ECHO_REPLY, heard, planned

PROGRAM, FOLDER, DAYS = sys.argv[1], sys.argv[2], float(sys.argv[3])
CONFIGURATION, RECORDING, HEARD = f"{FOLDER}/faucet.yaml", f"{FOLDER}/week.rec", f"{FOLDER}/heard"
DPS, EDGES, HOSTS = (1, 2, 3), range(1, 7), 60
SECONDS = int(DAYS * 86_400)


def write_configuration():
    with open(CONFIGURATION, "w") as file:
        file.write("vlans: {100: }\ndps:\n")
        for dp in DPS:
            edges = ", ".join(f"{port}: {{native_vlan: 100}}" for port in EDGES)
            ends = ", ".join(f"{port}: {{stack: {{dp: s{(dp + by - 1) % 3 + 1}, port: {17 - port}}}}}" for port, by in ((8, 1), (9, -1)))
            stack = " stack: {priority: 1}," if dp == 1 else ""
            file.write(f"  s{dp}: {{dp_id: {dp},{stack} interfaces: {{{edges}, {ends}}}}}\n")


def live(replay, seconds, chance):
    """A moment each second, and what happens between."""
    for second in range(1, seconds + 1):
        replay.now += 1000
        replay.tell(MOMENT)
        if second % 15 == 0:
            for dp in DPS:
                replay.tell(SAYS, dp, message(ECHO_REPLY))
        if chance and second % 10 == 0:
            number = chance.randrange(HOSTS)
            replay.tell(SAYS, chance.choice(DPS), heard(chance.choice(EDGES), number))
        if chance and second % 600 in (300, 330):
            turn = second // 600
            replay.tell(SAYS, 1 + turn % 3, port_status(1 + turn % len(EDGES), int(second % 600 == 300)))
        if second % 10 == 0:
            replay.settle()


def replayed(name):
    """The status, the seconds, those of a processor and the memory in KB of a replay, and what it said, as a file."""
    said = f"{name}.said"
    with open(said, "wb") as out:
        start, process = time.time(), subprocess.Popen([PROGRAM, "replay", CONFIGURATION, name], stdout=out)
        _, status, usage = os.wait4(process.pid, 0)
    return os.waitstatus_to_exitcode(status), time.time() - start, usage.ru_utime + usage.ru_stime, usage.ru_maxrss, said


def is_front(name, whole):
    """Whether one file's bytes are the first ones of another."""
    with open(name, "rb") as front, open(whole, "rb") as file:
        while piece := front.read(1 << 20):
            if file.read(len(piece)) != piece:
                return False
    return True


def front(bytes_of_it):
    """The records of about so many bytes, as a file."""
    name, left = f"{FOLDER}/front.rec", bytes_of_it
    with open(RECORDING, "rb") as whole, open(name, "wb") as file:
        while left > 0:
            head = whole.read(17)
            body = whole.read(struct.unpack(">I", head[13:])[0])
            file.write(head + body)
            left -= 17 + len(body)
    return name


def main():
    write_configuration()
    start, replay = time.time(), Replay(PROGRAM, CONFIGURATION, FOLDER, {dp: [*EDGES, 8, 9] for dp in DPS}, RECORDING, HEARD)
    replay.begin()
    live(replay, SECONDS, random.Random(1))
    for dp in DPS:
        for port in EDGES:
            replay.tell(SAYS, dp, port_status(port))
    live(replay, 400, None)
    held = sum(switch.tables == planned(PROGRAM, CONFIGURATION, f"s{dp}") for dp, switch in replay.switches.items())
    status, size = replay.finish(), os.path.getsize(RECORDING)
    print(f"{SECONDS} moments of a second: {replay.records} records, {size} bytes, {replay.said} flow mods, in {time.time() - start:.0f} s; "
          f"{held} of {len(DPS)} switches hold the plan at the end")
    right = held == len(DPS) and status == 0
    for name in (RECORDING, front(size // 7)):
        code, seconds, spent, memory, said = replayed(name)
        same = filecmp.cmp(said, HEARD, False) if name == RECORDING else is_front(said, HEARD)
        print(f"replay of {os.path.getsize(name)} bytes: status {code}, {seconds:.1f} s, {spent:.1f} s of a processor, {memory} KB, "
              f"{os.path.getsize(said)} bytes said, {'the same' if same else 'OTHERWISE'}")
        right = right and code == 0 and same
    return not right


if __name__ == "__main__":
    signal.signal(signal.SIGTERM, lambda *_: sys.exit("stopped"))
    sys.exit(main())
