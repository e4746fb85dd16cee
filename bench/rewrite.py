"""Rewrites a configuration while it is looked at: see rewrite.sh, which calls it.

rewrite.py PROGRAM FOLDER TIMES    FOLDER is an empty folder for files
"""
import atexit
import collections
import os
import random
import select
import signal
import socket
import subprocess
import sys
import time

from switches import Switch, planned

PROGRAM, FOLDER, TIMES = sys.argv[1], sys.argv[2], int(sys.argv[3])
ADDRESS = ("127.0.0.1", 7657)
NAME = f"{FOLDER}/faucet.yaml"


def text_of(number):
    """A configuration with twelve interfaces, whose VLANs differ by the number; what is switched stands in the middle of other parts."""
    rules = "".join(f"  a{k}:\n    - rule: {{dl_type: 0x800, nw_proto: 6, tcp_dst: {k}, actions: {{allow: 1}}}}\n" for k in range(1, 1001))
    ports = "".join(f"      {k}:\n        native_vlan: {100 + (number + k) % 3}\n" for k in range(1, 13))
    return f"vlans: {{100: , 101: , 102: }}\ndps:\n  s1:\n    dp_id: 1\n    interfaces:\n{ports}acls:\n{rules}".encode()


def rewrite(number, chance, wait):
    """In place, in pieces that come one by one."""
    text, at = text_of(number), 0
    with open(NAME, "wb", buffering=0) as file:
        while at < len(text):
            size = chance.choice((100, 4000, 20_000))
            file.write(text[at:at + size])
            at += size
            wait(chance.choice((0, 0.01, 0.03)))


def replace(number, *_):
    with open(f"{NAME}.next", "wb") as file:
        file.write(text_of(number))
    os.rename(f"{NAME}.next", NAME)


class Server:
    def __init__(self):
        words = [PROGRAM, "serve", NAME, "--events", "1000000000", "--reload-ms", "100", "--listen", "%s:%d" % ADDRESS]
        self.process = subprocess.Popen(words, stdout=subprocess.DEVNULL, stderr=open(f"{FOLDER}/said", "w"))
        atexit.register(self.end)
        self.switch, self.connection, self.opened = Switch(1, range(1, 13)), None, 0
        self.connect()

    def connect(self):
        for _ in range(100):
            try:
                self.connection = socket.create_connection(ADDRESS, timeout=5)
                break
            except OSError:
                time.sleep(0.1)
        self.opened += 1
        self.connection.sendall(self.switch.greeting())

    def hear(self, seconds):
        """Lets the switch answer for so long; where its connection ended it opens another."""
        end = time.time() + seconds
        while (left := end - time.time()) > 0:
            if select.select([self.connection], [], [], left)[0]:
                try:
                    piece = self.connection.recv(1 << 18)
                except OSError:
                    piece = b""
                if piece:
                    self.connection.sendall(self.switch.take(piece))
                else:
                    self.connection.close()
                    self.connect()

    def comes_to(self, entries):
        """Whether the switch holds these entries within ten seconds, and still does three looks later."""
        end = time.time() + 10
        while self.switch.tables != entries and time.time() < end:
            self.hear(0.1)
        self.hear(0.3)
        return self.switch.tables == entries

    def end(self):
        if self.process.poll() is None:
            self.process.kill()
        self.process.wait()

    def lines(self):
        return [line.strip() for line in open(f"{FOLDER}/said")]


def main():
    chance, right = random.Random(1), True
    replace(0)
    server, number = Server(), 0
    server.hear(2)
    for way, change in (("rewritten in place", rewrite), ("replaced by its name", replace)):
        said, told, opened, held = len(server.lines()), server.switch.barriers, server.opened, 0
        for _ in range(TIMES):
            number += 1
            change(number, chance, server.hear)
            held += server.comes_to(planned(PROGRAM, NAME, "s1"))
        causes = collections.Counter(line.rsplit(" ", 1)[1] for line in server.lines()[said:])
        print(f"{TIMES} times {way}: {held} times the switch held what the file says then; {server.switch.barriers - told} barriers, "
              f"{server.opened - opened} connections more; lines:", ", ".join(f"{n} {it}" for it, n in causes.most_common()) or "none")
        right = right and held == TIMES and server.process.poll() is None and not (change is replace and causes)
    return not right


if __name__ == "__main__":
    signal.signal(signal.SIGTERM, lambda *_: sys.exit("stopped"))
    sys.exit(main())
