"""Plays fifty switches and a storm of strangers to a controller that serves: see storm.sh, which calls it.

storm.py PROGRAM FOLDER OPENINGS TOLD   FOLDER is an empty folder for files
storm.py strangers OPENINGS             plays the strangers alone until its input ends, and prints what became of them
"""
import atexit
import collections
import os
import random
import selectors
import signal
import socket
import struct
import subprocess
import sys
import threading
import time

from one_vlan import HELLO, cold, message, port_status
from switches import ECHO_REPLY, ECHO_REQUEST, Switch, heard, source

ADDRESS = ("127.0.0.1", 7656)
SWITCHES, PORTS, STAYING = 50, [1, 2, 3, 4], 200
MOST_SECONDS, TO_SETTLE = 200, 60
DROPS = ("spoofed", "broadcast", "lldp", "bpdu")

# ---- strangers


def connect():
    return socket.create_connection(ADDRESS, timeout=20)


def reset(connection):
    connection.setsockopt(socket.SOL_SOCKET, socket.SO_LINGER, struct.pack("ii", 1, 0))
    connection.close()


class Idle(Switch):
    """Answers echo requests alone."""

    def answer(self, kind, xid, body):
        return message(ECHO_REPLY, body, xid) if kind == ECHO_REQUEST else b""


class Strangers:
    def __init__(self, openings):
        self.openings, self.counts, self.ends = openings, collections.Counter(), threading.Event()
        self.chance = random.Random(1)

    def come_and_go(self):
        for number in range(self.openings):
            try:
                connection = connect()
                if number % 4 == 1:
                    connection.sendall(HELLO)
                elif number % 4 == 2:
                    connection.sendall(self.chance.randbytes(3000))
                (reset if number % 4 in (2, 3) else socket.socket.close)(connection)
                self.counts["opened and gone"] += 1
            except OSError:
                self.counts["opened and let go"] += 1

    def are_taken(self):
        """Waits until one that comes behind all of them is said a HELLO; whether it was."""
        end = time.time() + MOST_SECONDS
        while time.time() < end:
            try:
                with connect() as connection:
                    connection.settimeout(MOST_SECONDS)
                    if connection.recv(8):
                        return True
            except OSError:
                pass
        return False

    def stay(self, connections):
        """Answers what is asked until all ends, and counts who was ended."""
        watched = selectors.DefaultSelector()
        for connection in connections:
            connection.settimeout(5)
            watched.register(connection, selectors.EVENT_READ, Idle(0, []))
        while not self.ends.is_set():
            for key, _ in watched.select(0.2):
                try:
                    piece = key.fileobj.recv(1 << 16)
                    if piece:
                        key.fileobj.sendall(key.data.take(piece) or b"")
                        continue
                except OSError:
                    pass
                watched.unregister(key.fileobj)
                self.counts["ended of those that stay"] += 1

    def say_garbage(self):
        chance = random.Random(2)
        while not self.ends.is_set():
            try:
                with connect() as connection:
                    for _ in range(10):
                        connection.sendall(chance.randbytes(65_536))
            except OSError:
                pass
            self.counts["ended that said bytes by chance"] += 1
            time.sleep(0.05)

    def never_read(self):
        """Asks for as many bytes as there may be unsent, and more, until it is ended."""
        ask = message(ECHO_REQUEST, bytes(60_000))
        while not self.ends.is_set():
            try:
                with connect() as connection:
                    connection.settimeout(1)
                    self.keep_asking(connection, ask)
            except OSError:
                self.counts["ended that never reads"] += 1
                time.sleep(1)

    def keep_asking(self, connection, ask):
        rest = ask
        while not self.ends.is_set():
            try:
                rest = rest[connection.send(rest):] or ask
            except TimeoutError:
                pass

    def say_slowly(self, connection):
        with connection:
            for byte in message(ECHO_REQUEST, bytes(600)):
                if self.ends.wait(1):
                    break
                connection.sendall(bytes([byte]))
                self.counts["bytes said, one a second"] += 1

    def run(self):
        staying = [connect() for _ in range(STAYING)]
        for connection in staying:
            connection.sendall(HELLO)
        threads = [threading.Thread(target=self.stay, args=[staying]), threading.Thread(target=self.say_slowly, args=[connect()])]
        threads += [threading.Thread(target=it) for it in (self.say_garbage, self.never_read)]
        start = time.time()
        for thread in threads:
            thread.start()
        self.come_and_go()
        seconds, taken = time.time() - start, self.are_taken()
        waited = time.time() - start
        sys.stdin.read()
        self.ends.set()
        for thread in threads:
            thread.join()
        print(f"strangers: {self.openings} openings in {seconds:.1f} s, {'taken' if taken else 'NOT taken'} after {waited:.1f} s;", ", ".join(f"{n} {what}" for what, n in sorted(self.counts.items())))
        return taken and not self.counts["ended of those that stay"]


# ---- switches


class Live(Switch):
    """A switch on a connection, with hosts."""

    def __init__(self, dp):
        super().__init__(dp, PORTS)
        self.connection, self.hosts, self.told, self.sent = connect(), {}, 0, {}
        self.say(self.greeting())

    def say(self, piece):
        if piece:
            self.connection.sendall(piece)

    def live_on(self, most):
        """A host more, or one that moves, once it was answered to what it told before; in the middle a port goes down."""
        if self.told == most or self.sent:
            return
        self.told += 1
        number = self.dp * 1000 + self.told // 2
        port = 1 + (number + self.told) % 3
        self.say(heard(port, number))
        self.hosts[source(number)] = port
        if self.told == most // 2:
            self.say(heard(4, self.dp * 1000 + 999))
            self.say(port_status(4, 1))
        self.sent[self.told] = time.time()
        self.say(message(ECHO_REQUEST, self.told.to_bytes(4, "big")))

    def waited(self):
        """The seconds that the answers took since the last call."""
        now, known = time.time(), [int.from_bytes(body, "big") for body in self.echoes]
        self.echoes.clear()
        return [now - self.sent.pop(number) for number in known]

    def is_right(self):
        return not self.sent and self.tables == self.entries()

    def entries(self):
        return cold(PORTS, 100, DROPS, [(port, mac, False) for mac, port in self.hosts.items()])


class Served:
    def __init__(self, program, folder):
        self.folder, configuration = folder, f"{folder}/faucet.yaml"
        ports = ", ".join(f"{number}: {{native_vlan: 100}}" for number in PORTS)
        with open(configuration, "w") as file:
            file.write("vlans: {100: }\ndps:\n")
            file.writelines(f"  s{dp}: {{dp_id: {dp}, timeout: 3600, interfaces: {{{ports}}}}}\n" for dp in range(1, SWITCHES + 1))
        words = [program, "serve", configuration, "--events", "1000000000", "--listen", "%s:%d" % ADDRESS]
        self.process = subprocess.Popen(words, stdout=subprocess.DEVNULL, stderr=open(f"{folder}/said", "w"))
        atexit.register(self.end)
        for _ in range(100):
            try:
                connect().close()
                break
            except OSError:
                time.sleep(0.1)

    def end(self):
        if self.process.poll() is None:
            self.process.kill()
        self.process.wait()

    def figures(self):
        fields = open(f"/proc/{self.process.pid}/stat").read().rsplit(")", 1)[1].split()
        spent = (int(fields[11]) + int(fields[12])) / os.sysconf("SC_CLK_TCK")
        memory = next(line.split()[1] for line in open(f"/proc/{self.process.pid}/status") if line.startswith("VmHWM"))
        return f"{spent:.1f} s of a processor, at most {int(memory)} KB"

    def lines(self):
        causes = collections.Counter(line.split(": ")[1].split()[0] for line in open(f"{self.folder}/said"))
        return ", ".join(f"{count} {cause}" for cause, count in causes.most_common())


def serve_switches(watched, seconds, slowest):
    """Lets the switches hear for so long."""
    end = time.time() + seconds
    while (left := end - time.time()) > 0:
        for key, _ in watched.select(left):
            piece = key.fileobj.recv(1 << 18)
            if not piece:
                sys.exit(f"the connection of switch {key.data.dp} ended")
            key.data.say(key.data.take(piece))
            slowest.extend(key.data.waited())


def storm(server, switches, openings, most, serve_for):
    """Lets the switches live on beside strangers, until both have done all, or have had their time; whether the strangers ended well."""
    words = [sys.executable, __file__, "strangers", str(openings)]
    strangers, start = subprocess.Popen(words, stdin=subprocess.PIPE), time.time()
    atexit.register(lambda: strangers.poll() is None and strangers.kill())
    while strangers.poll() is None:
        for switch in switches:
            switch.live_on(most)
        serve_for(1)
        if server.process.poll() is not None:
            sys.exit(f"serve ended with status {server.process.returncode}")
        if time.time() - start > MOST_SECONDS or all(switch.told == most for switch in switches):
            strangers.stdin.close()
    return strangers.returncode == 0


def main(program, folder, openings, most):
    server = Served(program, folder)
    switches, watched, waits = [Live(dp) for dp in range(1, SWITCHES + 1)], selectors.DefaultSelector(), []
    for switch in switches:
        watched.register(switch.connection, selectors.EVENT_READ, switch)
    serve_for = lambda seconds: serve_switches(watched, seconds, waits)
    serve_for(3)
    start = time.time()
    ended_well = storm(server, switches, openings, most, serve_for)
    seconds, end = time.time() - start, time.time() + TO_SETTLE
    while not all(switch.is_right() for switch in switches) and time.time() < end:
        serve_for(1)
    serve_for(3)
    right = sum(switch.is_right() for switch in switches)
    hosts, told, batches = (sum(counted) for counted in zip(*((len(it.hosts), it.told, it.barriers) for it in switches)))
    print(f"{right} of {SWITCHES} switches hold the right tables: {hosts} hosts, told {told} times, {batches} barriers, in {seconds:.0f} s")
    print(f"slowest of {len(waits)} answers to them: {1000 * max(waits):.0f} ms; the median {1000 * sorted(waits)[len(waits) // 2]:.1f} ms")
    print(f"serve: {server.figures()}; its lines: {server.lines()}")
    return 0 if right == SWITCHES and ended_well else 1


if __name__ == "__main__":
    signal.signal(signal.SIGTERM, lambda *_: sys.exit("stopped"))
    if sys.argv[1] == "strangers":
        sys.exit(not Strangers(int(sys.argv[2])).run())
    sys.exit(main(sys.argv[1], sys.argv[2], int(sys.argv[3]), int(sys.argv[4])))
