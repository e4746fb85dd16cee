"""Does to a controller that serves what strangers do: see strangers.sh, which calls it.

strangers.py PROGRAM CONFIGURATION FOLDER   FOLDER is an empty folder for files
"""
import atexit, os, random, resource, signal, socket, struct, subprocess, sys, threading, time

PROGRAM, CONFIGURATION, FOLDER = sys.argv[1:]
SAID = f"{FOLDER}/said"
PORT = 7654
TICKS = os.sysconf("SC_CLK_TCK")
HELLO, ERROR, ECHO_REQUEST, ECHO_REPLY, FEATURES_REPLY, MULTIPART_REPLY, BARRIER_REQUEST, BARRIER_REPLY = 0, 1, 2, 3, 6, 19, 20, 21


# ---- OpenFlow 1.3, 7


def message(kind, body=b"", xid=7, version=4):
    return struct.pack("!BBHI", version, kind, 8 + len(body), xid) + body


def features(datapath):
    return message(FEATURES_REPLY, struct.pack("!QIBBHII", datapath, 0, 254, 0, 0, 0, 0), 2)


def port(number):
    return struct.pack("!I4x6s2x16sIIIIIIII", number, b"\x02\0\0\0\0\1", b"port", 0, 0, 0, 0, 0, 0, 0, 0)


class Connection:
    """A connection, with what came on it and isn't taken yet."""

    def __init__(self, timeout=20):
        self.socket, self.came = socket.create_connection(("127.0.0.1", PORT), timeout=timeout), b""

    def take(self):
        """The kind, the number and the body of the next message; None where the connection ended."""
        while len(self.came) < 8 or len(self.came) < struct.unpack("!H", self.came[2:4])[0]:
            piece = self.socket.recv(1 << 16)
            if not piece:
                return None
            self.came += piece
        _, kind, length, xid = struct.unpack("!BBHI", self.came[:8])
        body, self.came = self.came[8:length], self.came[length:]
        return kind, xid, body

    def is_answered(self, body=b"hello"):
        """Whether an echo request is answered. Replies to barriers that come before."""
        try:
            self.socket.sendall(message(ECHO_REQUEST, body))
            while it := self.take():
                if it[0] == BARRIER_REQUEST:
                    self.socket.sendall(message(BARRIER_REPLY, b"", it[1]))
                if it == (ECHO_REPLY, 7, body):
                    return True
        except OSError:
            pass
        return False

    def become_switch(self):
        """Opens as the datapath 1 with two ports."""
        self.socket.sendall(message(HELLO) + features(1))
        self.socket.sendall(message(MULTIPART_REPLY, struct.pack("!HH4x", 13, 0) + port(1) + port(2), 3))
        assert self.is_answered()

    def close(self):
        self.socket.close()

    def reset(self):
        self.socket.setsockopt(socket.SOL_SOCKET, socket.SO_LINGER, struct.pack("ii", 1, 0))
        self.socket.close()


class Server:
    """The program, with what it uses, and a switch that stays."""

    def __init__(self, most_files=1024, configuration=CONFIGURATION):
        words = [PROGRAM, "serve", configuration, "--events", "1000000000", "--listen", f"127.0.0.1:{PORT}"]
        limit = lambda: resource.setrlimit(resource.RLIMIT_NOFILE, (most_files, most_files))
        self.process = subprocess.Popen(words, stderr=open(SAID, "w"), preexec_fn=limit)
        atexit.register(self.end)
        for _ in range(100):
            try:
                self.switch = Connection()
                break
            except OSError:
                time.sleep(0.1)
        self.switch.become_switch()
        self.files_at_rest = self.files()

    def files(self):
        return len(os.listdir(f"/proc/{self.process.pid}/fd"))

    def spent(self):
        fields = open(f"/proc/{self.process.pid}/stat").read().rsplit(")", 1)[1].split()
        return (int(fields[11]) + int(fields[12])) / TICKS

    def memory(self, field="VmRSS"):
        return next(line.split()[1] for line in open(f"/proc/{self.process.pid}/status") if line.startswith(field)) + " KB"

    def share(self, seconds):
        """How much of a processor it uses in so many seconds, in percent."""
        spent, start = self.spent(), time.time()
        time.sleep(seconds)
        return 100 * (self.spent() - spent) / (time.time() - start)

    def rests(self, more=0):
        """It runs, its switch is answered, and it has as many files open as at rest, and so many more."""
        assert self.process.poll() is None, "the program ended"
        assert self.switch.is_answered(), "the switch's connection ended"
        for _ in range(100):
            if self.files() == self.files_at_rest + more:
                return
            time.sleep(0.1)
        sys.exit(f"{self.files()} files are open, {self.files_at_rest} at rest and {more} more")

    def said(self, closing):
        """How many connections ended so."""
        return open(SAID).read().count(f": {closing}\n")

    def says(self, closing, before, more=1):
        """So many more connections end so."""
        for _ in range(200):
            if self.said(closing) == before + more:
                return
            time.sleep(0.05)
        sys.exit(f"{self.said(closing) - before} ended with {closing}, and not {more}")

    def end(self):
        self.process.kill()
        self.process.wait()


# ---- what strangers do


def idle(server):
    connections = [Connection() for _ in range(19)]
    assert all(connection.is_answered() for connection in connections)
    share = server.share(20)
    print(f"20 idle connections: {share:.2f} % of a processor")
    assert share < 2
    for connection in connections:
        connection.close()
    server.rests()


def silent(server):
    before, connection, start, kinds = server.said("Silent"), Connection(timeout=5), time.time(), []
    while kinds[-1:] != [None]:
        assert server.switch.is_answered()
        try:
            kinds.append((it := connection.take()) and it[0])
            what = {HELLO: "HELLO", ECHO_REQUEST: "an echo request", None: "the end"}[kinds[-1]]
            print(f"to one who says nothing {what} comes after {time.time() - start:.1f} s")
        except TimeoutError:
            pass
    assert kinds == [HELLO, ECHO_REQUEST, None]
    server.says("Silent", before)
    server.rests()


def garbage(server):
    begun = [
        ("BadFrame", bytes(8)),
        ("BadFrame", b"\xff" * 65535),
        ("BadFrame", message(HELLO, b"\0\1\0\2")),
        ("WrongVersion", message(HELLO, version=1)),
        ("SwitchError 1 2", message(ERROR, struct.pack("!HH", 1, 2))),
        ("UnknownDp", message(HELLO) + features(77)),
        ("End", message(HELLO)[:5]),
    ]
    for closing, data in begun:
        before, connection = server.said(closing), Connection()
        assert connection.take()[0] == HELLO
        connection.socket.sendall(data)
        if closing == "End":
            connection.close()
        server.says(closing, before)
        connection.close()
    random.seed(1)
    for _ in range(1000):
        connection = Connection()
        connection.socket.sendall(random.randbytes(random.randrange(1, 5000)))
        connection.close()
    server.rests()
    print(f"{len(begun)} ways to say what isn't OpenFlow 1.3 end as they should, and so do 1,000 of bytes by chance")


def storms(server):
    spent, start = server.spent(), time.time()
    for number in range(4000):
        connection = Connection()
        if number % 4 == 0:
            connection.close()
        elif number % 4 == 1:
            connection.reset()
        elif number % 4 == 2:
            connection.socket.sendall(b"x" * 3000)
            connection.reset()
        else:
            assert connection.is_answered()
            connection.close()
    server.rests()
    print(f"4,000 connections that end in four ways: {time.time() - start:.1f} s, of the program's processor {server.spent() - spent:.1f} s")
    for _ in range(10):
        begun = [socket.socket() for _ in range(300)]
        for it in begun:
            it.setblocking(False)
            it.connect_ex(("127.0.0.1", PORT))
        for it in begun:
            it.setsockopt(socket.SOL_SOCKET, socket.SO_LINGER, struct.pack("ii", 1, 0))
            it.close()
    server.rests()
    print("3,000 are reset before they are taken")


def too_many(server):
    connections = [Connection() for _ in range(300)]
    answered = sum(connection.is_answered() for connection in connections)
    print(f"300 beside the switch: {answered} are answered, the others are dropped; with 256 connections {server.memory()}")
    assert answered == 255
    for connection in connections:
        connection.close()
    server.rests()


def broken_writes(server):
    asked = message(ECHO_REQUEST, bytes(60000))
    for number in range(40):
        connection = Connection()
        connection.socket.setblocking(False)
        until, rest = time.time() + 0.1, asked * 500
        while time.time() < until and rest:
            try:
                rest = rest[connection.socket.send(rest[: 1 << 16]) :]
            except BlockingIOError:
                time.sleep(0.002)
        connection.reset() if number % 2 else connection.close()
    server.rests()
    before, connection = server.said("End"), Connection()
    assert connection.is_answered()
    connection.socket.shutdown(socket.SHUT_WR)
    server.says("End", before)
    assert connection.take() is None
    server.rests()
    print(f"40 ends in the middle of a write, and an end of sending alone: {server.memory()}")


def slow_reader(server):
    bodies = [os.urandom(65527) for _ in range(320)]
    connection = Connection()
    sender = threading.Thread(target=lambda: [connection.socket.sendall(message(ECHO_REQUEST, body)) for body in bodies])
    sender.start()
    time.sleep(2)
    assert connection.take()[0] == HELLO
    assert all(connection.take() == (ECHO_REPLY, 7, body) for body in bodies)
    sender.join()
    print(f"320 answers of 65,535 bytes come back whole to one who reads late: {server.memory()}")
    connection.close()
    server.rests()


def never_reads(server):
    before, connection, sent = server.said("Overfull"), Connection(), 0
    try:
        while True:
            connection.socket.sendall(message(ECHO_REQUEST, bytes(65527)))
            sent += 65535
    except OSError:
        pass
    server.says("Overfull", before)
    connection.close()
    server.rests()
    print(f"one who asks and never reads is ended once {sent / 1e6:.0f} MB were asked for: {server.memory('VmHWM')} at most, {server.memory()} then")


def flood(server):
    flooding, stop = Connection(), threading.Event()
    flooding.socket.setblocking(False)
    asked = message(ECHO_REQUEST, bytes(1000)) * 60

    def keep_on():
        rest = b""
        while not stop.is_set():
            try:
                rest = rest or asked
                rest = rest[flooding.socket.send(rest) :]
            except BlockingIOError:
                pass
            try:
                flooding.socket.recv(1 << 20)
            except BlockingIOError:
                pass

    thread = threading.Thread(target=keep_on)
    thread.start()
    worst, count, until = 0.0, 0, time.time() + 5
    while time.time() < until:
        start = time.time()
        assert server.switch.is_answered()
        worst, count = max(worst, time.time() - start), count + 1
    stop.set()
    thread.join()
    flooding.close()
    print(f"beside a flood the switch has {count} answers in 5 s, the slowest after {1000 * worst:.1f} ms")
    server.rests()


def port_in_use(server):
    words = [PROGRAM, "serve", CONFIGURATION, "--events", "9", "--listen", f"127.0.0.1:{PORT}"]
    other = subprocess.run(words, capture_output=True, text=True, timeout=60)
    print(f"a second one at the port ends with status {other.returncode}: {other.stderr.strip()}")
    assert (other.returncode, other.stderr) == (6, "hub fault\n")
    server.rests()


def stopped(server):
    server.process.send_signal(signal.SIGSTOP)
    time.sleep(2)
    server.process.send_signal(signal.SIGCONT)
    server.rests()
    print("stopped by a signal for 2 s and continued, it goes on")


def few_files():
    server = Server(most_files=30)
    connections = [Connection(timeout=2) for _ in range(60)]
    time.sleep(1)
    room = 30 - server.files_at_rest
    print(f"a limit of 30 files, 60 connections beside the switch: {server.files()} files, {server.share(5):.2f} % of a processor")
    assert server.files() == 30 and server.switch.is_answered()
    assert all(connection.is_answered() for connection in connections[:room])
    for connection in connections[:room]:
        connection.close()
    answered = sum(connection.is_answered() for connection in connections[room : 2 * room])
    print(f"of the others {answered} are answered once {room} ended")
    assert answered == room
    for connection in connections:
        connection.close()
    server.rests()
    for _ in range(1000):
        Connection().reset()
    server.rests()
    server.end()


def large_file():
    """The file is looked at each second."""
    rule = "        - rule: {dl_type: 0x0800, nw_proto: 6, tcp_dst: %d, actions: {allow: 1}}\n"
    with open(f"{FOLDER}/large.yaml", "w") as out:
        out.write(open(CONFIGURATION).read() + "acls:\n")
        for number in range(12):
            out.write(f"    list{number}:\n" + "".join(rule % port for port in range(1000)))
    size = os.path.getsize(f"{FOLDER}/large.yaml")
    server = Server(configuration=f"{FOLDER}/large.yaml")
    print(f"at rest with a file of {size} bytes: {server.share(20):.2f} % of a processor, {server.memory()}")
    server.rests()
    server.end()


signal.signal(signal.SIGTERM, lambda *_: sys.exit("stopped"))
served = Server()
print(f"at rest with a switch: {served.files_at_rest} files, {served.memory()}")
for trial in (idle, silent, garbage, storms, too_many, broken_writes, slow_reader, never_reads, flood, port_in_use, stopped):
    trial(served)
served.end()
few_files()
large_file()
