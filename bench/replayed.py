"""A replay that reads its recording while it is made, beside switches that answer what it says to them. For scripts of this folder."""
import atexit
import os
import struct
import subprocess
import sys
import time

from one_vlan import message
from switches import ECHO_REQUEST, FLOW_MOD, Switch

OPENED, HEARD, MOMENT, SAYS = 1, 2, 5, 130


class Replay:
    """Connection N is that of the datapath N, whose ports are given. `kept` and `heard` are names of files for what is told and said."""

    def __init__(self, program, configuration, folder, ports, kept=os.devnull, heard=os.devnull):
        pipe = f"{folder}/told"
        if not os.path.exists(pipe):
            os.mkfifo(pipe)
        self.process = subprocess.Popen([program, "replay", configuration, pipe], stdout=subprocess.PIPE, bufsize=0)
        atexit.register(self.end)
        self.pipe, self.kept, self.heard = self.opened(pipe), open(kept, "wb"), open(heard, "wb")
        self.switches = {dp: Switch(dp, numbers) for dp, numbers in ports.items()}
        self.last, self.came = max(ports), b""
        self.now, self.fence, self.said, self.records = 0, 0, 0, 0

    def opened(self, pipe):
        """The pipe, once the program reads it."""
        while self.process.poll() is None:
            try:
                number = os.open(pipe, os.O_WRONLY | os.O_NONBLOCK)
                os.set_blocking(number, True)
                return open(number, "wb", buffering=0)
            except OSError:
                time.sleep(0.05)
        sys.exit("the replay ended")

    def tell(self, kind, conn=0, body=b""):
        record = struct.pack(">QBII", self.now, kind, conn, len(body)) + body
        self.pipe.write(record)
        self.kept.write(record)
        self.records += 1

    def begin(self):
        """Each switch connects, and is told its tables."""
        for dp, switch in self.switches.items():
            self.tell(OPENED, dp)
            self.tell(HEARD, dp, switch.greeting())
        while any(switch.barriers < 2 for switch in self.switches.values()):
            self.hear()

    def take(self, conn, body):
        """Lets a switch answer a message."""
        if body[1] == FLOW_MOD:
            self.said += 1
        answer = self.switches[conn].take(body)
        if answer:
            self.tell(HEARD, conn, answer)
        return bool(answer)

    def settle(self):
        """Hears all that was said up to here, and answers, until nothing is left to be answered: behind an echo on the last connection,
        nothing that belongs to an earlier record is still to come."""
        answered = True
        while answered:
            answered, self.fence = False, self.fence + 1
            mark = self.fence.to_bytes(8, "big")
            self.tell(HEARD, self.last, message(ECHO_REQUEST, mark))
            while mark not in self.switches[self.last].echoes:
                answered = self.hear() or answered
            self.switches[self.last].echoes.clear()

    def hear(self):
        piece = self.process.stdout.read(1 << 16)
        if not piece:
            sys.exit("the replay ended")
        self.heard.write(piece)
        self.came += piece
        answered, at = False, 0
        while len(self.came) - at >= 17:
            _, kind, conn, length = struct.unpack(">QBII", self.came[at:at + 17])
            if len(self.came) - at < 17 + length:
                break
            if kind != SAYS:
                sys.exit(f"at {self.now} ms connection {conn} was closed")
            answered = self.take(conn, self.came[at + 17:at + 17 + length]) or answered
            at += 17 + length
        self.came = self.came[at:]
        return answered

    def spent(self):
        """The seconds of a processor that it took so far."""
        with open(f"/proc/{self.process.pid}/schedstat") as file:
            return int(file.read().split()[0]) / 1e9

    def memory(self):
        """What it holds, and the most that it held, in KB."""
        with open(f"/proc/{self.process.pid}/status") as file:
            status = file.read()
        return int(status.split("VmRSS:")[1].split()[0]), int(status.split("VmHWM:")[1].split()[0])

    def finish(self):
        """The status, when the recording ends here."""
        self.pipe.close()
        self.kept.close()
        self.heard.write(self.process.stdout.read())
        self.heard.close()
        return self.process.wait()

    def end(self):
        if self.process.poll() is None:
            self.process.kill()
            self.process.wait()
