"""Runs the built program for the tools beside it, and says what a switch holds behind a replay."""
import io, json, os, shutil, struct, subprocess, sys, tempfile

import openflow, tables
from openflow import BARRIER_REPLY, BARRIER_REQUEST, CLOSED, ENDED, FEATURES_REPLY, FLOW_MOD, HEARD, OPENED, RELOAD, SAID

HERE = os.path.dirname(os.path.abspath(__file__))


class Refused(Exception):
    """The program refused something, with this line."""


def found():
    """Where the program stands: as the variable FAUCET says, in this checkout, where it is installed, or on the PATH."""
    named = os.environ.get("FAUCET")
    places = [named] if named else [f"{HERE}/../crates/faucet/out/faucet", f"{HERE}/../../../bin/faucet", shutil.which("faucet")]
    for place in places:
        if place and os.access(place, os.X_OK) and os.path.isfile(place):
            return place
    sys.exit("the program isn't there: build it (bin/faucet check FILE), or set FAUCET to where it stands")


def run(*words, given=None, fine=(0,)):
    ran = subprocess.run([found(), *words], input=given, capture_output=True)
    if ran.returncode not in fine:
        raise Refused(ran.stderr.decode(errors="replace").strip() or f"{words[0]} ended with status {ran.returncode}")
    return ran


def check(path):
    """What a file means, as its JSON."""
    return json.loads(run("check", path).stdout)


def check_text(text):
    """What a text of a configuration means; what is refused is told without a name of a file."""
    with tempfile.TemporaryDirectory() as folder:
        path = f"{folder}/faucet.yaml"
        with open(path, "wb") as out:
            out.write(text)
        try:
            return check(path)
        except Refused as fault:
            raise Refused(str(fault).replace(f"{path}: ", "")) from None


def replay(config, recording):
    """What the controller of a file says of a recording's bytes: the records, and the lines."""
    ran = run("replay", config, "/dev/stdin", given=recording)
    return ran.stdout, ran.stderr.decode().splitlines()


class Told:
    """What the records of a recording tell: its end, the connections that are open, and whose they are."""

    def __init__(self, path):
        self.records, self.end, self.open, self.datapath, self.reloads, rests = [], 0, set(), {}, [], {}
        with open(path, "rb") as source:
            for moment, kind, conn, data in openflow.records(source):
                self.records.append(openflow.record(moment, kind, conn, data))
                self.end = max(self.end, moment)
                if kind == OPENED:
                    self.open.add(conn)
                elif kind == ENDED:
                    self.open.discard(conn)
                elif kind == RELOAD:
                    self.reloads.append((moment, data))
                elif kind == HEARD:
                    frames, rests[conn] = openflow.cut(rests.get(conn, b"") + data)
                    for frame in frames:
                        if openflow.kind_of(frame) == FEATURES_REPLY and len(frame) >= 16:
                            self.datapath[conn] = struct.unpack("!Q", frame[8:16])[0]


class Held:
    """What records that were written say: the entries of each connection, its last barrier, and the closings."""

    def __init__(self, said):
        self.tables, self.barrier, self.closed, self.messages, self.size = {}, {}, {}, {}, {}
        for _, kind, conn, data in openflow.records(io.BytesIO(said)):
            if kind == CLOSED:
                self.closed[conn] = data
            if kind != SAID:
                continue
            self.messages[conn] = self.messages.get(conn, 0) + 1
            self.size[conn] = self.size.get(conn, 0) + len(data)
            if openflow.kind_of(data) == FLOW_MOD:
                self.tables.setdefault(conn, tables.Tables()).do(data)
            elif openflow.kind_of(data) == BARRIER_REQUEST:
                self.barrier[conn] = openflow.xid_of(data)


def settled(config, told):
    """What a replay of the records leads to once each barrier that it waits for in the end is replied to; the replies are kept
    behind the records. A reply that isn't awaited changes nothing."""
    before = None
    while True:
        said, lines = replay(config, b"".join(told.records))
        held = Held(said)
        waiting = {conn: xid for conn, xid in held.barrier.items() if conn in told.open and conn not in held.closed}
        if waiting == before:
            return held, lines
        before = waiting
        for conn, xid in sorted(waiting.items()):
            told.records.append(openflow.record(told.end, HEARD, conn, openflow.message(BARRIER_REPLY, xid)))


def connections(told, held):
    """The connection that each datapath runs on in the end."""
    return {told.datapath[conn]: conn for conn in sorted(held.tables) if conn in told.datapath and conn in told.open and conn not in held.closed}
