#!/usr/bin/env python3
"""Writes the cases of crates/test_runs in which quick start's recording is cut behind each of its bytes: python3 bench/cut_runs.py
stdin, or stdout.

What the whole recording answers stands in crates/test_runs/stdout, worked out apart from the program. Here it is cut: a record
that isn't whole is refused as `Cut` and tells nothing, so that what was said of those before it stands.
"""
import os
import sys

AT = os.path.join(os.path.dirname(os.path.abspath(__file__)), "..", "crates", "test_runs")
TITLE = "# quick start: the setup of a datapath, whose opening batch is 18 adds"
# how many messages are said of each record: HELLO; FEATURES_REQUEST; the request for ports; the wipe and a barrier; 18 adds and a barrier
SAID = [1, 1, 1, 2, 19]


def story():
    """The configuration, the records and the records that are written of them."""
    lines = open(os.path.join(AT, "stdout"), encoding="utf-8").read().split("\n")
    at = lines.index(TITLE)
    conf = lines[at + 2]
    digits = "".join(lines[at + 3].split(" ")[2:])
    written = []
    for line in lines[at + 6:]:
        if not line.startswith("  "):
            break
        written.append(line.strip())
    records, rest = [], bytes.fromhex(digits)
    while rest:
        length = 17 + int.from_bytes(rest[13:17], "big")
        records.append(rest[:length])
        rest = rest[length:]
    assert len(records) == len(SAID) and len(written) == sum(SAID)
    return conf, records, written


def record(kind, body, conn=1):
    return bytes(8) + bytes([kind]) + conn.to_bytes(4, "big") + len(body).to_bytes(4, "big") + body


def run(name, status, written, err):
    out = [f"run replay f.yaml {name} => {status}"]
    if written:
        out.append(f" out, {sum(len(line) // 2 for line in written)} bytes:")
        out += [f"  {line}" for line in written]
    if err:
        out.append(f" err: {err}\\n")
    return out


def cases():
    conf, records, written = story()
    whole = b"".join(records)
    ends = [sum(len(r) for r in records[:n]) for n in range(len(records) + 1)]
    stdin, stdout = [], []

    def tell(line):
        stdin.append(line)
        stdout.append(line)

    def one(name, status, lines, err):
        stdin.append(f"run replay f.yaml {name}")
        stdout.extend(run(name, status, lines, err))

    tell("")
    tell("# quick start's recording, cut behind each of its bytes")
    tell("no files")
    tell(conf)
    tell(f"hex r.rec {whole.hex()}")
    for cut in range(1, len(whole)):
        read = max(n for n, end in enumerate(ends) if end <= cut)
        lines = written[:sum(SAID[:read])]
        tell(f"cut r.rec {cut}")
        if cut == ends[read]:
            one("cut", 0, lines, "")
        else:
            one("cut", 5, lines, f"recording: record {read + 1}: Cut")
    tell("# behind it, barrier replies with the ids 24, 24, 9 and 24: nothing more is said")
    replies = b"".join(bytes.fromhex("04150008") + xid.to_bytes(4, "big") for xid in (24, 24, 9, 24))
    tell(f"hex more.rec {(whole + record(2, replies)).hex()}")
    one("more.rec", 0, written, "")
    tell("# behind it, a header that tells less than its own length: the connection is closed")
    tell(f"hex bad.rec {(whole + record(2, bytes.fromhex('0400000700000001'))).hex()}")
    one("bad.rec", 0, written + [record(131, b"\2").hex()], "conn 1: BadFrame")
    return {"stdin": stdin, "stdout": stdout}


if __name__ == "__main__":
    sys.stdout.write("\n".join(cases()[sys.argv[1]]) + "\n")
