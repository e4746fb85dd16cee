#!/usr/bin/env python3
"""Writes the cases of crates/test_links in which each call of a poller and of two links fails or waits in turn:
python3 bench/link_cases.py stdin, or stdout.

The answers are worked out here, from what a hub of links does, with none of the program's code.
"""
import sys

MOST_UNSENT, MOST_OPEN, MOST_EMPTY = 67_108_864, 256, 1024


def numbers(text):
    found = set()
    for part in text.split(","):
        first, _, last = part.partition("-")
        if first.isdigit():
            found |= set(range(int(first), int(last or first) + 1))
    return found


class Link:
    """A link in memory: its calls are counted, of which some fail and some wait; each moves at most so many bytes."""

    def __init__(self, text):
        source, *parts = text.split("/")
        named = dict(part.split("=") for part in parts)
        self.left, self.wrote, self.calls, self.unsent = bytes.fromhex(source), b"", 0, b""
        self.room, self.most = int(named.get("room", 9)), int(named.get("most", 100_000))
        self.fail, self.wait = numbers(named.get("fail", "")), numbers(named.get("wait", ""))

    def call(self):
        self.calls += 1
        return "failed" if self.calls in self.fail else "not yet" if self.calls in self.wait else None

    def read(self):
        answer = self.call()
        if answer or not self.left:
            return answer or "end"
        count = min(self.most, 65_536)
        piece, self.left = self.left[:count], self.left[count:]
        return piece

    def flush(self):
        """Whether no write failed."""
        while self.unsent:
            answer = self.call()
            count = min(len(self.unsent), self.most, self.room - len(self.wrote))
            if answer == "not yet":
                return True
            if answer or not count:
                return False
            self.wrote, self.unsent = self.wrote + self.unsent[:count], self.unsent[count:]
        return True


class Hub:
    def __init__(self, fail, nexts):
        self.fail, self.nexts, self.asked = fail, nexts, 0
        self.given, self.moment, self.open, self.ended, self.told = 0, 0, {}, {}, []

    def end(self, conn, cause):
        del self.open[conn]
        self.told.append(f"gone {conn}")
        return f"closed {conn} {cause}"

    def ready(self, conn):
        link = self.open.get(conn)
        if link is None:
            return None
        if not link.flush():
            return self.end(conn, "LinkFault")
        answer = link.read()
        if answer == "not yet":
            self.told.append(f"quiet {conn}")
            return None
        if isinstance(answer, str):
            return self.end(conn, {"end": "End", "failed": "LinkFault"}[answer])
        return f"heard {conn} " + (answer.hex() if len(answer) < 9 else f"{len(answer)} bytes")

    def ask(self):
        self.asked += 1
        if self.asked in self.fail:
            return "failed"
        if not self.nexts:
            return "done"
        name, rest = self.nexts.pop(0)
        if name == "moment":
            self.moment = int(rest)
            return f"moment {rest}"
        if name == "ready":
            return self.ready(int(rest))
        self.given += 1
        if len(self.open) >= MOST_OPEN:
            self.told.append(f"gone {self.given}")
            return None
        self.open[self.given] = Link(rest)
        return f"opened {self.given}"

    def turn(self):
        if self.ended:
            conn = min(self.ended)
            return f"closed {conn} {self.ended.pop(conn)}"
        for _ in range(MOST_EMPTY):
            turn = self.ask()
            if turn:
                return turn
        return f"moment {self.moment}"

    def say(self, conn, piece):
        link = self.open.get(conn)
        if link is None:
            return "Gone"
        cause = "Overfull" if len(link.unsent) + len(piece) > MOST_UNSENT else None
        if not cause:
            link.unsent += piece
            if link.flush():
                return "Taken"
        self.end(conn, cause)
        self.ended[conn] = cause or "LinkFault"
        return "Gone"

    def call(self, name, conn, piece):
        if name == "turn":
            return self.turn()
        if name == "pass":
            self.turn()
            return "a turn"
        if name == "close":
            if conn in self.open:
                self.end(conn, "")
            self.ended.pop(conn, None)
            return f"close {conn}"
        if name == "link":
            return "holds " + self.open[conn].wrote[:20].hex() if conn in self.open else "no link"
        return self.say(conn, bytes.fromhex(piece) if name == "say" else bytes(65_536))


def grouped(texts):
    out, rest = "", list(texts)
    while rest:
        count = next((n for n, text in enumerate(rest) if text != rest[0]), len(rest))
        out += rest[0] + (f" ({count} times)" if count > 1 else "") + "; "
        rest = rest[count:]
    return out


def answer(line):
    given, _, calls = line[len("links "):].partition("|")
    fail, *words = given.split(" ")
    nexts = []
    for word in " ".join(words).split():
        times, star, what = word.partition("*")
        name, _, rest = (what if star else word).partition(":")
        nexts += [(name, rest)] * (int(times) if star else 1)
    hub, out = Hub(numbers(fail), nexts), ""
    for word in calls.split():
        times, star, call = word.partition("*")
        name, conn, piece = ((call if star else word).split(":") + ["0", ""])[:3]
        out += grouped([hub.call(name, int(conn or 0), piece) for _ in range(int(times) if star else 1)])
    return f"{line} => {out}told {grouped(hub.told)}"


# ---- cases

CALLS = "2*turn say:1:0a0b say:2:0c 2*turn link:1 link:2 say:1:0d 3*turn say:2:0e 3*turn close:1 close:2 turn"


def case(fail="-", first="", second=""):
    return f"links {fail} new:0102/most=1{first} new:03{second} ready:1 ready:2 ready:1 moment:5 ready:2 ready:1 moment:6 ready:1 | {CALLS}"


def cases():
    lines = ["# two links: each call of the poller fails in turn, and two behind each other"]
    lines += [case(fail=str(n)) for n in range(1, 14)] + [case(fail=f"{n},{n + 1}") for n in range(1, 11, 3)]
    for title, what in (("fails", "fail"), ("waits", "wait")):
        lines.append(f"# each call of the first link {title} in turn, then each of the second")
        lines += [case(first=f"/{what}={n}") for n in range(1, 10)] + [case(second=f"/{what}={n}") for n in range(1, 6)]
    lines.append("# both fail, at each call of the first; the first has no room, at each length")
    lines += [case(first=f"/fail={n}", second="/fail=2") for n in range(1, 10)] + [case(first=f"/room={n}") for n in range(4)]
    lines.append("# a link that is ready and has nothing yet: behind 1,024 such answers comes a moment, the last one")
    lines += ["links - new:01/wait=1-2000 1024*ready:1 | 3*turn", "links - moment:7 new:01/wait=1-2000 1023*ready:1 ready:2 ready:1 | 4*turn"]
    return {"stdin": lines, "stdout": [line if line.startswith("#") else answer(line) for line in lines]}


if __name__ == "__main__":
    sys.stdout.write("\n".join(cases()[sys.argv[1]]) + "\n")
