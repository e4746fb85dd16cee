"""Runs a command and says what each crate cost it: processor minutes, user and system time, by what was done.

Twice a second the processes below the command are read. A process of the toolchain names its crate and, by its words,
what it does; what it starts (jobs, the linker) counts for it. What is gone between two looks is missing from the rows, and
is told as the difference from the whole, which the system counts exactly.
"""
import os
import re
import subprocess
import sys
import time

TICKS = os.sysconf("SC_CLK_TCK")
KINDS = ("proof", "tests", "edits", "program")


def status_of(pid):
    """The parent of a process, its own processor seconds and when it began, or nothing where it is gone."""
    try:
        with open(f"/proc/{pid}/stat", encoding="utf-8", errors="replace") as it:
            fields = it.read().rpartition(")")[2].split()
    except OSError:
        return None
    return int(fields[1]), (int(fields[11]) + int(fields[12])) / TICKS, int(fields[19])


def words_of(pid):
    try:
        with open(f"/proc/{pid}/cmdline", encoding="utf-8", errors="replace") as it:
            words = it.read().split("\0")
        return words, os.readlink(f"/proc/{pid}/cwd")
    except OSError:
        return [], ""


def named(pid):
    """The crate that a process of the toolchain works on, and what it does, or nothing."""
    words, folder = words_of(pid)
    if "--crate-name" not in words:
        return None
    name = words[words.index("--crate-name") + 1]
    if "rt-edit-" in folder:
        return name, "edits"
    if "--test" in words:
        return name, "tests"
    return name, "program" if "--crate-checked" in words else "proof"


def look(root, seen, known):
    """Notes what each process below the root has taken so far."""
    found = {int(it): status_of(it) for it in os.listdir("/proc") if it.isdigit()}
    children = {}
    for pid, status in found.items():
        if status:
            children.setdefault(status[0], []).append(pid)
    left = [(root, None)]
    while left:
        pid, above = left.pop()
        if not found.get(pid):
            continue
        _, seconds, start = found[pid]
        if known.get((pid, start)) is None:
            known[pid, start] = named(pid)
        what = known[pid, start] or above
        if what:
            seen[pid, start, what] = seconds
        left += [(it, what) for it in children.get(pid, [])]


def main():
    began = time.time()
    ran = subprocess.Popen(sys.argv[1:])
    seen, known = {}, {}
    while ran.poll() is None:
        look(ran.pid, seen, known)
        time.sleep(0.5)
    used = os.times()
    whole = used.children_user + used.children_system
    rows = {}
    for (_, _, (name, kind)), seconds in seen.items():
        rows.setdefault(name, dict.fromkeys(KINDS, 0))[kind] += seconds / 60
    with open("crates.txt", encoding="utf-8") as it:
        order = re.findall(r"(?m)^(\w+)(?: staticlib)?:", it.read())
    shown = lambda minutes: f"{minutes:.1f}" if minutes >= 0.05 else ""
    print("| crate | proof | tests | edits | program |\n|---|---|---|---|---|")
    for name in [it for it in order if it in rows]:
        print(f"| `{name}` | {' | '.join(shown(rows[name][it]) for it in KINDS)} |")
    sums = [sum(row[it] for row in rows.values()) for it in KINDS]
    print(f"| all | {' | '.join(shown(it) for it in sums)} |")
    print(f"{whole / 60:.1f} processor minutes in all, {whole / 60 - sum(sums):.1f} of them in no row; {(time.time() - began) / 60:.1f} minutes")
    sys.exit(ran.returncode)


main()
