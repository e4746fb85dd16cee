#!/usr/bin/env bash
# Lets each allocation of a run of `faucet` fail, one number at a time, and sees what becomes of the run: `check` of
# each example, `plan` of its first datapath, and `replay` of quick start. Such a run ends with status 8 and its line, or
# 3 where a file could not be opened, and what it wrote is a prefix of the whole; or it does without the memory, and
# ends as ever. Prints how many runs ended in which way; status 1 where one ended otherwise. Needs gcc.
# Usage: bench/memory.sh
set -eu
top=$(cd "$(dirname "$0")/.." && pwd)
work=$(mktemp -d)
trap 'rm -rf "$work"' EXIT
"$top/bin/faucet" plan "$top/examples/quick-start/faucet.yaml" sw1 >/dev/null

gcc -O2 -shared -fPIC -o "$work/fail.so" "$top/bench/fail.c"

python3 - "$top" "$work" <<'RUNS'
import collections, os, re, subprocess, sys

top, work = sys.argv[1:]
program = top + "/crates/faucet/out/faucet"


def run(folder, words, failing):
    counted = f"{work}/{failing}"
    env = {**os.environ, "LD_PRELOAD": work + "/fail.so", "FAILING": str(failing), "COUNTED": counted}
    ran = subprocess.run([program, *words], cwd=folder, env=env, capture_output=True)
    count = os.path.getsize(counted)
    os.remove(counted)
    return ran, count


def way(ran, whole):
    if ran.returncode == whole.returncode and ran.stdout == whole.stdout and ran.stderr == whole.stderr:
        return "as ever"
    if not whole.stdout.startswith(ran.stdout):
        return "OTHERWISE"
    for status, line in (8, b"out of memory\n"), (3, b": read fault\n"):
        if ran.returncode == status and ran.stderr.endswith(line):
            return f"status {status}"
    return "OTHERWISE"


wrong = False
for name in sorted(os.listdir(top + "/examples")):
    folder = f"{top}/examples/{name}"
    commands = [["check", "faucet.yaml"]]
    found = re.search(r"^dps:\s*\n\s+([\w-]+):", open(folder + "/faucet.yaml").read(), re.M)
    if found:
        commands.append(["plan", "faucet.yaml", found[1]])
    if os.path.isfile(folder + "/switch.rec"):
        commands.append(["replay", "faucet.yaml", "switch.rec"])
    for words in commands:
        whole, count = run(folder, words, 0)
        ways = collections.Counter(way(run(folder, words, it)[0], whole) for it in range(1, count + 1))
        wrong = wrong or ways["OTHERWISE"] > 0
        print(f"{name}: {' '.join(words)}: {count} allocations:", ", ".join(f"{n} {it}" for it, n in ways.most_common()))
sys.exit(wrong)
RUNS
