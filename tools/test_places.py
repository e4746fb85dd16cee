"""Asks of each entry of each datapath that standard input names, as FILE and NAME, where it comes from: see test.sh."""
import re, sys

import openflow, places, program, subset

count = 0
for line in sys.stdin:
    file, name = line.split()
    at = places.Places(subset.joined(file), program.check(file))
    for frame in openflow.cut(program.run("plan", file, name).stdout)[0]:
        if openflow.kind_of(frame) == openflow.FLOW_MOD and frame[25] == openflow.ADD:
            entry = openflow.Entry(frame)
            told = places.origin(at, name, entry)
            if not told or not any(re.search(r"\.yaml:[1-9]\d*: |each datapath has it", it) for it in told):
                sys.exit(f"{file} {name}: {entry.text()}: {told}")
            count += 1
print(f"told: {count} entries")
