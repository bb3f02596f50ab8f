#!/usr/bin/env python3
"""What the gate said of each crate, as a table, from what the gate prints: whether the crate is proved, how many of its must-fail edits are refused, and
how many came to anything else. Below it stands each line of what failed. The gate prints no times.

    bash .ci/run | tee gate.log; python3 harness/gate.py < gate.log
"""
import re
import sys

proofs, refused, other, failed, last = {}, {}, {}, [], ""
for line in sys.stdin:
    line = line.rstrip()
    m = re.match(r"rt: (\w+)(?: is)? (proved|kept|NOT PROVED)\b", line)
    if m:
        proofs[m.group(1)] = m.group(2)
    m = re.match(r"rt: must-fail (\w+)/\S+: (refused, as it must be)?", line)
    if m:
        count = refused if m.group(2) else other
        count[m.group(1)] = count.get(m.group(1), 0) + 1
    if re.match(r"rt: .*\b(?:NOT PROVED|NOT REFUSED|BAD EDIT|NOT TRIED|FAILED|the program ended with status|what the program wrote)\b", line):
        failed.append(line[len("rt: "):])
    if re.match(r"\d+ passed, \d+ failed", line):
        last = line
print("| Crate | Proof | Edits refused | Edits else |")
print("|---|---|---|---|")
for c in sorted({**proofs, **refused, **other}, key=lambda c: (-refused.get(c, 0), c)):
    print(f"| {c} | {proofs.get(c, 'not told')} | {refused.get(c, 0)} | {other.get(c, 0)} |")
print(f"| all | {sum(p != 'NOT PROVED' for p in proofs.values())} of {len(proofs)} | {sum(refused.values())} | {sum(other.values())} |")
for line in failed:
    print(line)
print(last or "the gate's last line is missing")
