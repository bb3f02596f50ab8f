#!/usr/bin/env python3
"""Runs the commands of documents as they stand, from the repository's root: each fenced block that is marked sh, one after the other. A fenced block
without a mark that follows one is what its output must end in.

    python3 bindings/snippets.py README.md docs/CALLS.md
"""
import os
import re
import subprocess
import sys

os.chdir(os.path.join(os.path.dirname(os.path.abspath(__file__)), ".."))
faults = runs = 0
for document in sys.argv[1:]:
    with open(document, encoding="utf-8") as f:
        blocks = re.findall(r"^```(\w*)\n(.*?)^```$", f.read(), re.M | re.S)
    for (mark, command), (after, expected) in zip(blocks, blocks[1:] + [("sh", "")]):
        if mark != "sh":
            continue
        runs += 1
        print(f"{document}: {command.splitlines()[0]}", flush=True)
        run = subprocess.run(["bash", "-euo", "pipefail", "-c", command], stdout=subprocess.PIPE, stderr=subprocess.STDOUT, text=True)
        if run.returncode != 0 or not after and not run.stdout.endswith(expected):
            faults += 1
            print(f"status {run.returncode}, printed:\n{run.stdout}expected at the end:\n{expected if not after else ''}")
print(f"{runs} snippets run, {faults} failed")
sys.exit(1 if faults or not runs else 0)
