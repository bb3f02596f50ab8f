#!/usr/bin/env python3
"""How long each module of one crate's check takes, in seconds: what it loads of other crates first, then the modules that take longest, then
the sum for each function and each file of definitions or laws. The libraries that the crate uses must have been built by `rt check` in its folder.

    python3 harness/modules.py CRATE [LINES]
"""
import collections
import os
import re
import shutil
import subprocess
import sys
import time

name, lines = sys.argv[1], int(sys.argv[2]) if len(sys.argv) > 2 else 12
crates = os.path.join(os.path.dirname(os.path.dirname(os.path.abspath(__file__))), "crates")


def fail(message):
    print(f"modules.py: {message}", file=sys.stderr)
    sys.exit(2)


rt = shutil.which("rt")
kit = os.path.dirname(os.path.dirname(os.path.realpath(rt))) if rt else fail("no rt is at hand")
uses, static = {}, set()
with open(f"{crates}/../crates.txt", encoding="utf-8") as f:
    for line in f:
        if ":" in line.split("#")[0]:
            head, below = line.split("#")[0].split(":", 1)
            uses[head.split()[0]] = below.split()
            if "staticlib" in head.split()[1:]:
                static.add(head.split()[0])
if name not in uses:
    fail(f"crates.txt has no crate {name}")
reached = []


def reach(crate):
    for below in uses[crate]:
        if below in uses and below not in reached:
            reached.append(below)
            reach(below)


reach(name)
folder = {it: f"{crates}/{it}/out/rlib" if it in uses else f"{kit}/rlibs" for it in ["std", *reached, *uses[name]]}
for below, at in folder.items():
    if not os.path.isdir(f"{at}/{below}.rlib"):
        fail(f"the library {below} is not built: run `rt check` in crates/{name}" if below in uses else f"this kit has no {at}/{below}.rlib")
if not all(os.path.exists(f"{kit}/{it}") for it in ("bin/rattle", "logic_built", "rattle/logic/antt-project.json")):
    fail(f"the kit of {rt} is laid out in another way")
command = [f"{kit}/bin/rattle", "check", "--crate-name", name, "src/main.rt" if os.path.exists(f"{crates}/{name}/src/main.rt") else "src/lib.rt"]
for below in ["std", *uses[name]]:
    command += ["--extern", f"{below}={folder[below]}/{below}.rlib"]
for below in reached:
    command += ["-L", f"dependency={folder[below]}"]
command += ["-L", f"dependency={kit}/rlibs", "--antt-project", f"{kit}/rattle/logic/antt-project.json", "--logic-built", f"{kit}/logic_built", "--jobs", "1"]
command += ["--crate-type", "staticlib"] if name in static else []

# antt says when it begins a module and when it has written it; a module that another one needs is checked within that one's time
run = subprocess.Popen(
    command, cwd=f"{crates}/{name}", stdout=subprocess.PIPE, stderr=subprocess.STDOUT, env=dict(os.environ, ANTT_CACHE_DEBUG="1"), text=True
)
took, within, other, last, verdict, said = collections.Counter(), [], 0.0, time.time(), "", []
for line in run.stdout:
    now = time.time()
    if within:
        took[within[-1]] += now - last
    else:
        other += now - last
    last = now
    told = re.match(r"antt: cache: ([^:]*): (elaborating|artifact encoded)", line)
    if told and told.group(2) == "elaborating":
        within.append(told.group(1))
    elif told and told.group(1) in within:
        del within[within.index(told.group(1)):]
    if line.startswith("logic="):
        verdict = line
    elif not line.startswith("antt: cache:"):
        said.append(line)
run.wait()
if not verdict.startswith("logic=proved"):
    fail(f"{name} was not proved, so nothing is told:\n" + "".join(said[-20:]) + verdict)
if not took:
    fail("this kit's check does not say when it begins a module")
print(f"{other:6.2f}  loading, and what is no module's")
for module, seconds in took.most_common(lines):
    print(f"{seconds:6.2f}  {module}")


def part(module):
    """The function that a module is made for, or the file of definitions or laws that it is."""
    link = re.match(r"Rattle-\w+-proofs\.TheLinks\.\w+?-(.*)", module)
    path = link.group(1) if link else re.sub(r"^Rattle-\w+[-.](?:specs\.contracts|proofs|specs)\.", "", module)
    return f"{name}::{path.split('.')[0]}" if path != module else module


functions = collections.Counter()
for module, seconds in took.items():
    functions[part(module)] += seconds
print("by function")
for function, seconds in functions.most_common(lines):
    print(f"{seconds:6.2f}  {function}")
