#!/usr/bin/env python3
"""Looks up what the documents name.

docs/REVIEW.md: each file is there and defines the names that stand behind it, each contract and edit is there, each kind of case, and each sentence
that is quoted. docs/READING.md: both ways, each crate stands in the map with its line of crates.txt and each file of definitions in the reading order,
and each crate, file and name on the page is there. What a line of its picture joins is a call. README.md and the other documents: their paths are there, and
each name in backticks stands in a source, outside its comments; docs/src/rand, which is rand's, is not looked at. Definitions: where the kit is at hand, none has a name that
the specs of its standard library have, but for those that are older than this kit; these are told in a note.

    python3 harness/documents.py
"""
import os
import re
import shutil
import sys

os.chdir(os.path.join(os.path.dirname(os.path.abspath(__file__)), ".."))
faults = []
seen = 0


def text(path):
    with open(path, encoding="utf-8") as f:
        return f.read()


def below(folder):
    """The files of a folder; crates/NAME/out, which rt makes, is not looked at."""
    return sorted(os.path.join(d, f) for d, _, fs in os.walk(folder) if not re.search(r"(^|/)crates/\w+/out(/|$)", d) for f in fs)


def has(where, ok, what):
    global seen
    seen += 1
    if not ok:
        faults.append(f"{where}: {what}")


def named(path, name):
    return re.search(r"(?<![\w-])" + re.escape(name) + r"(?![\w-])", text(path)) is not None


def defined(path, name):
    """Whether a file of definitions or a source defines a name, as a function, a type, a case, a field or a parameter; another file has it."""
    plain, name = name, re.escape(name)
    if path.endswith(".antt"):
        return re.search(rf"^(?:  ){{0,2}}(?:(?:pub|abbrev|unfoldable|opaque) )*{name} :|^(?:pub )?(?:record|data) {name}\b", text(path), re.M) is not None
    if path.endswith(".rt"):
        enums = "".join(re.findall(r"^pub enum \w+ \{\n.*?^\}", text(path), re.M | re.S))
        return bool(re.search(rf"\b(?:fn|struct|enum|const) {name}\b|(?<![\w.]){name}: ", text(path)) or re.search(rf"^    {name}\b", enums, re.M))
    return named(path, plain)


def cells(line):
    return [cell.strip() for cell in line.strip().strip("|").split("|")]


cases = "".join(text(p) for p in below("harness") if p.endswith((".rs", ".py")))
sources = {c: "".join(text(p) for p in below(f"crates/{c}/src")) for c in os.listdir("crates")}
lines = dict(re.findall(r"^# (\w+): (.*)\n\1(?: staticlib)?:", text("crates.txt"), re.M))
kit = {"io"}

for number, line in enumerate(text("docs/REVIEW.md").splitlines(), 1):
    if not line.startswith("|"):
        continue
    where = f"docs/REVIEW.md:{number}"
    for document, quoted in re.findall(r'(README\.md|docs/\w+\.md) ("[^"]+"(?:, "[^"]+")*)', line):
        for sentence in re.findall(r'"([^"]+)"', quoted):
            has(where, sentence in text(document), f"{document} does not say: {sentence}")
    for part in re.split(r"[;|]", line):
        part = part.strip()
        path = re.match(r"((?:[\w.+-]+/)+[\w.+-]+\.(?:antt|rt|rs|py|sh|md|h|txt))\b", part)
        if path:
            full = path.group(1) if os.path.exists(path.group(1)) else "crates/" + path.group(1)
            has(where, os.path.exists(full), f"no file {path.group(1)}")
            if os.path.exists(full):
                for name in re.findall(r"`([^`]+)`", part):
                    has(where, defined(full, name), f"{full} does not define {name}")
        for name, crate in re.findall(r"`([\w]+)` \((\w+)\)", part if re.match(r"contract of|edit|`", part) else ""):
            if part.startswith("edit"):
                has(where, os.path.exists(f"crates/{crate}/must-fail/{name}.edit"), f"no edit {name} ({crate})")
            else:
                has(where, re.search(rf"fn {name}\b[^{{]*\n    (?:requires|ensures)", sources.get(crate, ""), re.S),
                    f"no contract of {name} ({crate})")
        for name in re.findall(r'"([^"]+)"', part) if part.startswith("case") else []:
            has(where, f'"{name}' in cases, f"no case {name}")

# the map and the reading order, both ways
mapped, read, heads = {}, set(), []
page = text("docs/READING.md")
rows = page.splitlines()
for number, line in enumerate(rows, 1):
    where = f"docs/READING.md:{number}"
    if not line.startswith("|") or line.startswith("|--"):
        continue
    row = cells(line)
    if rows[number:] and rows[number].startswith("|--"):
        heads = row
    elif heads[1] == "Crate":
        has(where, row[1].strip("`") not in mapped, f"{row[1]} stands twice in the map")
        mapped[row[1].strip("`")] = row[2]
        has(where, lines.get(row[1].strip("`")) == row[2], f"{row[1]} has another line in crates.txt")
    elif heads[-1] == "Read by":
        for crate in re.findall(r"`(\w+)`", " ".join(row[-2:])):
            has(where, crate in lines, f"no crate {crate}")
    elif heads[-1] == "Names":
        path = "crates/" + row[1]
        read.add(path)
        has(where, "`" in row[2], f"{row[1]}: no name")
        has(where, os.path.exists(path), f"no file {row[1]}")
        for name in re.findall(r"`([^`]+)`", row[2]) if os.path.exists(path) else []:
            has(where, defined(path, name), f"{row[1]} does not define {name}")
# in the picture names stand around the lines that join them, in front of a colon behind a semicolon, or have an underscore
picture, behind = page.split("```")[1:3]
drawn = set(re.findall(r"\b[a-z]+(?:_[a-z]+)+\b|\b[a-z]+(?=(?: \([a-z ]+\))? ──)|(?<=; )[a-z]+(?=:)", picture))
for part in re.findall(r"── (.*?)(?= ──|:|  |$)", picture, re.M):
    drawn.update(re.sub(r" \([a-z ]+\)", "", part).split(", "))
drawn.update(re.findall(r"^ [A-Z' -]* ([a-z]+)$", picture, re.M))
drawn.update(re.findall(r"[a-z]+", picture.split("SHARED")[1].replace("of those above", "")))
# what a line of the picture joins is a call
for chain in re.split(r"\n| {2,}", picture):
    parts = [re.sub(r" \([a-z ]+\)|:.*", "", part).lstrip("│├└─┴ ").split(", ") for part in chain.split(" ── ")]
    for (*_, caller), called in zip(parts, parts[1:]):
        for crate in called:
            has("docs/READING.md, the picture", caller == crate or re.search(rf"\b{crate}::[a-z_]+\(", sources.get(caller, "")), f"{caller} does not call {crate}")
undrawn = set(re.findall(r"`(\w+)`", behind.split("\n\n")[1]))
for name in sorted(drawn | undrawn):
    has("docs/READING.md, the picture", name in lines, f"no crate {name}")
for crate in sorted(lines):
    has("docs/READING.md, the picture", crate.startswith(("test_", "harness_")) or (crate in drawn) != (crate in undrawn), f"{crate} is to be drawn or named as not drawn")
for crate in sorted(set(lines) | set(os.listdir("crates"))):
    has("docs/READING.md", crate in mapped and crate in lines and os.path.isdir(f"crates/{crate}"), f"crate {crate} is not in the map, crates.txt and crates/")
for path in below("crates"):
    if re.fullmatch(r"crates/(?!test_|harness_)\w+/specs/(?:\w+/)*(?!(?:Lib|Steps)\.)\w+\.antt", path):
        has("docs/READING.md", path in read, f"{path} is not in the reading order")

# paths, and names in backticks, of the other documents
words = set(lines) | kit
for folder in ("crates", "bindings", "harness", "include"):
    for path in below(folder):
        if not path.endswith(("stdin", "stdout", ".so", ".a")):
            code = re.sub(r"^ *(?://|--|# ).*", "", text(path), flags=re.M)
            words.update(re.findall(r"[\w-]+", code), re.findall(r"\w+", code), [os.path.basename(path).split(".")[0]])
for document in ["README.md"] + [p for p in below("docs") if p != "docs/REVIEW.md" and not p.startswith("docs/src/rand/")]:
    for number, line in enumerate(text(document).splitlines(), 1):
        where = f"{document}:{number}"
        for path in re.findall(r"(?<![\w/.<-])(?:crates|harness|docs|bindings|include)/[\w/.+-]*\w", line):
            if "/NAME" not in path:
                has(where, os.path.exists(path), f"no {path}")
        if document in ("docs/CHANGES.md", "docs/PORT.md", "docs/DESIGN-PASS.md", "docs/LOOK-BACK.md"):
            continue
        for names, path in re.findall(r"((?:`[\w-]+`(?:, | and )?)+) \((crates/[\w/.+-]+\.(?:antt|rt))", line):
            for name in re.findall(r"`([^`]+)`", names):
                has(where, os.path.exists(path) and named(path, name), f"{path} does not name {name}")
        for crate, name in re.findall(r"`([a-z]\w*)::(\w+)`", line):
            has(where, re.search(rf"\bfn {name}\b", sources.get(crate, "")), f"no {crate}::{name}")
        for name in re.findall(r"`([A-Za-z_][\w-]*)`", line):
            # a suffix, a prefix, and a name with f or g in it for a function's, stand for many names
            some = name in words or name.startswith("_") and any(w.endswith(name) for w in words) or name.endswith("_") and any(w.startswith(name) for w in words)
            has(where, some or re.search(r"\b[fg]\b", name), f"nothing is called {name}")

# a name of a contract means one thing to its reader: no definition has that of one which contracts can cite of the kit's standard library
rt = shutil.which("rt")
library = os.path.join(os.path.dirname(os.path.dirname(os.path.realpath(rt))), "rattle") if rt else ""
folders = [f"{library}/logic/Lib"] + [f"{library}/{c}/specs" for c in ("core", "std", "std_alloc", "std_collections", "std_io", "io")]
# definitions that are older than this kit, whose library now has their names for something else
older = set(
    "UpTo after before best_of byte_at bytes_of cell chosen count decided digits_of distance filled full group_at half in_group layout_of least moved none "
    "passes place_of plain plus put ran refused room row spelled stored taken text_of tried values_of word_at".split()
)
made = r"(?:(?:abbrev|unfoldable|opaque) )*pub (\S+) +:"
if not all(os.path.isdir(folder) for folder in folders):
    print("the kit's library was not found where it is looked for: not all of its names were looked up")
theirs = {name for folder in folders for path in below(folder) if path.endswith(".antt") for name in re.findall("^ *" + made, text(path), re.M)}
shared = set()
for path in below("crates"):
    if "/specs/" in path:
        for name in re.findall("^" + made, text(path), re.M):
            has(path, name not in theirs or name in older, f"the kit's library has another {name}")
            shared.update({name} & theirs & older)
if shared:
    print(f"note: {len(shared)} definitions are older than this kit and have a name that its library has for something else: {' '.join(sorted(shared))}")

for fault in faults:
    print(fault)
print(f"{seen} names looked up, {len(faults)} missing")
sys.exit(1 if faults else 0)
