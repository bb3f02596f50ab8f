#!/usr/bin/env python3
"""Counts, in src/ of every crate, the places of the points of docs/DESIGN-PASS.md, and with --list names them.
    python3 tools/design_pass.py [--list] [FOLDER]
FOLDER is a checkout (this one). Proofs (point 8) are counted by their lines."""
import collections
import glob
import os
import re
import sys

args = [a for a in sys.argv[1:] if a != "--list"]
listing = "--list" in sys.argv
root = args[0] if args else os.path.join(os.path.dirname(os.path.abspath(__file__)), "..")


def functions(text):
    """Each function of a file: name, parameters, clauses, body."""
    for m in re.finditer(r"^ *(?:#\[[^\n]*\]\n *)?(?:pub )?(?:extern \"C\" )?fn (\w+)", text, re.M):
        i = text.index("(", m.end())
        j = match(text, i, "()")
        body, clauses = None, []
        k = j
        while True:
            c = re.compile(r"\s*(?:->\s*[^\n{]*)?\s*(requires|ensures)(?: \w+)? \{").match(text, k)
            if not c:
                break
            end = match(text, c.end() - 1, "{}")
            clauses.append((c.group(1), " ".join(text[c.end() : end - 1].split())))
            k = end
        start = text.find("{", k)
        if start < 0 or ";" in text[k:start]:
            continue
        yield m.group(1), text[i + 1 : j - 1], clauses, text[start : match(text, start, "{}")]


def match(text, i, pair):
    depth = 0
    while True:
        if text[i] == pair[0]:
            depth += 1
        elif text[i] == pair[1]:
            depth -= 1
            if depth == 0:
                return i + 1
        i += 1


def split(s, sep):
    out, depth, cur = [], 0, ""
    for ch in s:
        depth += ch in "([{"
        depth -= ch in ")]}"
        if ch == sep and depth == 0:
            out.append(cur.strip())
            cur = ""
        else:
            cur += ch
    return [x for x in out + [cur.strip()] if x]


def shape(name, params, body):
    """A function's text with types, numbers and names left out."""
    s = re.sub(r"//[^\n]*", "", params + body)
    s = re.sub(r"\b(f64|usize|u64|u32|i64|u8|bool)\b", "T", s)
    s = re.sub(r"\b[0-9][0-9a-fx_.]*\b", "N", s)
    seen = {}
    return re.sub(r"\b[a-z_]\w*\b(?!\()", lambda m: seen.setdefault(m.group(0), "v%d" % len(seen)), re.sub(r"\s+", "", re.sub(r"\b(let|mut|for|in|if|else|return|while|match)\b", r"<\1>", s)))


places = collections.OrderedDict((k, []) for k in ("1 enum", "1 flag", "1 number", "2 twin", "3 loop", "4 by hand", "5 fact", "5 parameters", "6 list", "7 switch"))
facts, groups, shapes = collections.defaultdict(set), collections.defaultdict(set), collections.defaultdict(list)
for path in sorted(glob.glob(os.path.join(root, "crates/*/src/*.rt"))):
    crate = path.split(os.sep)[-3]
    text = open(path).read()
    for m in re.finditer(r"^(?:pub )?enum (\w+)", text, re.M):
        places["1 enum"].append((crate, m.group(1)))
    for m in re.finditer(r"^ +(?:pub )?(\w+): bool,$", text, re.M):
        before = text[: m.start()].rsplit("\n}", 1)[-1]
        if re.search(r"struct \w+[^{]*\{[^{}]*$", before):
            places["1 flag"].append((crate, m.group(1)))
    for name, params, clauses, body in functions(text):
        here = (crate, name)
        if name not in ("number_of", "place_of", "stop_number", "stop_place") and re.search(r"(return|=>|\{\n) *(4|5|6|11|21|22|23),?;?\n|\((5|6|11), 0, out\)|\b(cause|number|shape|refused|asked)\w* [!=]= [0-9]+", body):
            places["1 number"].append(here)
        s = shape(name, params, body)
        if len(s) > 24 or re.fullmatch(r"\{\[N;N\]\}", s):
            shapes[s].append(here)
        for m in re.finditer(r"^ *(?:for \w+ in (?!&)(?![^{\n]*iter)[^{\n]*\.\.[^{\n]* \{|while )", body, re.M):
            places["3 loop"].append(here)
        if name in ("answered", "number_of", "place_of", "groups_of", "read_of", "bytes_of", "stop_number", "stop_place", "same_labels", "same_bytes", "same", "larger", "lesser", "shorter"):
            places["4 by hand"].append(here)
        if re.search(r"io::(write_all|print_decimal|print_hex)\(", body):
            places["4 by hand"].append(here)
        for kind, clause in clauses:
            if kind == "requires":
                for f in re.split(r" × ", clause):
                    facts[f.strip(" ()")].add(here)
        names = [p.split(":")[0].strip() for p in split(params, ",") if ":" in p]
        for i in range(len(names)):
            for k in (2, 3, 4):
                if i + k <= len(names):
                    groups[tuple(names[i : i + k])].add(here)
        for p in split(params, ","):
            if re.search(r": bool$", p) and crate not in ("refusals", "kmeans_answers", "onc_checks", "intake", "test_counts", "test_intake", "test_kmeans", "test_run_cases"):
                places["7 switch"].append((crate, name + " " + p))
        if re.search(r"\bat: usize\b", params) and re.search(r"&mut \[", params) and re.search(r"\bout\b|\border\b", params):
            places["6 list"].append(here)
        elif {"count", "sizes"} <= set(names) or {"groups", "sizes"} <= set(names):
            places["6 list"].append(here)
for s, where in shapes.items():
    if len(where) > 1:
        places["2 twin"].extend(where)
for f, where in facts.items():
    if len(where) >= 3:
        places["5 fact"].append((f[:60], "%d functions" % len(where)))
best = [(g, w) for g, w in groups.items() if len(g) >= 3 and len(w) >= 3]
best = [(g, w) for g, w in best if not any(set(g) < set(h) and len(v) == len(w) for h, v in best)]
for g, where in best:
    places["5 parameters"].append((", ".join(g), "%d functions" % len(where)))
for point, where in places.items():
    print("%-14s %d" % (point, len(where)))
    if listing:
        for w in where:
            print("    " + " ".join(w))
answers = glob.glob(os.path.join(root, "crates/*/proofs/**/*.antt"), recursive=True)
print("%-14s %d files, %d lines" % ("8 proofs", len(answers), sum(open(p).read().count("\n") for p in answers)))
