#!/usr/bin/env python3
"""Respells the repository's own definitions and lemmas: words in snake case, types and modules as they are.

usage: python3 tools/respell.py [--list]      at the top of the repository, once, after port.py

A name of specs/ or of a lemma file of proofs/ that begins with a small letter loses its capitals and its dashes: `matrixOf` becomes
`matrix_of`, `row-of-cell` becomes `row_of_cell`. A part that begins with a capital is a type's name and keeps its dash.
A lemma that would have the name of a definition gets `_lem`. What a function's own proof names as its goals is left alone: the check
makes those names. Pages, comments and edits follow.
"""
import os
import re
import shutil
import sys

WORD = r"[^\s:(){}\[\].,;`\"]+"
DECLARED = re.compile(r"^\s*(?:(?:unfoldable|abbrev|opaque|pub|instance|private|ruleset)\s+)*(%s)(?: (?:\([^)]*\)|\{[^}]*\}))* :(?: |$)" % WORD)
RECORD = re.compile(r"^\s*(?:pub )?(?:record|data) (%s)" % WORD)
TOKEN = re.compile(r"[A-Za-z_][\w'₀-₉]*(?:-[\w'₀-₉]+)*")


def texts(ends):
    for folder, dirs, files in os.walk("crates"):
        dirs[:] = sorted(d for d in dirs if d != "out")
        for f in sorted(files):
            if f.endswith(ends):
                yield os.path.join(folder, f)


def own(path):
    """A file of specs/, or a lemma file that lies right in proofs/."""
    parts = path.split(os.sep)
    return parts[2] == "specs" or (parts[2] == "proofs" and len(parts) == 4)


def snake(name):
    if not re.match(r"[a-z]", name):
        return name
    parts = []
    for p in name.split("-"):
        if re.match(r"[A-Z]", p):
            parts.append("-" + p)
            continue
        p = re.sub(r"(?<=[a-z0-9'])([A-Z])", lambda m: "_" + m.group(1).lower(), p)
        p = re.sub(r"([A-Z])", lambda m: m.group(1).lower(), p)
        parts.append("_" + p)
    return "".join(parts)[1:]


def names():
    found = {}
    for path in texts(".antt"):
        if not own(path):
            continue
        with open(path, encoding="utf-8") as f:
            for line in f:
                m = DECLARED.match(line)
                if m and TOKEN.fullmatch(m.group(1)):
                    found.setdefault(m.group(1), set()).add(path)
    return found


def library():
    """The words of the kit's library, which keep their spelling."""
    words = set()
    top = os.path.join(os.path.dirname(os.path.dirname(os.path.realpath(shutil.which("rt")))), "rattle")
    for folder, dirs, files in os.walk(top):
        for f in files:
            if f.endswith(".antt"):
                with open(os.path.join(folder, f), encoding="utf-8", errors="replace") as it:
                    for line in it:
                        m = DECLARED.match(line)
                        if m:
                            words.add(m.group(1))
    return words


def main(argv):
    found = names()
    kit = library()
    turned = {n: snake(n) for n in found if snake(n) != n and not (n in kit)}
    kept = sorted(n for n in found if snake(n) != n and n in kit)
    used = {p: set(TOKEN.findall(open(p, encoding="utf-8").read())) for p in texts((".antt", ".rt"))}
    fns = {m for p in texts(".rt") for m in re.findall(r"\bfn (\w+)", open(p, encoding="utf-8").read())}
    for old, new in sorted(turned.items()):
        both = [p for p, w in used.items() if old in w and new in w]
        if both and new not in fns:
            turned[old] = new + "_lem"
            print(f"a name in use: {old} -> {new}_lem, since {new} is in {', '.join(both[:5])}")
    for old, new in sorted(turned.items()):
        if turned[old] == new and "-" in old and any(n != old and v == new for n, v in turned.items()):
            turned[old] = new + "_lem"
            print(f"a definition is called {new}: {old} -> {new}_lem")
    print(f"kept, since the library has them: {' '.join(kept)}")
    print(f"{len(turned)} names")
    if "--list" in argv:
        return
    pages = [os.path.join(d, f) for d in ("docs", ".") for f in os.listdir(d) if f.endswith(".md")] + ["crates.txt"]
    for path in list(texts((".antt", ".rt", ".edit"))) + pages:
        with open(path, encoding="utf-8") as f:
            t = f.read()
        if path in pages:
            u = re.sub(r"`([^`\n]+)`", lambda m: "`" + TOKEN.sub(lambda w: turned.get(w.group(0), w.group(0)), m.group(1)) + "`", t)
        else:
            u = TOKEN.sub(lambda m: turned.get(m.group(0), m.group(0)), t)
        if u != t:
            with open(path, "w", encoding="utf-8") as f:
                f.write(u)


if __name__ == "__main__":
    main(sys.argv[1:])
