#!/usr/bin/env python3
"""Brings the repository's own definitions and lemmas to today's spelling: words in snake case.

usage: tools/respell.py        at the top, once, on a tree that port.py has just turned

A name that specs/ or a lemma file of proofs/ declares in camel case, or with dashes, becomes snake case, wherever the
repository says it: in specs/, proofs/, clauses, comments and the edits of must-fail/. Types, modules and what src/
declares keep their names, and so do strings. Where a lemma would fall together with another name it gets `_lem`.
"""

import collections
import os
import re
import sys

WORD = re.compile(r"[A-Za-z_][\w'\-]*")
HEAD = r"^\s*(?:(?:pub|abbrev|unfoldable|opaque|data|record)\s+)*([a-z_][\w'\-]*)\s*:(?![:=])"
USE = re.compile(r"\buse\s+([A-Za-z][\w.]*?)\.\{([^}]*)\}", re.S)
OWN = ("Rattle.",)


def files(top, *ends):
    for folder, dirs, names in os.walk(top):
        dirs[:] = sorted(d for d in dirs if d != "out")
        for name in sorted(names):
            if name.endswith(ends):
                yield os.path.join(folder, name)


def is_lemma_file(path):
    parts = path.split(os.sep)
    if "specs" in parts:
        return True
    return "proofs" in parts and parts.index("proofs") == len(parts) - 2


def snake(name):
    name = name.replace("-", "_")
    return re.sub(r"(?<=[a-z0-9])([A-Z])", lambda m: "_" + m.group(1).lower(), name)


def is_old(name):
    return "-" in name or bool(re.match(r"[a-z].*[A-Z]", name))


def imports(text):
    """The names that a file imports from elsewhere than this repository, and from it."""
    kit, own = set(), set()
    for m in USE.finditer(text):
        names = {n.split(" as ")[-1].strip() for n in m[2].split(",")}
        crate = m[1].split(".")[1] if m[1].startswith("Rattle.") and "." in m[1] else ""
        (own if crate in CRATES else kit).update(n for n in names if n)
    return kit, own


CRATES = {c for c in os.listdir("crates") if os.path.isdir(os.path.join("crates", c))}


def main():
    declared = collections.defaultdict(set)
    kept = set()
    kits = collections.Counter()
    texts = {p: open(p, encoding="utf-8").read() for p in files("crates", ".antt", ".rt", ".edit")}
    for p, text in texts.items():
        if p.endswith(".edit"):
            continue
        kits.update(imports(text)[0])
        if p.endswith(".antt") and is_lemma_file(p):
            for line in text.splitlines():
                m = re.match(HEAD, line)
                if m:
                    (declared[m[1]] if is_old(m[1]) else kept).add(p) if is_old(m[1]) else kept.add(m[1])
    new = {}
    camel = {snake(n) for n in declared if "-" not in n}
    for n in sorted(declared):
        s = snake(n)
        if "-" in n and (s in camel or s in kept or s in kits):
            s += "_lem"
        new[n] = s
    taken = collections.defaultdict(set)
    for n, s in new.items():
        taken[s].add(n)
    for s, ns in taken.items():
        if len(ns) > 1 or s in kept or s in kits:
            print("look:", s, sorted(ns), "kept" if s in kept else "", "kit" if s in kits else "")

    changed = 0
    for p, text in texts.items():
        source = text
        if p.endswith(".edit"):
            target = re.search(r"^file: (.*)$", text, re.M)
            crate = p.split(os.sep)[1]
            source = texts.get(os.path.join("crates", crate, target[1]), "") if target else ""
        kit = imports(source)[0] - set(declared_in(source))

        def turn(m):
            w = m[0]
            tail = ""
            while w.endswith("-"):
                w, tail = w[:-1], "-" + tail
            if w in new and w not in kit:
                return new[w] + tail
            return m[0]

        if p.endswith(".rt"):
            out = "".join(q if q[:1] == '"' else WORD.sub(turn, q) for q in re.split(r'("(?:[^"\\\n]|\\.)*")', text))
        else:
            out = WORD.sub(turn, text)
        if out != text:
            changed += 1
            with open(p, "w", encoding="utf-8") as f:
                f.write(out)
    print(f"{len(new)} names, {changed} files")
    return 0


def declared_in(text):
    for line in text.splitlines():
        m = re.match(HEAD, line)
        if m:
            yield m[1]


if __name__ == "__main__":
    sys.exit(main())
