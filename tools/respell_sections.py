#!/usr/bin/env python3
"""Brings the lemmas that stand in sections (indented, below `module _ ..`) to the spelling that respell.py gave the others: it did not see them.
Run once, at the top, after port.py and respell.py; what it renames it prints, and with --check it writes nothing.

A dash stays where what stands before it is the name of a definition, else it becomes `_`; camel case becomes snake case. A lemma that would
have the name of a definition or of another lemma of its crate ends in `_lem`. Names that a file has from the library stay.
"""
import collections
import os
import re
import sys

WORD = re.compile(r"[^\W\d][\w'₀-₉-]*", re.U)
DECL = re.compile(r"\s*(?:(?:abbrev|unfoldable|pub|ruleset) )*([^\s:(){}«»=,;]+) :(?: |$)")
TYPE = re.compile(r"\s*(?:(?:abbrev|unfoldable|pub) )*(?:record|data) (\S+)")
PROOF = ("Proof.antt", "Answers.antt", "Invariants.antt")


def snake(w):
    return re.sub(r"([a-z0-9])([A-Z])", r"\1_\2", w).lower()


def of_function(p):
    """A file of one function's proof: its names are the check's."""
    return "/proofs/" in p and os.path.basename(p) in PROOF and os.path.basename(os.path.dirname(p)) != "proofs"


def main():
    own = set(os.listdir("crates"))
    texts, defs, declared = {}, set(), collections.defaultdict(set)
    for folder, dirs, files in os.walk("crates"):
        dirs[:] = sorted(d for d in dirs if d != "out")
        for f in sorted(files):
            p = os.path.join(folder, f)
            if not f.endswith(".antt"):
                continue
            with open(p, encoding="utf-8") as g:
                texts[p] = g.read()
            for line in texts[p].split("\n"):
                m = DECL.match(line)
                if line.strip().startswith("--") or not m:
                    continue
                if "/specs/" in p or re.match(r"\s*(abbrev|unfoldable)", line):
                    defs.add(m[1])
                if not of_function(p):
                    declared[m[1]].add(p)
    new = {}
    for n in declared:
        if not re.match(r"[a-z]", n) or not ("-" in n or re.search(r"[A-Z]", n)):
            continue
        cur, out = [], []
        for x in n.split("-"):
            x = snake(x) if re.match(r"[a-z]", x) else x
            if cur and "_".join(cur) in defs:
                out.append("_".join(cur))
                cur = []
            cur.append(x)
        w = "-".join(out + ["_".join(cur)])
        if w != n:
            new[n] = w
    for n, w in list(new.items()):
        # a second lemma of that name, or a definition
        if w in declared or list(new.values()).count(w) > 1:
            new[n] = w + "_lem"
    bad = 0
    turned = {}
    for p, t in texts.items():
        lib = set()
        for m in re.finditer(r"(?m)^(?:pub )?use ([\w.]+)\.\{([^}]*)\}", t):
            first = m[1].split(".")
            if not (first[0] == "Rattle" and len(first) > 1 and first[1] in own):
                lib |= {x.strip().split(" as ")[-1] for x in m[2].split(",")}
        names = {n: w for n, w in new.items() if n not in lib}
        code = re.sub(r"--[^\n]*", "", t)
        used = {m[0] for m in WORD.finditer(code)}
        for n in used & set(names):
            if names[n] in used:
                print("falls together: %s: %s <- %s" % (p, names[n], n))
                bad += 1
        turned[p] = WORD.sub(lambda m: names.get(m[0], m[0]), t)
    for n, w in sorted(new.items()):
        print("%s -> %s" % (n, w))
    if bad:
        print("%d fall together: nothing is written" % bad)
        return 1
    n = 0
    for p, u in turned.items():
        if u != texts[p]:
            n += 1
            if "--check" not in sys.argv:
                with open(p, "w", encoding="utf-8") as g:
                    g.write(u)
    print("%d names in %d files" % (len(new), n))


sys.exit(main())
