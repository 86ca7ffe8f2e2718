#!/usr/bin/env python3
"""Brings the repository's own definitions and lemmas to one spelling: words in snake case, types in camel case.

usage: tools/spell_names.py [ROOT]     after port.py, once; it is kept so that the port can be compared with what had landed.

A name is turned where the repository's own texts declare it: at the head of a line of specs/ or proofs/, as a constructor or a field, or behind `let`. It is turned
in every file that declares it or imports it from the repository, behind a dot, and in the clauses of .rt files; it stays where a file imports it from a library.
Names that would fall together with another name of the same file are listed, and stay as OVERRIDES says.
"""

import collections
import os
import re
import sys

NAME = r"[^\s(){}.;,@\"«»]+"
HEAD = re.compile(rf"(?m)^( *)((?:(?:abbrev|unfoldable|pub|data|record|let|in|where) +)*)((?:{NAME} +)*?{NAME})((?: +\{{[^{{}}\n]*\}}| +\([^()\n]*\))*) +:(?: |$)")
USE = re.compile(r"^ *(?:pub |ghost )*use ([^\s;{]+?)(?:\.?\{([^}]*)\})?(?: as \S+)?;? *$", re.M)
WORD = re.compile(NAME)
KEYWORDS = {"abbrev", "unfoldable", "pub", "data", "record", "let", "in", "where", "mod", "use", "module", "λ", "→", ":", "=", "--", "constructor", "_"}

# where the plain rule would meet another name
OVERRIDES = {
    "region-of": "RegionOf",
    "kindsOk": "KindsOk",
}


def spelt(name):
    if name in OVERRIDES:
        return OVERRIDES[name]
    if name[:1].isupper():
        head, *rest = name.split("-")
        return "_".join([head] + [snake(r) for r in rest])
    return snake(name)


def snake(name):
    name = re.sub(r"(?<=[a-z0-9])([A-Z])(?![A-Z])", lambda m: "_" + m[1].lower(), name)
    return name.replace("-", "_")


def is_ours(path, crates):
    steps = path.split(".")
    return steps[0] == "Rattle" and len(steps) > 1 and steps[1] in crates


def texts(root):
    for folder, dirs, files in os.walk(os.path.join(root, "crates")):
        dirs[:] = sorted(d for d in dirs if d not in ("out", "must-fail"))
        for f in sorted(files):
            if f.endswith((".antt", ".rt")):
                yield os.path.join(folder, f)


def bare(text):
    """The text without comments and strings, of the same length."""
    return re.sub(r'"(?:[^"\\\n]|\\.)*"|(?<![^\s(){}.;,@"«»])--[^\n]*|//[^\n]*', lambda m: " " * len(m[0]), text)


def declared(text):
    found = set()
    for m in HEAD.finditer(bare(text)):
        for w in m[3].split():
            if w not in KEYWORDS:
                found.add(w)
    return found


def main():
    root = sys.argv[1] if len(sys.argv) > 1 else "."
    crates = set(os.listdir(os.path.join(root, "crates")))
    files = {p: open(p, encoding="utf-8").read() for p in texts(root)}
    ours, lent = collections.defaultdict(set), collections.defaultdict(set)
    for p, t in files.items():
        for m in USE.finditer(t):
            names = [n.strip().split(" as ") for n in (m[2] or "").split(",") if n.strip()]
            if not is_ours(m[1], crates):
                lent[p] |= {n[-1] for n in names}
        if p.endswith(".antt") and not p.endswith(("/Proof.antt", "/Answers.antt", "/Invariants.antt")):
            for w in declared(t):
                ours[w].add(p)
    table = {w: spelt(w) for w in ours if "-" in w.strip("-") or re.search(r"[a-z0-9][A-Z]", w) and not w.strip("◌")[:1].isupper()}
    table = {w: n for w, n in table.items() if w != n}
    definitions = {n for w, n in table.items() if "-" not in w}
    for w in sorted(table):
        if "-" in w and table[w] not in OVERRIDES.values() and (table[w] in definitions or table[w] in ours):
            table[w] += "_lem"
    for n in sorted(definitions & set(ours)):
        if not any("/specs/" in p for p in ours[n]):
            table[n] = n + "_lem"
    for w, n in list(table.items()):
        table.setdefault("◌%s◌" % w, "◌%s◌" % n)
        if w.startswith("◌") and w.endswith("◌"):
            table.setdefault(w.strip("◌"), n.strip("◌"))
    back = collections.defaultdict(set)
    for w, n in table.items():
        back[n].add(w)
    meets = []
    for p, t in files.items():
        words = set(WORD.findall(bare(t)))
        held = set(re.findall(r"\b(?:let|let mut|mut|for|const|struct|mod) (\w+)\b|(?<=[(,|]) *(?:mut )?(\w+): ", t)) if p.endswith(".rt") else None
        held = held and {x for h in held for x in h if x}
        for w in words & set(table):
            n = table[w]
            others = (back[n] | ({n} if n not in table else set())) - {w}
            for o in others & words:
                if w not in lent[p] and (held is None and not p.endswith("/Proof.antt") or held is not None and o in held):
                    meets.append((p, w, o, n))
    for m in sorted(meets):
        print("meets: %s: %s and %s as %s" % m)
    if meets and "--force" not in sys.argv:
        raise SystemExit(1)
    changed = 0
    for p, t in files.items():

        def one(m):
            w = m[0]
            return w if w in lent[p] else table.get(w, w)

        if p.endswith(".rt"):
            n = clauses(t, one)
        else:
            n = outside(t, one)
        if n != t:
            changed += 1
            with open(p, "w", encoding="utf-8") as f:
                f.write(n)
    print("turned %d names in %d files" % (len(table), changed))


def outside(t, one):
    """The text with each word outside strings turned; in a comment only words that a backtick holds."""
    out = []
    at = 0
    for m in re.finditer(r'"(?:[^"\\\n]|\\.)*"|(?<![^\s(){}.;,@"«»])--[^\n]*', t):
        out.append(WORD.sub(one, t[at : m.start()]))
        out.append(m[0] if m[0][0] == '"' else spans(m[0], one))
        at = m.end()
    out.append(WORD.sub(one, t[at:]))
    return "".join(out)


def spans(t, one):
    return re.sub(r"`([^`\n]+)`", lambda m: "`" + WORD.sub(one, m[1]) + "`", t)


CLAUSE = re.compile(r"(?:\b(?:requires|ensures)\s*\*?\s*\w*\s*|\bghost\s*\w*\s*:?\s*)\{|ghost use [^;]*;")


def clauses(t, one):
    """A .rt file with the words of its clauses and ghost imports turned."""
    out, at = [], 0
    plain = bare(t)
    while True:
        m = CLAUSE.search(plain, at)
        if not m:
            out.append(t[at:])
            return "".join(out)
        if m[0].endswith(";"):
            end = m.end()
        else:
            deep, end = 1, m.end()
            while deep:
                deep += (plain[end] == "{") - (plain[end] == "}")
                end += 1
        out.append(t[at : m.start()])
        out.append(outside(t[m.start() : end], one))
        at = end


main()
