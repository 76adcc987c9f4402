#!/usr/bin/env python3
"""respell.py: brings this repository's own definitions and lemmas to Rattle's spelling, once, after port.py: words in snake case, types and modules in camel case.

usage: python3 tools/respell.py [--dry]      at the top of the repository

A definition, a lemma, a constructor, a field or a local name in camel case or with dashes gets underscores, in every .rt and .antt file.
Names that Rattle makes of the source (goals, labels of calls, the-.. modules) keep theirs, and so do functions of src/.
The same names in must-fail edits, in tests/ and, between backquotes, in README.md and docs/ follow. --dry only says what would fall together.
"""
import os
import re
import sys

WORD = r"[A-Za-z0-9_'₀₁₂₃₄∷<%◌-]"
TOKEN = re.compile(WORD + "+")
CAMEL = re.compile(r"[a-z][a-z0-9]*(?:[A-Z][a-z0-9]*)+'*$")
DASH = re.compile(r"[a-z][A-Za-z0-9]*(?:-[A-Za-z0-9]+)+'*$")
HEAD = re.compile(r"\s*((?:abbrev |unfoldable |pub |data |record )*)([^\s:(){}λ,.;]+) :(?: |$)")
# Words of antt that no definition may have, and what stands for ours.
RESERVED = {"first_of": "first_refusal"}
# What is written otherwise than by the rule.
GIVEN = {"Then-known": "ThenKnown", "in-range": "ranged", "◌refusedBy◌": "◌refused_by◌", "_refusedBy_": "◌refused_by◌", "_gives_": "◌gives◌"}


def snake(n):
    n = re.sub(r"([a-z0-9])([A-Z])", r"\1_\2", n)
    return n.replace("-", "_").lower()


def files(top, ends):
    for folder, dirs, names in os.walk(top):
        dirs[:] = sorted(d for d in dirs if d not in ("out", ".git", "target"))
        for n in sorted(names):
            if n.endswith(ends):
                yield os.path.join(folder, n)


def read(p):
    with open(p, encoding="utf-8") as f:
        return f.read()


def write(p, t):
    with open(p, "w", encoding="utf-8") as f:
        f.write(t)


def of_code(p):
    """Whether a file is the proof of a function: what it defines has names that Rattle gave."""
    return os.sep + "proofs" + os.sep in p and os.path.basename(p) in ("Proof.antt", "Answers.antt", "Invariants.antt")


def own_names():
    names, all_names = {}, set()
    for p in files("crates", ".antt"):
        for line in read(p).splitlines():
            m = HEAD.match(line)
            if not m or line.lstrip().startswith("--"):
                continue
            n = m[2]
            all_names.add(n)
            if of_code(p) and not n.endswith("-spec") and not CAMEL.match(n):
                continue
            if n in GIVEN:
                names[n] = GIVEN[n]
            elif CAMEL.match(n) or DASH.match(n):
                names[n] = snake(n)
            elif n in RESERVED:
                names[n] = RESERVED[n]
    # A lemma that would have a definition's name, or a field's, gets _lem.
    taken = {to for n, to in names.items() if "-" not in n} | (all_names - set(names))
    for n, to in names.items():
        if "-" in n and n not in GIVEN and to in taken:
            names[n] = to + "_lem"
    return names


def turned(text, names, of_function):
    def word(m):
        n = m[0]
        if n not in names:
            return n
        before = text[: m.start()]
        if of_function and before.endswith(".") and not CAMEL.match(n):
            # behind a module the name is ours; behind a value it is a label that Rattle made, in the proof of a function
            owner = re.search(r"([A-Za-z0-9_'-]+)\.$", before)
            if not owner or not owner[1][0].isupper():
                return n
        return names[n]

    return TOKEN.sub(word, text)


def main(argv):
    names = own_names()
    dry = "--dry" in argv
    if dry:
        back = {}
        for n, to in sorted(names.items()):
            back.setdefault(to, []).append(n)
        for to, ns in sorted(back.items()):
            if len(ns) > 1:
                print("fall together:", to, ns)
        for p in files("crates", (".antt", ".rt")):
            text = re.sub(r"--.*|//.*", "", read(p))
            tokens = set(TOKEN.findall(text))
            for n in sorted(tokens & set(names)):
                if names[n] in tokens and not (p.endswith(".rt")):
                    print("in one file:", p, n, names[n])
        camel = set()
        for p in files("crates", ".antt"):
            for t in TOKEN.findall(re.sub(r"--.*", "", read(p))):
                if CAMEL.match(t) and t not in names:
                    camel.add(t)
        print("camel, not ours:", sorted(camel))
        return 0
    for p in files("crates", (".antt", ".rt")):
        t = read(p)
        n = turned(t, names, of_code(p))
        if n != t:
            write(p, n)
    # What port.py turned already stands in the pages as it was: a name whose snake case is a definition of ours.
    ours = set(names.values())
    for p in files("crates", ".antt"):
        for line in read(p).splitlines():
            m = HEAD.match(line)
            if m and not of_code(p) and not line.lstrip().startswith("--"):
                ours.add(m[2])

    def said(text):
        def word(m):
            n = m[0]
            if n in names:
                return names[n]
            if n in GIVEN:
                return GIVEN[n]
            if (CAMEL.match(n) or DASH.match(n)) and (RESERVED.get(snake(n), snake(n)) in ours):
                return RESERVED.get(snake(n), snake(n))
            return n

        return TOKEN.sub(word, text)

    for p in list(files("crates", ".edit")) + list(files("tests/mutations", ".mutation")):
        t = read(p)
        n = said(t)
        if n != t:
            write(p, n)
    for p in ["README.md"] + list(files("docs", ".md")) + list(files("samples", ".md")):
        if p.endswith("changes/names.md"):
            continue
        t = read(p)
        n = re.sub(r"`[^`\n]+`", lambda m: said(m[0]), t)
        if n != t:
            write(p, n)
    return 0


if __name__ == "__main__":
    raise SystemExit(main(sys.argv[1:]))
