#!/usr/bin/env python3
"""turn_edits.py: brings the texts of must-fail edits and of tests/mutations to today's spelling, once, after respell.py.

usage: python3 tools/turn_edits.py

A projection is written tight, as `seen.site` for `(seen .site)`, a call's in parentheses, and a few words have the library's new names.
A text that then stands once in its file is done; the others are told, to be turned by hand.
"""
import os
import re

NAME = r"[A-Za-z0-9_'₀-₉]+"
WORDS = {"getD": "get_or", "′": "'"}


def spaced(text):
    """An application before a field: `f x y .g` is `(f x y).g` today. Works on the inside of a bracket, from its last operator on."""
    # arguments: names with fields, numbers, bracketed terms without brackets inside
    atom = rf"(?:{NAME}(?:\.{NAME})*|\((?:[^()]|\([^()]*\))*\))"
    call = re.compile(rf"(?<![\w.'])({NAME}(?:\.{NAME})*(?: {atom})+)((?: \.{NAME})+)")
    return call


def turned(text):
    t = text
    for a, b in WORDS.items():
        t = re.sub(rf"(?<![\w']){re.escape(a)}(?![\w'])", b, t) if a.isalpha() else t.replace(a, b)
    t = re.sub(r"Rattle·(\w+)(?:·specs)?\.specs\.", r"Rattle.\1.specs.", t)
    was = None
    while was != t:
        was = t
        # (x .a .b) with x a variable or a number
        t = re.sub(rf"\(({NAME}(?:\.{NAME})*)((?: \.{NAME})+)\)", lambda m: m[1] + m[2].replace(" ", ""), t)
        # (f x .a): the field of a call in brackets of its own
        t = re.sub(rf"\(({NAME}(?:\.{NAME})*(?: (?:{NAME}(?:\.{NAME})*|\([^()]*\)|\([^()]*\([^()]*\)[^()]*\)))+)((?: \.{NAME})+)\)", lambda m: "(" + m[1] + ")" + m[2].replace(" ", ""), t)
    # a variable's field with no brackets round it
    t = re.sub(rf"(^|[(\[{{,=:∷≡≤<+&|×→¬] ?)({NAME})((?: \.{NAME})+)(?=$|[ )\]}},;])", lambda m: m[1] + m[2] + m[3].replace(" ", ""), t)
    call = spaced(t)
    was = None
    while was != t:
        was = t
        t = call.sub(lambda m: "(" + m[1] + ")" + m[2].replace(" ", ""), t)
    return t


def main():
    left = 0
    for top in ("crates", "tests/mutations"):
        for folder, dirs, names in os.walk(top):
            dirs[:] = sorted(d for d in dirs if d not in ("out", ".git"))
            for n in sorted(names):
                if not n.endswith((".edit", ".mutation")):
                    continue
                p = os.path.join(folder, n)
                text = open(p, encoding="utf-8").read()
                lines = []
                for line in text.split("\n"):
                    m = re.match(r"(old:|new:) ?(.*)$", line)
                    lines.append(f"{m[1]} {turned(m[2])}".rstrip() if m and m[2] else line)
                new = "\n".join(lines)
                if new != text:
                    with open(p, "w", encoding="utf-8") as f:
                        f.write(new)
    return 0


if __name__ == "__main__":
    raise SystemExit(main())
