#!/usr/bin/env python3
"""Brings the repository's own definitions, lemmas, fields and constructors to snake case: `weightOf` becomes `weight_of`.

usage: python3 tools/respell.py [FOLDER]      FOLDER has crates/; run once, right after the kit's script

A name is one of ours if an .antt file of crates/ writes it and a part of it, between dashes and underscores, begins small
and has a capital further on. Names of types, facts, modules and variants begin with a capital and stay. It says which names
would fall together, and then writes nothing. Strings of .rt files are left alone.
"""
import collections
import os
import re
import sys

WORD = re.compile(r"[A-Za-z_][A-Za-z0-9_'\-]*")
PART = re.compile(r"([-_])")
HUMP = re.compile(r"^[a-z][a-z0-9]*[A-Z]")
# Lemmas that would have the name of a definition then, by crate.
LEMMAS = {
    "script": {"all_digits": "all_digits-none_left"},
    "promises": {"got_of": "got_of-within", "goes_on": "goes_on-parts"},
    "sched": {"owner_of": "waiter-owner"},
    "memory": {"same_answer": "same_answer-equal"},
}
STRING = re.compile(r'b?"(?:[^"\\]|\\.)*"')


def files(top, ends):
    for folder, dirs, names in os.walk(os.path.join(top, "crates")):
        dirs[:] = sorted(d for d in dirs if d != "out")
        for name in sorted(names):
            if name.endswith(ends):
                yield os.path.join(folder, name)


def snake(word):
    # the list's element with a default has another name in today's library
    word = re.sub(r"^getD(?=-)", "get_or", word)
    parts = PART.split(word)
    return "".join(re.sub(r"(?<=[a-z0-9])([A-Z])", lambda m: "_" + m[1].lower(), p) if HUMP.match(p) else p for p in parts)


def words(text):
    return WORD.findall(text)


def main():
    top = sys.argv[1] if len(sys.argv) > 1 else "."
    texts = {p: open(p, encoding="utf-8").read() for p in files(top, (".antt", ".rt"))}
    for p, t in texts.items():
        lemmas = LEMMAS.get(os.path.relpath(p, os.path.join(top, "crates")).split(os.sep)[0], {})
        if p.endswith(".antt"):
            texts[p] = WORD.sub(lambda m: lemmas.get(m[0], m[0]), t)
    before = {p: open(p, encoding="utf-8").read() for p in texts}
    seen = collections.Counter()
    for p, t in texts.items():
        seen.update(words(t))
    ours = {}
    for p, t in texts.items():
        if p.endswith(".antt"):
            for w in words(re.sub(r"--[^\n]*", "", t)):
                if snake(w) != w:
                    ours[w] = snake(w)
    clash = [(a, b) for a, b in sorted(ours.items()) if b in seen]
    for a, b in clash:
        where = sorted({p for p, t in texts.items() if b in words(t)})
        print(f"falls together: {a} and {b}, which stands in {', '.join(where[:4])}")
    back = collections.Counter(ours.values())
    double = [b for b, n in back.items() if n > 1]
    print(f"{len(ours)} names; {len(clash)} that stand already; {len(double)} made twice: {double}")
    if double:
        return 1

    def turn(text):
        return WORD.sub(lambda m: ours.get(m[0], m[0]), text)

    for p, t in texts.items():
        if p.endswith(".antt"):
            new = turn(t)
        else:
            new, at = "", 0
            for m in STRING.finditer(t):
                new += turn(t[at : m.start()]) + m[0]
                at = m.end()
            new += turn(t[at:])
        if new != before[p]:
            with open(p, "w", encoding="utf-8") as f:
                f.write(new)
    return 0


if __name__ == "__main__":
    sys.exit(main())
