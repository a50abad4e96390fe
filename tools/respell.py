#!/usr/bin/env python3
"""Brings the repository's own names in specs/ and proofs/ to the spelling of today's Rattle.

usage: python3 tools/respell.py        at the top of the repository, once, after the kit's port.py

Definitions, fields and local names are in snake case; types and facts in upper camel case; in a lemma's name a dash is kept only
where each part is the name of a function, as in length-six, and another word is added with '_'. Names that Rattle makes (of goals, steps
and loops), names of the library and names of src/ stay. It prints what it renames and stops where two names would fall together.
"""

import os
import re
import sys

TOKEN = re.compile(r"[^\s(){}\[\];,.⌜⌝\"]+")
DECLARED = re.compile(r"^\s*(?:pub\s+)?(?:(?:abbrev|unfoldable)\s+)?(?:pub\s+)?(?:(?:record|data)\s+)?([^\s(){}\[\];,.:]+)(?:\s+[({].*?)?\s+:\s(.*)$")
BINDER = re.compile(r"[({]([^():{}]+?)\s:\s|λ\s*([^.()]+?)\.|\blet\s+(\S+)\s*[=:]")
MADE = re.compile(r"^(loop|if|in|else|then|returns|overflow|nonzero|bounds|slice|offset_bounds|invariant|decreases|the|type|from|turns|climb)-")
# functions, as they stand in a lemma's name
FUNCTIONS = "length map take drop set get_or replicate append filter sum product number digits mask group six radix radices cleared edges counts dims".split()


def files():
    for folder, dirs, names in os.walk("crates"):
        dirs[:] = sorted(d for d in dirs if d != "out")
        for f in sorted(names):
            if f.endswith((".antt", ".rt", ".edit")):
                yield os.path.join(folder, f)


def camel(name):
    return "".join(w[:1].upper() + w[1:] for w in name.split("-"))


def snake(name):
    return name.replace("-", "_")


def lemma(name):
    """Dashes where each word is a function's name, else '_'."""
    return name if all(w in FUNCTIONS for w in name.split("-")) else snake(name)


def main():
    texts = {p: open(p, encoding="utf-8").read() for p in files()}
    specs, others, local, made = set(), set(), set(), set()
    for p, t in texts.items():
        if not p.endswith(".antt"):
            continue
        answers = os.path.basename(p) in ("Answers.antt", "Invariants.antt", "Choices.antt")
        for line in t.split("\n"):
            m = DECLARED.match(line)
            if m and answers and re.match(r"\s*(goal|need|choice)\b", m.group(2)):
                made.add(m.group(1))
            elif m:
                (specs if "/specs/" in p else others).add(m.group(1))
            for m in BINDER.finditer(line):
                local |= set((m.group(1) or m.group(2) or m.group(3)).split())
    own = {w for w in specs | others | local if "-" in w and re.match(r"[^\W\d]", w) and w not in made and not MADE.match(w)}
    new = {}
    for w in sorted(own):
        if w[0].isupper() and "_" not in w and not w.startswith("All-"):
            new[w] = camel(w)
        elif w in specs or w not in others:
            new[w] = snake(w)
        else:
            new[w] = lemma(w)
    there = {w for t in texts.values() for w in TOKEN.findall(t)}
    # a name that the kit's script respelled where it is declared, and not where it is used; a call of a function of src/ by its old name
    functions = {f for p, t in texts.items() if p.endswith(".rt") for f in re.findall(r"\bfn (\w+)", t)}
    for w in there - set(new) - made:
        if "-" in w and not MADE.match(w) and (snake(w) in specs | others or snake(w) in functions):
            new[w] = snake(w)
    fall = [(w, to) for w, to in new.items() if to != w and to in there or list(new.values()).count(to) > 1]
    if "--check" in sys.argv:
        for w, to in fall:
            print("falls together:", w, to)
        for w, to in sorted(new.items()):
            print(w, to)
        return 0
    for p, t in texts.items():
        got = TOKEN.sub(lambda m: new.get(m.group(0), m.group(0)), t)
        if got != t:
            open(p, "w", encoding="utf-8").write(got)
    print(f"{sum(w != to for w, to in new.items())} names respelled")
    return 0


if __name__ == "__main__":
    raise SystemExit(main())
