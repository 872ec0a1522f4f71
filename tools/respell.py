#!/usr/bin/env python3
"""Respells the repository's own definitions and lemmas as today's Rattle does: functions, lemmas and fields in snake case, records and facts in camel
case.

usage: python3 tools/respell.py        at the top of the repository, once, after the kit's port.py

A name is the repository's own if a file of specs/ or proofs/ declares it, as a definition, a lemma, a record, a field, or the name that an import or a
`let` gives; the answers to goals, which Rattle names, are left. Only names with a dash change. It stops if two names
of specs/ or proofs/ would fall together; a function of src/ may have a definition's name, since a clause names no function.
"""

import glob
import re

NAME = r"[^\s(){}\[\].,;:«»|⌜⌝]+"
TOKEN = re.compile(NAME)


def declared(text):
    """The names that a file declares, but for answers to goals."""
    found = set()
    for m in re.finditer(r"^\s*(?:pub |abbrev |unfoldable |let )*(" + NAME + r") (?:\([^)]*\) )*:(?=\s)(.*)$", text, re.M):
        if not m.group(2).strip().startswith("goal."):
            found.add(m.group(1))
    for m in re.finditer(r"^\s*pub (?:record|data) (" + NAME + r")", text, re.M):
        found.add(m.group(1))
    for m in re.finditer(r"\blet (" + NAME + r") [:=]", text):
        found.add(m.group(1))
    for m in re.finditer(r"\bas (" + NAME + r")", text):
        found.add(m.group(1))
    for m in re.finditer(r"\(((?:" + NAME + r" )+):", text):
        found.update(m.group(1).split())
    return found


def respelled(name):
    """Upper camel case for a name that begins with a capital, or else snake case."""
    if name[0].isupper():
        return "".join(w[:1].upper() + w[1:] for w in name.split("-"))
    return name.replace("-", "_")


def main():
    files = sorted(glob.glob("crates/*/specs/**/*.antt", recursive=True) + glob.glob("crates/*/proofs/**/*.antt", recursive=True))
    sources = sorted(glob.glob("crates/*/src/**/*.rt", recursive=True))
    texts = {f: open(f, encoding="utf-8").read() for f in files + sources}
    goals = set()
    own = set()
    for f in files:
        own |= declared(texts[f])
        goals |= set(re.findall(r"^\s*(?:abbrev )?pub (" + NAME + r") : goal\.", texts[f], re.M))
    turned = {n: respelled(n) for n in own - goals if "-" in n.strip("-") and re.search(r"[A-Za-z]-[A-Za-z]", n)}
    together = {}
    for f in files:
        there = set(TOKEN.findall(re.sub(r"--.*", "", texts[f])))
        for old in there & turned.keys():
            if turned[old] in there:
                together.setdefault((old, turned[old]), []).append(f)
    for (old, new), where in sorted(together.items()):
        print(f"{old} would fall together with {new}: {' '.join(where)}")
    if together:
        return 1
    for f, text in texts.items():
        new = TOKEN.sub(lambda m: turned.get(m.group(0), m.group(0)), text)
        if f.endswith(".rt"):
            new = "\n".join(a if not b.strip() or a.strip().startswith("//") else b for a, b in zip(text.split("\n"), new.split("\n")))
        if new != text:
            with open(f, "w", encoding="utf-8") as it:
                it.write(new)
    for old in sorted(turned):
        print(f"{old} -> {turned[old]}")
    return 0


if __name__ == "__main__":
    raise SystemExit(main())
