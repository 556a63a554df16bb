#!/usr/bin/env python3
"""Spells the fields of this repository's records in snake case wherever they are named.

usage: port_fields.py       at the top of the repository, once, after port_names.py, which turned their declarations

Behind a dot, and as a label of a record that is made: 'record { holds-each-once = .. }'.
"""

import pathlib
import re

WORD = r"[^\s(){}.;,@\"«»:`]+"


def main():
    files = [p for p in sorted(pathlib.Path("crates").rglob("*.antt")) if "out" not in p.parts and p.name not in ("Answers.antt", "Invariants.antt")]
    texts = {p: p.read_text() for p in files}
    fields = set()
    for t in texts.values():
        for m in re.finditer(r"^([ \t]*)(?:pub )?(?:record|data)\b[^\n]*?where\n((?:\1[ \t]+[^\n]*\n|[ \t]*\n)*)", t, re.M):
            fields |= set(re.findall(rf"^[ \t]+(?:pub )?({WORD}) :", m.group(2), re.M))
    table = {f.replace("_", "-"): f for f in fields if "_" in f}
    turned = 0
    for p, t in texts.items():
        other = set()
        for m in re.finditer(r"use ([\w.'+-]+)\.\{([^}]*)\}", t):
            other |= {n.strip() for n in m.group(2).split(",")}

        def one(m):
            nonlocal turned
            n = m.group(0)
            if n in table and (t[m.start() - 1 : m.start()] == "." or n not in other):
                turned += 1
                return table[n]
            return n

        done = re.sub(WORD, one, t)
        if done != t:
            p.write_text(done)
    print(f"{len(table)} fields, {turned} places")


if __name__ == "__main__":
    main()
