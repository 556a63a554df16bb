#!/usr/bin/env python3
"""Spells this repository's own antt names as today's Rattle does: snake case, a dash only between two names.

usage: port_names.py        at the top of the repository, once, right after the port's scripts

A definition 'withMany' becomes 'with_many', a lemma 'none-in-word' 'none_in_word'. A dash stays where what stands before it and
what stands after it are each a name of a definition, as in 'take-drop'. Types, modules and names of src/ keep their spelling. A name
turns in a file that declares it or imports it from a crate of this repository; a field also behind a dot. Names that would fall
together with another one are printed and get '_lem': of a definition and a lemma, the lemma.
"""

import collections
import pathlib
import re

WORD = r"[^\s(){}.;,@\"«»:`]+"
LIBRARY = set(
    "length take drop map set get_or append reverse replicate filter sum get_elem elem fold slice_set slice_index bit_or bit_and bit_xor max min mod div".split()
)


def files(*ends):
    for p in sorted(pathlib.Path("crates").rglob("*")):
        if p.suffix in ends and "out" not in p.parts:
            yield p


def walked(p):
    return p.name == "Proof.antt"


SIGNED = re.compile(rf"^([ \t]*)(?:(?:abbrev|unfoldable|pub)[ \t]+)*({WORD})(?:[ \t]+{WORD})*[ \t]*:(?=\s|$)", re.M)


def declared(text, top=False):
    """The names that a file declares by a signature: definitions, lemmas, fields and constructors; or those outside any block."""
    code = re.sub(r"--.*", "", text)
    names = set()
    for m in SIGNED.finditer(code):
        if not (top and m.group(1)):
            names.add(m.group(2))
    for m in re.finditer(r"^\s*(?:pub\s+)?(?:record|data)\s+(\S+)", code, re.M):
        names.add(m.group(1))
    return names - {"pub", "record", "data", "where", "module", "use", "let", "in", "abbrev", "unfoldable"}


def imports(text, own):
    """The names that a file imports, from the crates of this repository and from others."""
    mine, other = set(), set()
    for m in re.finditer(r"use\s+([\w.'+-]+)\.\{([^}]*)\}", text):
        names = {n.strip().split(" as ")[0].strip() for n in m.group(2).split(",")}
        crate = m.group(1).split(".")[1] if m.group(1).startswith("Rattle.") else ""
        (mine if crate in own else other).update(names)
    return mine, other


def snake(n):
    return re.sub(r"(?<=[a-z0-9])([A-Z])", lambda m: "_" + m.group(1).lower(), n)


def spelled(n, definitions):
    parts = [snake(p) for p in n.split("-")]
    new = parts[0]
    for i, p in enumerate(parts[1:], 1):
        left, right = "_".join(parts[:i]), "_".join(parts[i:])
        joins = left in definitions and right in definitions
        new += ("-" if joins else "_") + p
    return new


def main():
    own = {p.name for p in pathlib.Path("crates").iterdir() if p.is_dir()}
    texts = {p: p.read_text() for p in files(".antt", ".rt")}
    declares = {p: declared(t) for p, t in texts.items() if p.suffix == ".antt"}
    definitions = set(LIBRARY)
    outside = set()
    for p in declares:
        names = declared(texts[p], top=True)
        outside |= names
        if "specs" in p.parts:
            definitions |= {snake(n) for n in names if "-" not in n}
    table = {}
    for p, names in declares.items():
        if walked(p):
            continue
        for n in names:
            if ("-" in n or re.search(r"[a-z0-9][A-Z]", n)) and re.match(r"[a-z]", n):
                new = spelled(n, definitions if n in outside else ())
                if new != n:
                    table[n] = new
    rust = set()
    for p, t in texts.items():
        if p.suffix == ".rt":
            rust |= set(re.findall(r"\b(?:const|static|struct|enum|type|trait|mod) (\w+)", t))
    words = {p: set(re.findall(WORD, re.sub(r"--.*" if p.suffix == ".antt" else r"//.*", "", t))) for p, t in texts.items()}
    taken = collections.Counter(table.values())
    clash = {}
    for old, new in sorted(table.items()):
        why = None
        if taken[new] > 1 and "-" in old:
            why = "two names"
        elif any(new in names for p, names in declares.items() if not walked(p)):
            why = "declared already"
        else:
            hit = [p for p, ws in words.items() if old in ws and new in ws and not walked(p)]
            if hit:
                why = "stands in " + ", ".join(str(p) for p in hit[:3])
        if why:
            clash[old] = why
    for old, why in sorted(clash.items(), key=lambda c: "-" in c[0]):
        new = table[old]
        table[old] += "_lem"
        if list(table.values()).count(table[old]) > 1:
            table[old] = new + "_law"
        print(f"clash: {old} -> {table[old]}: {why}")
    fields = set()
    for p, t in texts.items():
        if p.suffix == ".antt" and not walked(p):
            for m in re.finditer(r"^(\s*)(?:pub\s+)?record\b.*?where\n((?:\1\s+.*\n|\s*\n)*)", t, re.M):
                fields |= set(re.findall(rf"^\s+(?:pub\s+)?({WORD})\s+:", m.group(2), re.M))
    turned = collections.Counter()
    for p, t in texts.items():
        mine, other = imports(t, own)
        here = {n for n in table if n in declares.get(p, set()) or n in mine}
        here -= other
        opened = "open " in t or re.search(r"use Rattle\.[\w.'+-]+ as ", t)
        qualified = set(table) if opened else set()

        def turn(m):
            n = m.group(0)
            new = table.get(n)
            if new is None:
                return n
            behind = t[m.start() - 1 : m.start()] == "."
            if walked(p):
                if behind and n not in fields:
                    return n
                if not behind and n not in mine and n not in fields:
                    return n
            elif n not in here and n not in fields and n not in qualified:
                if p.suffix != ".rt" or not re.search("[A-Z]", n):
                    return n
            if n in other and not behind:
                return n
            turned[n] += 1
            return new

        done = re.sub(WORD, turn, t)
        if done != t:
            p.write_text(done)
    # pages, scripts and edits say the names too
    rest = [p for p in list(pathlib.Path("docs").rglob("*.md")) + [pathlib.Path("README.md")]]
    for p in rest:
        t = p.read_text()

        def span(m):
            return "`" + re.sub(WORD, lambda w: table.get(w.group(0), w.group(0)), m.group(1)) + "`"

        done = re.sub(r"`([^`\n]+)`", span, t)
        if done != t:
            p.write_text(done)
    for p in files(".edit"):
        t = p.read_text()
        done = re.sub(WORD, lambda w: table.get(w.group(0), w.group(0)), t)
        if done != t:
            p.write_text(done)
    print(f"{len(table)} names, {sum(turned.values())} places, {len(clash)} clashes")
    never = [n for n in table if not turned[n]]
    print("never met:", *never[:20])


if __name__ == "__main__":
    main()
