#!/usr/bin/env python3
"""Lists the places in src/ that docs/DESIGN-PASS.md counts: design_counts.py POINT [COMMIT] (the tree as it stands, without one)."""
import collections
import re
import subprocess
import sys

FUNCTION = re.compile(r"^(?:    )?(?:pub(?:\(crate\))? )?fn (\w+)", re.M)
RECORDED = re.compile(r"\b(\w+): ")


def sources(commit):
    if commit:
        names = subprocess.run(["git", "ls-tree", "-r", "--name-only", commit, "crates"], text=True, capture_output=True, check=True).stdout.split()
        read = lambda name: subprocess.run(["git", "show", f"{commit}:{name}"], text=True, capture_output=True, check=True).stdout
    else:
        names = subprocess.run(["git", "ls-files", "crates"], text=True, capture_output=True, check=True).stdout.split()
        read = lambda name: open(name, encoding="utf-8").read()
    return {name: read(name) for name in sorted(names) if "/src/" in name and name.endswith(".rt")}


def functions(text):
    """Each function: its line, name, head (parameters, result) and body."""
    starts = [m.start() for m in FUNCTION.finditer(text)]
    for begin, end in zip(starts, starts[1:] + [len(text)]):
        whole = text[begin:end]
        name = FUNCTION.match(whole).group(1)
        line = text.count("\n", 0, begin) + 1
        head = re.split(r"\n\s*(?:requires|ensures)\b|\n?\s*\{\n", whole, maxsplit=1)[0]
        margin = "    " if whole.startswith(" ") else ""
        opened = re.search(rf"\n{margin}\{{\n", whole) or re.search(r"\) (?:-> [^{\n]+ )?\{\n", whole)
        body = whole[opened.end():] if opened else ""
        closed = re.search(rf"^{margin}\}}$", body, re.M)
        yield line, name, head, body[:closed.start()] if closed else body, whole


def crate(name):
    return name.split("/")[1]


def enums(files):
    """Enums, with their variants: the reader says which are shaped like Option or Result."""
    for name, text in files.items():
        for m in re.finditer(r"(?:pub(?:\(crate\))? )?enum (\w+)[^{]*\{(.*?)\n\}", text, re.S):
            body = re.sub(r"\{.*?\}|\(.*?\)", lambda p: "(..)", m.group(2), flags=re.S)
            variants = re.findall(r"^\s*(\w+(?:\(\.\.\))?)", re.sub(r" (?=\(\.\.\))", "", re.sub(r"//.*", "", body)), re.M)
            yield f"{name}:{text.count(chr(10), 0, m.start()) + 1}: {m.group(1)}: {', '.join(variants)}"


def codes(files):
    """Refusals' numbers written out, answers tested by their number, constants and numbers that stand for 'none'."""
    for name, text in files.items():
        for k, row in enumerate(text.split("\n"), 1):
            code = row.split("//")[0]
            if re.search(r"\bnumber: [1-9]\d*\b|\b(?:refuse|refusal|answer_of|answered|stops|numbers|Refused)\((?:[1-9]\d*)\b|\.number [!=]= 0|(?:!=|==|<) (?:bits::)?(?:NONE|NO_[A-Z]+|ROUND|BREAKS|CAME_ROUND)\b|^\s*return [4567]|^\s*return 14;", code):
                yield f"{name}:{k}: {row.strip()}"


def loops(files):
    """Loops whose test is on a counter that the body moves by a fixed step."""
    for name, text in files.items():
        for line, function, _, body, _ in functions(text):
            for m in re.finditer(r"^( *)while (.+?) \{\n(.*?)\n\1\}", body, re.M | re.S):
                moved = re.findall(r"^\s*(\w+) [+-]= ", m.group(3), re.M)
                counted = [v for v in moved if re.search(rf"\b{v}\b", m.group(2))]
                if counted:
                    yield f"{name}:{line}: {function}: while {m.group(2)}"


def converted(files):
    """Conversions, copies, comparisons and printing of a value that a function of its own spells out."""
    for name, text in files.items():
        for line, function, head, body, _ in functions(text):
            code = [row.strip() for row in body.split("\n") if row.strip() and not row.strip().startswith("//")]
            if len(code) == 1 and re.fullmatch(r"[\w.]+ as \w+|(?:\(*\w+ as \w+\)*[ *+()0-9]*)+", code[0]):
                yield f"{name}:{line}: {function}: {code[0]}"
            if re.search(r"\bimpl (?:PartialEq|Eq|PartialOrd|Ord|Clone|Copy|Default|fmt::Display)\b", head):
                yield f"{name}:{line}: {function}: impl"
        for m in re.finditer(r"^\s*(?:const|static) (\w*FILENO)\b", text, re.M):
            yield f"{name}:{text.count(chr(10), 0, m.start()) + 1}: {m.group(1)}"


def together(files):
    """Sets of four parameters or more, by name and type, that three functions or more take side by side."""
    seen = collections.defaultdict(list)
    for name, text in files.items():
        if crate(name) in ("marrowkite", "marrowkite_c"):
            continue
        for line, function, head, _, _ in functions(text):
            flat = " ".join(head.split())
            parameters = re.findall(r"(\w+): ((?:&(?:mut )?)?(?:\[[^\]]*\](?:; \d+\])?|\w+)(?:; \d+\])?)", flat)
            names = [f"{n}: {re.sub('mut ', '', t)}" for n, t in parameters if n != "self"]
            for width in range(4, 8):
                for k in range(len(names) - width + 1):
                    seen[tuple(names[k:k + width])].append(f"{crate(name)}::{function}")
    kept = {g: f for g, f in seen.items() if len(f) >= 3}
    for group in sorted(kept, key=lambda g: (-len(g), -len(kept[g]))):
        if any(set(group) < set(o) and set(kept[group]) <= set(kept[o]) for o in kept):
            continue
        yield f"{len(kept[group])} functions: ({', '.join(group)}): {' '.join(sorted(kept[group]))}"


def repeated_facts(files):
    """Facts that say one thing of a parameter in the contracts of three functions or more."""
    seen = collections.defaultdict(set)
    for name, text in files.items():
        for _, function, head, _, whole in functions(text):
            contract = whole[len(head):]
            for fact in re.findall(r"length (\w+)\.(?:old|new|now) ≡ (\d+)", contract):
                seen[f"length of {fact[1]}"].add(f"{crate(name)}::{function}")
    for fact, users in sorted(seen.items()):
        if len(users) >= 3:
            yield f"{len(users)} functions: {fact}: {' '.join(sorted(users))}"


def twins(files):
    """Functions whose text is the same but for names that they define themselves, types and numbers."""
    seen = collections.defaultdict(list)
    for name, text in files.items():
        for _, function, head, body, _ in functions(text):
            if body.count("\n") < 2:
                continue
            bare = re.sub(r"//.*", "", head.split("(", 1)[-1] + body)
            order = {}
            words = re.findall(r"\w+|[^\w\s]", bare)
            shape = " ".join(order.setdefault(w, f"w{len(order)}") if re.fullmatch(r"\w+", w) and w not in ("let", "mut", "if", "else", "while", "for", "in", "return", "match", "loop", "as") else w for w in words)
            seen[shape].append(f"{crate(name)}::{function}")
    for shape, users in seen.items():
        if len(users) > 1:
            yield " ~ ".join(users)


def beside(files):
    """Buffers that are lent with how much of them is filled, or with the place to go on from."""
    for name, text in files.items():
        for line, function, head, _, _ in functions(text):
            flat = " ".join(head.split())
            if re.search(r"&mut \[", flat) and re.search(r"\b(?:at|begin|n|len|next|from|k): usize\b", flat):
                yield f"{name}:{line}: {function}"


def switches(files):
    """Switches on which step to run: a match whose arms call a function each."""
    for name, text in files.items():
        for line, function, _, body, _ in functions(text):
            for m in re.finditer(r"match [^{]+\{\n(.*?)\n    \}", body, re.S):
                arms = re.findall(r"=> \{?\s*(?:return )?\w+(?:::\w+)*\(", m.group(1))
                numbers = re.findall(r"^\s*\d+ =>", m.group(1), re.M)
                if len(arms) >= 3 and numbers:
                    yield f"{name}:{line}: {function}: {len(arms)} arms"


POINTS = {
    "enums": enums, "codes": codes, "twins": twins, "loops": loops, "converted": converted,
    "facts": repeated_facts, "together": together, "beside": beside, "switches": switches,
}


def main():
    point, commit = (sys.argv + [None, None])[1:3]
    if point not in POINTS:
        sys.exit(f"usage: {sys.argv[0]} {'|'.join(POINTS)} [COMMIT]")
    places = list(POINTS[point](sources(commit)))
    print("\n".join(places))
    print(f"{len(places)} places")


main()
