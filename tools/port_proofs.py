#!/usr/bin/env python3
"""Turns the proof files of a crate, answered goal by goal in an older Rattle, into today's.

usage: port_proofs.py [--walk] [--only F] NAMES.json CRATE..        at the top of the repository

NAMES.json is what `rt check --generated DIR --old-names` wrote into DIR for the crate. A Proof.antt that closes by `tie.close` becomes
Answers.antt and Invariants.antt, where an answer that only searched the rules goes, since the check tries that alone. One with lemmas
over the records of steps, and each under --walk, stays a Proof.antt with today's names. Steps are cited from the goal's own record.
"""

import json
import pathlib
import re
import sys

WORD = r"[^\s(){}.;,@\"«»\[\]|]+"
WORDS = dict(taken="true", left="false", inv="invariant", entry="initial", kept="auto", last="new", came="branch", typed="type_inv", pre="requires", fits="ranges", good="well_formed")
GOALS = [("overflow-", ""), ("nonzero-", ""), ("slice-bounds-", "part-"), ("offset-bounds-", "offset-"), ("bounds-", "index-"), ("shape-of-", "keeps-")]


def norm(n):
    n = n.replace("_", "-")
    for a, b in GOALS:
        if n.startswith(a):
            return b + n[len(a) :]
    return n


def blocks(text):
    """The header comment, the use lines, and the declarations of a file, each with the comments above it."""
    head, uses, out, part = [], [], [], []
    lines = text.split("\n")
    i = 0
    while i < len(lines) and lines[i].startswith("--"):
        head.append(lines[i])
        i += 1
    while i < len(lines):
        line = lines[i]
        if line.startswith(("use ", "open ", "pub use ")) and not part:
            u = line
            while u.count("{") > u.count("}"):
                i += 1
                u += "\n" + lines[i]
            uses.append(u)
        elif line.strip() == "":
            if part and not all(l.startswith("--") for l in part):
                nxt = next((l for l in lines[i + 1 :] if l.strip()), "")
                if nxt.startswith(" "):
                    part.append(line)
                else:
                    out.append(part)
                    part = []
        else:
            part.append(line)
        i += 1
    if part:
        out.append(part)
    return head, uses, out


def sources():
    """For each function its clauses' names, in order: (requires, ensures)."""
    found = {"io::decimal": ([], ["in_bounds", "len", "digits"]), "io::read_full": ([], [None])}
    for p in pathlib.Path("crates").rglob("*.rt"):
        if "out" in p.parts:
            continue
        crate = p.parts[1]
        rel = p.relative_to(pathlib.Path("crates") / crate / "src")
        mod = [] if rel.name in ("lib.rt", "main.rt") else [*rel.parts[:-1], rel.stem]
        t = re.sub(r"(?m)^\s*//.*$", "", p.read_text())
        last = None
        for m in re.finditer(r"\bfn (\w+)|^\s*(requires|ensures)\*?(?: (\w+))? \{", t, re.M):
            if m.group(1):
                last = "::".join([crate, *mod, m.group(1)])
                found[last] = ([], [])
            elif last:
                found[last][0 if m.group(2) == "requires" else 1].append(m.group(3))
    return found


def split_top(s):
    parts, depth, cur = [], 0, ""
    for ch in s:
        depth += (ch in "([{") - (ch in ")]}")
        if ch == "," and depth == 0:
            parts.append(cur)
            cur = ""
        else:
            cur += ch
    return [*parts, cur]


def last_tuple(body):
    s = body.rstrip()
    if not s.endswith(")"):
        return None
    depth = 0
    for i in range(len(s) - 1, -1, -1):
        depth += (s[i] in ")]}") - (s[i] in "([{")
        if depth == 0:
            before = s[:i].rstrip()
            each = re.search(r"(?:^|[\s=])((?:rw|simp) (?:[\w.'-]+|\((?:[^()]|\([^()]*\))*\)))$", before)
            if each and (before[: each.start(1)].strip() == "" or re.search(r"(=|(^|[\s)])in)\s*$", before[: each.start(1)])):
                return i, len(s), each.start(1)
            if before == "" or before.endswith("=") or re.search(r"(^|[\s)])in$", before) or re.search(r"λ[^.]*\.$", before):
                return i, len(s), None
            return None
    return None


def as_record(body, names):
    at = last_tuple(body)
    if not at:
        return None
    parts = [p.strip() for p in split_top(body[at[0] + 1 : at[1] - 1]) if p.strip()]
    while len(parts) < len(names) and parts[-1].startswith("(") and last_tuple("=" + parts[-1]) == (1, len(parts[-1]) + 1, None):
        parts = [*parts[:-1], *[q.strip() for q in split_top(parts[-1][1:-1]) if q.strip()]]
    if len(parts) != len(names):
        return None
    if at[2] is not None:
        parts = [body[at[2] : at[0]].strip() + (f" ({p})" if " " in p else " " + p) for p in parts]
        return body[: at[2]] + "record { " + "; ".join(f"{n} = {p}" for n, p in zip(names, parts)) + " }"
    return body[: at[0]] + "record { " + "; ".join(f"{n} = {p}" for n, p in zip(names, parts)) + " }"


def named(path, names):
    """A clause by its name, where the clauses were nested pairs."""
    if len(names) < 2 or not path:
        return path
    n = 0
    while n < len(names) - 1 and n < len(path) and path[n] == "1":
        n += 1
    if n == len(names) - 1:
        return [names[n], *path[n:]]
    if n < len(path) and path[n] == "0":
        return [names[n], *path[n + 1 :]]
    return path


def atom(s, i):
    """Where the next argument ends, and where it begins."""
    while i < len(s) and s[i] in " \n":
        i += 1
    if i >= len(s):
        return None
    if s[i] in "({":
        depth, j = 0, i
        while j < len(s):
            depth += (s[j] in "({[") - (s[j] in ")}]")
            j += 1
            if depth == 0:
                break
        while j < len(s) and s[j] == ".":
            m = re.match(rf"\.{WORD}", s[j:])
            j += m.end()
        return i, j
    m = re.match(r"[^\s(){};,]+", s[i:])
    return (i, i + m.end()) if m else None


class Function:
    def __init__(self, crate, path, entry, clauses):
        self.crate, self.path, self.entry, self.clauses = crate, path, entry, clauses
        self.name = "::".join([crate, *path])
        self.needs, self.asked = {}, {}
        for (a, b), at in zip(entry["needs"], entry["asked_at"]):
            self.needs[norm(a)] = b
            self.asked[b] = at[0]
        self.settled = {norm(s) for s in entry["settled"]}
        self.parent, self.new, self.step, self.callee, self.arms = {}, {}, {}, {}, {}
        for row, new, arm in zip(entry["places"], entry["places_by_name"], entry["arms"]):
            old = row[0]
            self.parent[old], self.new[old] = row[1], new
            a, b = row[2]
            if a:
                clash = new.startswith(("In-", "In_")) and re.match(r"in[-_]", b)
                self.step[old] = (norm(a), "i" + new[1:] if clash else b)
                if row[3]:
                    self.callee[b] = row[3]
            self.arms[old] = arm
        self.byold = {norm(o): o for o in self.parent}
        self.loops = {norm(l[0][0]): l for l in entry["loops"]}
        self.changed = {norm(l[0][0]): c for l, c in zip(entry["loops"], entry["changed"])}
        self.notes, self.opens, self.nots, self.imported = [], False, False, set()
        self.helpers, self.values = {}, {}

    def up(self, place):
        while place:
            yield place
            place = self.parent[place]

    # ---- paths

    def fields(self, segs, place, raw):
        """A path's names, from the record of a place."""
        for old in ("well-formed", "type-inv", "ghost-name", "ref-ptr", "array-long"):
            segs = [old.replace("-", "_") if s == old else s for s in segs]
        first, rest = norm(segs[0]), list(segs[1:])
        steps = {s[0] for p, s in self.step.items()}
        if first not in steps:
            for k in (first.lower(), re.sub(r"-(lem|law)$", "", first), re.sub(r"-(lem|law)(\d*)$", r"\2", first)):
                if k in steps:
                    first = k
        if segs[0] in ("args", "lifetimes"):
            return segs
        if segs[0] in WORDS and segs[0] in ("pre", "fits", "good", "typed"):
            segs = [WORDS[segs[0]], *rest]
        if segs[0] == "requires":
            own = self.clauses.get(self.name, ([], []))[0]
            return ["requires", *named(rest, own)]
        seen = set()
        for p in self.up(place):
            arm = self.arms.get(p)
            if arm and arm[0] not in seen:
                seen.add(arm[0])
                fits = [(len(path), new, path) for new, old, path in arm[2] if first == norm(old) and rest[: len(path)] == path]
                if fits:
                    _, new, path = max(fits)
                    return [arm[0], new, *rest[len(path) :]]
            s = self.step.get(p)
            if s and s[0] == first:
                loop = self.loops.get(first)
                if rest and rest[0] in WORDS and not (loop and rest[0] in loop[1]):
                    rest[0] = WORDS[rest[0]]
                callee = self.callee.get(s[1])
                if callee and rest[:1] == ["new"] and len(rest) > 1 and rest[1] in "01":
                    k, n = 1, 0
                    while k < len(rest) and rest[k] == "1":
                        k, n = k + 1, n + 1
                    names = self.entry["params"].get(callee, [])
                    if k < len(rest) and rest[k] == "0" and n < len(names):
                        rest = ["new", names[n], *rest[k + 1 :]]
                if callee and rest[:1] == ["ensures"]:
                    rest = ["ensures", *named(rest[1:], self.clauses.get(callee, ([], []))[1])]
                return [s[1], *rest]
        return [segs[0], *rest]

    def chain(self, place, to):
        n = 0
        for p in self.up(place):
            if p == to:
                return ".before" * n
            n += 1
        return None

    def resolve(self, body, param, place, raw, goal):
        """Each path of a body, cited from its own record."""
        alias = {param}
        values = [v for v in self.values]
        value = "|".join(map(re.escape, values)) or "(?!x)x"
        while True:
            names = "|".join(map(re.escape, sorted({*alias, *values}, key=len, reverse=True)))
            m = re.search(rf"\blet ({WORD}) = (?:\((?:{value}) )?(?:(?:{value})|(?:{value}) (?:{names})(?:\.before)*|(?:{names})(?:\.before)*)\)?(?:\.before)* in\s+", body)
            if not m:
                break
            alias.add(m.group(1))
            body = body[: m.start()] + body[m.end() :]
        names = "|".join(map(re.escape, sorted({*alias, *values}, key=len, reverse=True)))
        if values:
            while True:
                body, k = re.subn(rf"(?<![\w.'-])({value}) \((?:{value}) ({names})(?:\.before)*\)", r"\1 \2", body)
                if not k:
                    break
        root = rf"\((?:{value}) (?:{names})(?:\.before)*\)|(?:{value}) (?:{names})(?:\.before)*(?![\w.-])|(?:{names}|{value})(?![\w-])"

        def one(m):
            segs = [s for s in m.group(2).split(".") if s]
            while segs and segs[0] == "before":
                segs.pop(0)
            if segs:
                path = self.fields(segs, place, raw)
                if re.fullmatch(r"keys\d*", path[-1]) and path[-2].endswith("-own") and path[0].startswith("in_default"):
                    self.opens = True
                    return f"(keys_of {param}.{'.'.join(path)})"
                if len(path) >= 2 and path[-2].startswith("if-not-") and path[-1] in ("true", "false"):
                    self.nots = True
                    return f"(ap not {param}.{'.'.join(path)})"
                whole = param + "." + ".".join(path)
                names = []
                if path[-1] == "ensures" and len(path) > 1:
                    names = self.clauses.get(self.callee.get(path[-2]), ([], []))[1]
                elif path == ["requires"]:
                    names = self.clauses.get(self.name, ([], []))[0]
                if len(names) > 1 and not re.search(rf"\blet {WORD} = $", body[: m.start()]):
                    pair = f"{whole}.{names[-1]}"
                    for n in reversed(names[:-1]):
                        pair = f"({whole}.{n}, {pair})"
                    return pair
                return whole
            text = body[: m.start()].rstrip()
            line = body[: m.start()].rsplit("\n", 1)[-1]
            if m.group(0) == param and re.match(rf"\s*{WORD}(?:\s+{WORD}|\s+\{{[^}}]*\}})*\s*$", line) and re.match(rf"(?:\s+{WORD})*\s+=", body[m.end() :]):
                return param
            h = re.search(rf"({WORD})$", text)
            to = self.helpers.get(h.group(1)) if h else None
            if to is None:
                v = re.match(rf"\(?({value})\b", m.group(0)) if values else None
                if v and not m.group(0).startswith(param + "."):
                    to = self.values[v.group(1)]
            if to is None:
                if m.group(0) != param:
                    self.notes.append(f"bare {m.group(0)} in {goal}")
                return param
            if raw:
                ch = self.chain(place, to)
                if ch is None:
                    self.notes.append(f"{self.new[to]} is not above {self.new[place]} in {goal}")
                    return param
                return param + ch
            if self.shown(to) == self.shown(place):
                return param
            self.imported.add(self.shown(to))
            return f"(goal.at.{goal} {param}).{self.shown(to)}"

        body = re.sub(rf"(?<![\w.'-])({root})((?:\.{WORD})*)", one, body)
        # a step under a name
        for m in list(re.finditer(rf"\blet ({WORD}) = {re.escape(param)}\.({WORD}) in", body)):
            names = self.clauses.get(self.callee.get(m.group(2)), ([], []))[1]
            if len(names) > 1:
                body = re.sub(rf"(?<![\w.'-]){re.escape(m.group(1))}\.ensures((?:\.\w+)+)", lambda k: m.group(1) + ".ensures." + ".".join(named(k.group(1)[1:].split("."), names)), body)
        # clauses under a name
        for m in list(re.finditer(rf"\blet ({WORD}) = {re.escape(param)}\.(?:({WORD})\.ensures|requires) in", body)):
            if m.group(2):
                step = m.group(2).split(".")[-1]
                names = self.clauses.get(self.callee.get(step), ([], []))[1]
            else:
                names = self.clauses.get(self.name, ([], []))[0]
            if len(names) > 1:
                body = re.sub(rf"(?<![\w.'-]){re.escape(m.group(1))}((?:\.\w+)+)", lambda k: m.group(1) + "." + ".".join(named(k.group(1)[1:].split("."), names)), body)
        return body

    def types(self, t, module):
        invs = r"(?:[ \t]+(?:invariant|decreases)-loop[\w-]*)*" if module == "goal" else ""

        def one(m):
            n = m.group(1)
            if n.startswith("Need-"):
                new = self.needs.get(norm(n[5:]))
                return f"{module}.{'' if module == 'goal' else 'Need-'}{new}" if new else m.group(0)
            for pre in ("invariant-", "decreases-"):
                if n.startswith(pre) and norm(n[len(pre) :]) in self.loops:
                    return f"{module}." + pre + self.loops[norm(n[len(pre) :])][0][1]
            old = self.byold.get(norm(n))
            if old and module == "goal":
                self.imported.add(self.shown(old))
                return self.shown(old)
            return f"{module}.{self.new[old]}" if old else m.group(0)

        return re.sub(rf"tie\.({WORD}){invs}", one, t)

    def shown(self, place):
        """The record of a place that answers can name: an arm has one for all its places."""
        arm = self.arms.get(place)
        return arm[0][0].upper() + arm[0][1:] if arm else self.new[place]

    # ---- declarations

    def place_of(self, text):
        m = re.search(rf"\(({WORD}) : tie\.({WORD})", text)
        if m and norm(m.group(2)) in self.byold:
            return m.group(1), self.byold[norm(m.group(2))]
        return None

    def survey(self, parts):
        """Which lemmas take a step's record, and which are one."""
        for part in parts:
            code = "\n".join(l for l in part if not l.startswith("--"))
            mod = re.match(rf"module _ [^\n]*\(({WORD}) : tie\.({WORD})[^)]*\) where", code)
            if mod and norm(mod.group(2)) in self.byold:
                place = self.byold[norm(mod.group(2))]
                for m in re.finditer(rf"(?m)^  (?:abbrev )?(?:pub )?({WORD}) :(.*)$", code):
                    self.helpers[m.group(1)] = place
                    v = re.match(rf"\s*tie\.({WORD})(?:\s+(?:invariant|decreases)\S*)*\s*$", m.group(2))
                    if v and norm(v.group(1)) in self.byold:
                        self.values[m.group(1)] = self.byold[norm(v.group(1))]
                continue
            m = re.match(rf"(?:abbrev )?(?:pub )?({WORD}) :", code)
            if m and "tie.Need-" not in code.split("=")[0] and not re.match(r"(abbrev )?(pub )?(invariant|decreases)-", code):
                pl = self.place_of(code) or (re.search(rf":\s*tie\.({WORD})", code) and self.byold.get(norm(re.search(rf":\s*tie\.({WORD})", code).group(1))))
                if isinstance(pl, tuple):
                    self.helpers[m.group(1)] = pl[1]
                    v = re.search(rf"→\s*tie\.({WORD})(?:\s+(?:invariant|decreases)\S*)*\s*\n(?:unfolding.*\n)?{re.escape(m.group(1))}\b", code)
                    if v and norm(v.group(1)) in self.byold:
                        self.values[m.group(1)] = self.byold[norm(v.group(1))]
                elif pl:
                    self.helpers[m.group(1)] = pl
                    v = re.search(rf"→\s*tie\.({WORD})(?:\s+(?:invariant|decreases)\S*)*\s*\n(?:unfolding.*\n)?{re.escape(m.group(1))}\b", code)
                    if v and norm(v.group(1)) in self.byold:
                        self.values[m.group(1)] = self.byold[norm(v.group(1))]

    def without_values(self, code):
        """A declaration without the names for steps' records, which are cited from the goal's own."""
        if code.startswith("module"):
            head, _, body = code.partition("where\n")
            decls = re.split(r"\n\n(?=  \S)", body.rstrip("\n"))
            kept = [d for d in decls if not (re.match(rf"  (?:abbrev )?(?:pub )?({WORD}) :", d) and re.match(rf"  (?:abbrev )?(?:pub )?({WORD}) :", d).group(1) in self.values)]
            return head + "where\n" + "\n\n".join(kept) if kept else ""
        m = re.match(rf"(?:abbrev )?(?:pub )?({WORD}) :", code)
        return "" if m and m.group(1) in self.values else code

    def keep_bodies(self, parts):
        """The bodies of lemmas over a step's record, to be written out in lemmas over another step's."""
        self.bodies, self.kinds = {}, {}
        for part in parts:
            code = "\n".join(l for l in part if not l.startswith("--"))
            mod = re.match(rf"module _ [^\n]*\(({WORD}) : tie\.({WORD})[^)]*\) where\n", code)
            if mod:
                inner = re.sub(r"(?m)^  ", "", code[mod.end() :])
                names = re.findall(rf"(?m)^(?:abbrev )?(?:pub )?({WORD}) :", inner)
                for n in names:
                    d = re.findall(rf"(?m)^{re.escape(n)}((?: {WORD})*) =((?:.*\n?)(?:(?:[ ]+.*)?\n?(?=[ ]|\n|$))*)", inner)
                    if len(d) == 1 and n not in self.values:
                        body = re.split(r"\n(?=\S)", d[0][1])[0].strip()
                        ty = re.search(rf"(?m)^(?:abbrev )?(?:pub )?{re.escape(n)} :((?:.*\n)(?:[ ]+.*\n)*?)(?:unfolding.*\n)?(?={re.escape(n)}[ \n])", inner)
                        self.kinds[n] = ty.group(1).strip() if ty else None
                        self.bodies[n] = (mod.group(1), d[0][0].split(), body, [x for x in names if x != n and x not in self.values])
                continue
            g = re.match(rf"(?:pub )?({WORD}) :\s*tie\.Need-({WORD})[^\n]*\n(?:unfolding[^\n]*\n)?\1((?:\s+\S+)*?)\s+=(.*)$", code, re.S)
            if g and norm(g.group(2)) in self.needs:
                args = [a for a in g.group(3).split() if a != "κs"]
                self.bodies[g.group(1)] = (args[0], args[1:], g.group(4).strip(), [])
                self.helpers[g.group(1)] = None
                continue
            m = re.match(rf"(?:abbrev )?(?:pub )?({WORD}) :", code)
            if m and m.group(1) in self.helpers and m.group(1) not in self.values:
                d = re.findall(rf"(?m)^{re.escape(m.group(1))}((?: {WORD})+) =(.*)", code, re.S)
                if len(d) == 1 and len(re.findall(rf"(?m)^{re.escape(m.group(1))} ", code)) <= 2:
                    args = d[0][0].split()
                    ty = re.match(rf"(?:abbrev )?(?:pub )?{WORD} :\s*\({WORD} : tie\.{WORD}[^)]*\)\s*→?(.*?)\n(?:unfolding.*\n)?{re.escape(m.group(1))} ", code, re.S)
                    self.kinds[m.group(1)] = ty.group(1).strip() if ty else None
                    self.bodies[m.group(1)] = (args[0], args[1:], d[0][1].strip(), [])

    def write_out(self, body, place, only_goals=False):
        """Writes out each call of a lemma over another step's record."""
        for _ in range(30):
            done = False
            for h, (param, more, text, siblings) in self.bodies.items():
                if only_goals and self.helpers[h] is not None:
                    continue
                if self.helpers[h] is not None and self.shown(self.helpers[h]) == self.shown(place):
                    continue
                m = re.search(rf"(?<![\w.'-]){re.escape(h)}(?=[ \n])(?! *[:=])", body)
                if not m:
                    continue
                i = m.end()
                args = []
                kind = self.kinds.get(h)
                typed = kind and not kind.startswith("{")
                while len(args) < (1 if typed else 1 + len(more)):
                    a = atom(body, i)
                    if not a:
                        break
                    if body[a[0]] != "{":
                        args.append(body[a[0] : a[1]])
                    i = a[1]
                if len(args) < (1 if typed else 1 + len(more)):
                    continue
                out = text
                if typed:
                    name = h.replace("-", "_") + "_here"
                    out = f"let {name} : {kind} = {'λ ' + ' '.join(more) + '. ' if more else ''}{text} in {name}"
                for s in siblings:
                    out = re.sub(rf"(?<![\w.'-]){re.escape(s)}(?![\w-])", f"({s} {args[0]})", out)
                for x, y in zip(more, args[1:]):
                    out = re.sub(rf"(?<![\w.'-]){re.escape(x)}(?![\w-])", lambda _: y, out)
                out = re.sub(rf"(?<![\w.'-]){re.escape(param)}(?![\w'-])", lambda _: args[0], out)
                inner = re.fullmatch(r"omega \(arith, (.*)\)", out, re.S)
                before = body[: m.start()]
                opened = re.search(r"omega \(arith, (?:[^()]|\([^()]*\))*$", before)
                if opened and inner and re.search(r", $", before):
                    body = before + inner.group(1) + body[i:]
                elif opened and out == "omega arith" and re.search(r", $", before):
                    body = before[:-2] + body[i:]
                else:
                    body = before + "(" + out + ")" + body[i:]
                done = True
                break
            if not done:
                return body
        return body

    def helper(self, code, raw):
        mod = re.match(rf"module _ [^\n]*\(({WORD}) : tie\.({WORD})", code)
        module = "tie" if raw else "goal"
        if mod and norm(mod.group(2)) in self.byold:
            head, _, body = code.partition("where\n")
            body = self.write_out(body, self.byold[norm(mod.group(2))])
            return self.types(head, module) + "where\n" + self.types(self.resolve(body, mod.group(1), self.byold[norm(mod.group(2))], raw, "?"), module)
        pl = self.place_of(code)
        if pl:
            a, b = re.match(rf"(.*?\({re.escape(pl[0])} : tie\.{WORD}[^)]*\))(.*)$", code, re.S).group(1, 2)
            name = re.match(rf"(?:abbrev )?(?:pub )?({WORD}) :", code).group(1)
            cut = re.search(rf"(?m)^{re.escape(name)}[^=\n]*=", b)
            if cut:
                b = self.write_out(b[: cut.start()], pl[1]) + b[cut.start() : cut.end()] + self.write_out(b[cut.end() :], pl[1])
            return self.types(a, module) + self.types(self.resolve(b, pl[0], pl[1], raw, "?"), module)
        m = re.match(rf"(?:abbrev )?(?:pub )?({WORD}) :\s*tie\.({WORD})", code)
        if m and norm(m.group(2)) in self.byold:
            d = re.search(rf"(?m)^{re.escape(m.group(1))} ({WORD})", code)
            if d:
                return self.types(self.resolve(code, d.group(1), self.byold[norm(m.group(2))], raw, "?"), module)
        return self.types(code, module)

    def answer(self, joined, raw):
        m = re.match(rf"(?:pub )?({WORD}) :\s*tie\.Need-({WORD})((?:[ \t]+(?:invariant|decreases)-loop[\w-]*)*)\s*\n((?:unfolding.*\n)?)\1((?:\s+\S+)*?)\s+=(.*)$", joined, re.S)
        if not m:
            return None
        old, need, invs, unf, args, body = m.groups()
        new = self.needs.get(norm(need))
        args = args.split()
        if new is None:
            if norm(need) not in self.settled and body.strip() != "search rules":
                self.notes.append("no goal for " + need + ": " + body.strip()[:60])
            return old, None, None
        place = self.asked[new]
        if not raw:
            body = self.write_out(body, place, only_goals=True)
        body = self.types(self.resolve(body, args[0], place, raw, new), "tie" if raw else "goal")
        names = None
        if new.startswith("returns"):
            names = self.clauses.get(self.name, ([], []))[1]
        elif "-requires" in new:
            step = re.sub(r"-requires.*", "", new)
            callee = next((c for s, c in self.callee.items() if s == step or s.startswith(step + "-") or s.split("-")[0] == step), None)
            names = self.clauses.get(callee, ([], []))[0] if callee else None
        if names and len(names) > 1:
            done = as_record(body, names)
            if done is None:
                self.notes.append(f"{new}: clauses {names} by hand")
            else:
                body = done
        if not raw:
            args = [a for a in args if a != "κs"]
            return old, new, f"pub {new} : goal.{new}\n{unf}{new}{''.join(' ' + a for a in args)} ={body}"
        return old, new, f"{old} : tie.Need-{new}{invs}\n{unf}{old}{''.join(' ' + a for a in args)} ={body}"

    def invariant(self, text, raw):
        m = re.match(rf"abbrev (?:pub )?((?:invariant|decreases)-{WORD}) :.*?\n((?:unfolding.*\n)?)\1((?:\s+{WORD})*)\s+=(.*)$", text, re.S)
        entry = m and self.loops.get(norm(m.group(1).split("-", 1)[1]))
        if not entry:
            self.notes.append("an invariant of another form: " + text[:80])
            return None
        loop = norm(m.group(1).split("-", 1)[1])
        pairs = list(zip(entry[1], self.changed[loop]))
        to = [f"l.initial.{n}" if ch else f"l.{n}" for n, ch in pairs] + [f"l.{n}" for n, ch in pairs if ch]
        args = [a for a in m.group(3).split() if a in entry[1] or not re.fullmatch(r"t\d+", a)]
        if len(args) > len(to):
            self.notes.append(f"{m.group(1)} takes {len(args)} and not {len(to)}")
            return None
        table = dict(zip(args, to))
        body = re.sub(rf"(?<![.\w]){WORD}", lambda w: table.get(w.group(0), w.group(0)), m.group(4))
        new = m.group(1).split("-", 1)[0] + "-" + entry[0][1]
        return f"abbrev pub {new} : goal.{new}\n{m.group(2)}{new} l ={body}"

    def convert(self, folder, raw):
        text = (folder / "Proof.antt").read_text()
        head, uses, parts = blocks(text)
        self.survey(parts)
        self.keep_bodies(parts)
        invariants, answers, helpers, spec, answered, gone = [], [], [], None, {}, set()
        for part in parts:
            notes = "".join(l + "\n" for l in part if l.startswith("--"))
            code = "\n".join(l for l in part if not l.startswith("--"))
            if not code:
                continue
            if "tie.close" in code:
                spec = code
            elif re.match(r"abbrev (pub )?(invariant|decreases)-", code) and "tie." in code:
                inv = self.invariant(code, raw)
                if inv is None:
                    return False
                invariants.append(notes + inv)
            elif re.match(rf"(?:pub )?{WORD} :\s*tie\.Need-", code):
                a = self.answer(code, raw)
                if a is None:
                    self.notes.append("an answer of another form: " + code[:80])
                    return False
                old, new, done = a
                if new is None:
                    gone.add(old)
                    continue
                if new in answered:
                    continue
                answered[new] = old
                if raw or not re.search(r"=\s*search rules\s*$", done) or "unfolding" in done:
                    answers.append(notes + done)
            else:
                code = self.without_values(code)
                if not code.strip():
                    continue
                done = notes + self.helper(code, raw)
                helpers.append(done)
                answers.append(done)
        base = f"Rattle.{self.crate}.proofs." + ".".join(self.path)
        inv_text, ans_text = "\n\n".join(invariants), "\n\n".join(answers)
        moved = []
        for h in helpers:
            m = re.search(rf"(?m)^(?:abbrev )?(?:pub )?({WORD}) :", h)
            if m and re.search(rf"(?<![\w-]){re.escape(m.group(1))}(?![\w-])", inv_text) and "goal." not in h and "tie." not in h:
                moved.append((m.group(1), h))
        for n, h in moved:
            ans_text = re.sub(r"\n{3,}", "\n\n", ans_text.replace(h, "")).strip("\n")
            h = re.sub(rf"(?m)^(abbrev )?(?!pub ){re.escape(n)} :", lambda m: (m.group(1) or "") + f"pub {n} :", h)
            inv_text = h + "\n\n" + inv_text
        keep = [u for u in uses if ".Statement." not in u and not re.search(r"\.Tie as tie", u)]
        if self.nots:
            for name, where in (("ap", "mathlib.Core.Path"), ("not", "mathlib.Core.Bool")):
                if not any(re.search(rf"[{{ ]{name}[,}}]", u) for u in keep):
                    keep.insert(0, f"use {where}.{{{name}}}")
        if self.opens:
            keep.insert(0, "use borrow.Enum.Refused.{opened as keys_of}")
        if moved and ans_text:
            keep.append(f"use {base}.Invariants.{{{', '.join(n for n, _ in moved)}}}")
        if inv_text:
            h = [f"-- What holds at each turn of `{self.name}`.", "-- Assumes nothing."] if answers else head
            where = "Invariants.antt"
            if raw:
                (folder / "turns").mkdir(exist_ok=True)
            (folder / where).write_text("\n".join([*h, *only(uses, inv_text), f"use {base}.Given as goal", "", inv_text, ""]))
        if not raw:
            (folder / "Proof.antt").unlink()
            if ans_text.strip():
                places = [f"use {base}.Goals.{{{', '.join(sorted(self.imported))}}}"] if self.imported else []
                (folder / "Answers.antt").write_text("\n".join([*head, *only(keep, ans_text), f"use {base}.Goals as goal", *places, "", ans_text, ""]))
        else:
            order = [answered.get(b) for _, b in self.entry["needs"]]
            if None in order:
                self.notes.append("goals with no answer: " + str([b for (_, b) in self.entry["needs"] if b not in answered]))
                for i, (_, b) in enumerate(self.entry["needs"]):
                    if b not in answered:
                        own = "auto_" + b.replace("-", "_")
                        order[i] = own
                        ans_text += f"\n\n{own} : tie.Need-{b}\n{own} c = search rules"
            name = self.path[-1]
            spec = f"pub {name}_spec : {{M : Type 1}} → statement M\n{name}_spec = tie.close (tie.spec {' '.join(order)})"
            keep = [u for u in uses]
            if not any("Rules.{rules}" in u for u in keep) and "search rules" in ans_text:
                keep.insert(0, "use borrow.Author.Rules.{rules}")
            (folder / "Proof.antt").write_text("\n".join([*head, *keep, "", ans_text.strip("\n"), "", spec, ""]))
        if folder.exists() and not any(folder.iterdir()):
            folder.rmdir()
        return True


def only(uses, text):
    """The use lines with the names that a text has."""
    words = set(re.findall(WORD, text)) | set(re.findall(r"[^\s(){};,\"]+", text))
    out = []
    for u in uses:
        if ".Statement." in u or re.search(r"\.Tie as tie", u):
            continue
        m = re.match(r"((?:pub )?use [\w.'+-]+\.)\{([^}]*)\}(.*)$", u, re.S)
        if not m:
            out.append(u)
            continue
        names = []
        for n in [x.strip() for x in m.group(2).split(",")]:
            shown = n.split(" as ")[-1].strip()
            ops = [o for o in shown.split("◌") if o]
            if shown in words or ("◌" in shown and all(o in words or o in text for o in ops)):
                names.append(n)
        if names:
            out.append(f"{m.group(1)}{{{', '.join(names)}}}{m.group(3)}")
    return out


def main(argv):
    walk = "--walk" in argv
    argv = [a for a in argv if a != "--walk"]
    only_f = None
    if "--only" in argv:
        i = argv.index("--only")
        only_f = argv[i + 1]
        del argv[i : i + 2]
    names = json.load(open(argv[0]))
    clauses = sources()
    for crate in argv[1:]:
        top = pathlib.Path("crates") / crate / "proofs"
        for p in sorted(top.rglob("Proof.antt")):
            path = p.parent.relative_to(top).parts
            if only_f and path[-1] != only_f:
                continue
            entry = names.get(f"Rattle-{crate}-proofs." + ".".join(path) + ".Lts")
            text = p.read_text()
            if "tie.close" not in text or entry is None:
                print(f"by hand: {p}" + ("" if entry else " (no names)"))
                continue
            f = Function(crate, path, entry, clauses)
            raw = walk
            ok = f.convert(p.parent, raw)
            for n in f.notes:
                print(f"look: {p}: {n}")
            if not ok:
                print(f"by hand: {p}")


if __name__ == "__main__":
    main(sys.argv[1:])
