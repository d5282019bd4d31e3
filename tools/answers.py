#!/usr/bin/env python3
"""Turns the proofs by hand of an older Rattle (proofs/F/Proof.antt) into Invariants.antt and Answers.antt.

usage: tools/answers.py CRATE NAMES [F ..]     at the top of the repository

NAMES is the names.json that `rt check --generated DIR --old-names` writes for CRATE. What it could not turn is printed, and is to be mended by hand.
An answer that is only `search rules`, `search needs` or `omega arith` is left out: the check finds it.
"""

import json
import os
import re
import sys

ID = r"[^\s(){}.;,@\"«»\[\]\\]+"
SIMPLE = re.compile(r"^(search (rules|needs|\(rules\))|omega arith|refl|tt)$")
norm = lambda s: re.sub("-+", "-", s.replace("_", "-"))


def read(p):
    with open(p, encoding="utf-8") as f:
        return f.read()


def functions(crate):
    """From a path below the crate to (parameters as (name, is a reference), names of ensures, names of requires)."""
    found = {}
    top = f"crates/{crate}/src"
    for folder, _, names in os.walk(top):
        for n in names:
            if not n.endswith(".rt"):
                continue
            mod = os.path.relpath(os.path.join(folder, n), top)[:-3].replace("/", ".")
            mod = "" if mod in ("lib", "main") else mod + "."
            t = read(os.path.join(folder, n))
            for m in re.finditer(r"\bfn (\w+)(<[^>]*>)?\(", t):
                i, deep = m.end(), 1
                while deep:
                    deep += (t[i] in "([{") - (t[i] in ")]}")
                    i += 1
                inner = t[m.end() : i - 1]
                params = []
                for part in re.split(r",(?![^\[]*\])", inner):
                    part = part.strip()
                    if ":" in part:
                        name, ty = part.split(":", 1)
                        params.append((name.replace("mut ", "").strip(), ty.strip().startswith("&"), bool(re.match(r"&\s*('\w+\s+)?mut\b", ty.strip()))))
                # clauses up to the body
                rest = t[i:]
                ens, req = [], []
                j = 0
                while True:
                    c = re.compile(r"\s*(?:->\s*[^{]*?\s+)?(requires|ensures)\*?\s*(\w*)\s*\{").match(rest, j)
                    if not c:
                        break
                    (ens if c[1] == "ensures" else req).append(c[2])
                    k, deep = c.end(), 1
                    while deep:
                        deep += (rest[k] == "{") - (rest[k] == "}")
                        k += 1
                    j = k
                found[mod + m[1]] = (params, ens, req)
    return found


ALL = {}


def function(path):
    crate, rest = path.split("::", 1)
    if crate not in ALL and os.path.isdir(f"crates/{crate}/src"):
        ALL[crate] = functions(crate)
    return ALL.get(crate, {}).get(rest.replace("::", "."))


class Function:
    def __init__(self, crate, name, data, said):
        self.crate, self.name, self.d, self.said = crate, name, data, said
        self.places = {}
        for i, (old, up, step, callee, fields) in enumerate(data["places"]):
            self.places[old] = (up, step[0], step[1], callee, dict(map(tuple, fields)), i)
        self.by_norm = {norm(o): o for o in self.places}
        self.new_place = {o: data["places_by_name"][v[5]] for o, v in self.places.items()}
        self.needs = {}
        for i, (old, new) in enumerate(data["needs"]):
            self.needs[norm(old)] = (new, data["asked_at"][i][0] if i < len(data["asked_at"]) else None)
        self.loops = {}
        for (names, vars_), changed in zip(data["loops"], data["changed"]):
            self.loops[norm(names[0])] = (names[1], vars_, changed)
        self.wants = {}
        self.me = function(f"{crate}::{name.replace('.', '::')}")

    def place_at(self, old, ups):
        for _ in range(ups):
            if old is None or old not in self.places:
                return None
            old = self.places[old][0]
        return old

    def param(self, word):
        for n, *_ in self.me[0] if self.me else []:
            if norm(n) == norm(word):
                return n
        numbered = re.fullmatch(r"t(\d+)", word)  # an array by value had the number of its local
        if numbered and self.me and 0 < int(numbered[1]) <= len(self.me[0]):
            return self.me[0][int(numbered[1]) - 1][0]
        return None

    def index_of(self, rest):
        """A nested index 1.1.0 as a number and what is left, or None."""
        k = 0
        r = list(rest)
        while r and r[0] == "1":
            k += 1
            r.pop(0)
        if r and r[0] == "0":
            return k, r[1:]
        return None

    def loop_var(self, old_place, loop, var, rest):
        new, vars_, changed = self.loops[norm(loop)]
        for v, ch in zip(vars_, changed):
            if norm(v) == norm(var):
                if ch:
                    return ["c", new, v] + rest
                # an enclosing loop that changes it
                up = self.places[old_place][0]
                while up:
                    l2 = self.loops.get(norm(self.places[up][1]))
                    if l2 and up.startswith("At-"):
                        for v2, ch2 in zip(l2[1], l2[2]):
                            if norm(v2) == norm(var) and ch2:
                                return ["c", l2[0], v2] + rest
                    up = self.places[up][0]
                p = self.param(var)
                if p:
                    ref = {n: r for n, r, *_ in self.me[0]}[p]
                    return ["c", "args", p] + (["now"] if ref else []) + rest
                return None
        return None

    def path(self, place, words):
        """A path of words from a record of the place."""
        ups = 0
        while ups < len(words) and words[ups] == "before":
            ups += 1
        root, place = place
        at = self.place_at(place, ups) or self.chain(root)[-1]
        words = words[ups:]
        if not words:
            return ("place", (root, at))
        chain = self.chain(root)
        where = chain.index(at) if at in chain else 0
        for near in [at, *sorted(chain, key=lambda it: abs(chain.index(it) - where))]:
            got = self.step(near, words)
            if got:
                return got
        return None

    def chain(self, at):
        found = []
        while at in self.places:
            found.append(at)
            at = self.places[at][0]
        return found or ["Start"]

    def step(self, at, words):
        step, rest = words[0], list(words[1:])
        if step.endswith("_lem"):
            step = step[:-4]
        up, old, new, callee, fields, i = self.places[at]
        if step == "args":
            if rest:
                p = self.param(rest[0])
                if p:
                    rest[0] = p
            return ["c", "args"] + rest
        if step == "requires":
            names = self.me[2] if self.me else []
            if len(names) > 1 and rest and rest[0].isdigit() and int(rest[0]) < len(names):
                rest[0] = names[int(rest[0])]
            return ["c", "requires"] + rest
        if step == "well_formed":
            return ["c", "well_formed"] + rest
        if step == "ranges":
            return ["c", "ranges"] + rest
        # arms
        for j, arm in enumerate(self.d["arms"]):
            if not arm:
                continue
            for field, ostep, opath in arm[2]:
                if norm(ostep) == norm(step) and rest[: len(opath)] == list(opath) and opath:
                    return ["c", arm[0], field] + rest[len(opath) :]
        for j, arm in enumerate(self.d["arms"]):
            if arm and norm(old) == norm(step):
                for field, ostep, opath in arm[2]:
                    if norm(ostep) == norm(step) and not opath and not field.endswith("-own"):
                        return ["c", arm[0], field] + rest
        if norm(step) != norm(old):
            return None
        base = ["c", new]
        if at.startswith("At-") and norm(old) in self.loops:
            if not rest:
                return base
            if rest[0] in ("invariant", "initial", "auto"):
                return base + rest
            got = self.loop_var(at, old, rest[0], rest[1:])
            return got
        if rest:
            if rest[0] in fields:
                rest[0] = fields[rest[0]]
            if rest[0] == "new" and callee:
                got = self.index_of(rest[1:])
                ps = self.d["params"].get(callee)
                if got and ps and got[0] < len(ps):
                    return base + ["new", ps[got[0]]] + got[1]
            if rest[0] == "auto" and callee and len(rest) > 1 and rest[1].isdigit():
                f = function(callee)
                kept = [n for n, _, is_mut in f[0] if is_mut] if f else []
                got = self.index_of(rest[1:]) or (0, rest[1:])
                if got[0] < len(kept):
                    return base + ["auto", kept[got[0]]] + got[1]
            if rest[0] in ("ensures", "requires") and callee and len(rest) > 1 and rest[1].isdigit():
                f = function(callee)
                names = (f[1] if rest[0] == "ensures" else f[2]) if f else []
                if len(names) > 1 and int(rest[1]) < len(names):
                    rest[1] = names[int(rest[1])]
        return base + rest

    def clauses_of(self, goal):
        """The names of the clauses that the goal has in one, in their order."""
        if goal.startswith("returns"):
            return self.me[1] if self.me else []
        if "-requires" in goal:
            for up, old, new, callee, fields, i in self.places.values():
                if callee and goal.startswith(new + "-requires"):
                    f = function(callee)
                    return f[2] if f else []
        return []

    def record(self, goal, text):
        """A tuple for several clauses is a record of them."""
        names = self.clauses_of(goal)
        if len(names) < 2 or not text.rstrip().endswith(")"):
            return text
        t = text.rstrip()
        deep, k = 0, len(t)
        while k:
            k -= 1
            deep += (t[k] in ")]}") - (t[k] in "([{")
            if not deep:
                break
        before = t[:k].rstrip()
        if before and not before.endswith((" in", "=")) and before != "":
            return text
        inner, parts, deep, last = t[k + 1 : -1], [], 0, 0
        for j, ch in enumerate(inner):
            deep += (ch in "([{") - (ch in ")]}")
            if ch == "," and not deep:
                parts.append(inner[last:j].strip())
                last = j + 1
        parts.append(inner[last:].strip())
        parts = [x for x in parts if x]
        if len(parts) != len(names):
            return text
        return t[:k] + "record { " + "; ".join(f"{n} = {x}" for n, x in zip(names, parts)) + " }"

    # ---- terms
    def term(self, text, aliases, goal, base):
        """The text with its paths turned. aliases: from a name to a place with the words behind it, or to "args". base: what stands for the record at hand."""
        out, i = [], 0
        token = re.compile(r"(--[^\n]*)|(" + ID + r")((?:\." + ID + r")*)|(\s+)|(.)", re.S)
        before = ""
        while i < len(text):
            m = token.match(text, i)
            i = m.end()
            if m[1] or m[4] or m[5]:
                out.append(m[0])
                if m[5]:
                    before = m[0]
                continue
            head, rest = m[2], [w for w in m[3].split(".") if w]
            if head == "let":
                b = re.compile(r"\s+(" + ID + r")\s*=\s*(" + ID + r")((?:\." + ID + r")*)\s+in\s+").match(text, i)
                if b and b[2] in aliases and aliases[b[2]] != "args":
                    place, words = aliases[b[2]]
                    words = words + [w for w in b[3].split(".") if w]
                    got = self.path(place, words)
                    if isinstance(got, tuple):
                        aliases[b[1]] = (got[1], [])
                        i = b.end()
                        continue
                    if got == ["c", "args"]:
                        aliases[b[1]] = "args"
                        out.append(f"let {b[1]} = {base}.args in" + re.search(r"\s+$", b[0])[0])
                        i = b.end()
                        continue
                    if got and not rest:
                        aliases[b[1]] = (place, words)
                        i = b.end()
                        continue
                out.append(m[0])
                before = head
                continue
            if head in aliases and aliases[head] == "args":
                if rest:
                    rest[0] = self.param(rest[0]) or rest[0]
                out.append(".".join([head] + rest))
                before = head
                continue
            if head in aliases:
                place, words = aliases[head]
                got = self.path(place, words + rest)
                if got is None:
                    self.said.append(f"{self.crate}/{self.name}: {goal}: {m[0]}")
                    out.append(".".join([base] + [w for w in words + rest if w != "before"]))
                elif isinstance(got, tuple):
                    root, at = got[1]
                    wanted = self.wants.get(before)
                    at = wanted or at
                    if at == root:
                        out.append(base)
                    elif goal and goal != "-":
                        out.append(f"(goal.at.{goal} {base}).{self.new_place.get(at, at)}")
                    else:
                        chain = self.chain(root)
                        out.append(base + ".before" * (chain.index(at) if at in chain else 0))
                else:
                    out.append(".".join([base] + got[1:]))
                before = head
                continue
            out.append(m[0])
            before = head
        return "".join(out)


def invariant(f, text, kind):
    """`invariant-L a b c = body` as a function of l."""
    m = re.match(r"(\S+) ([^=]*?)=\s*(.*)$", text, re.S)
    name, args, body = m[1], m[2].split(), m[3].rstrip()
    loop = norm(name.split("-", 1)[1])
    new, vars_, changed = f.loops[loop]
    subst = {}
    k = 0
    for v, ch in zip(vars_, changed):
        subst[args[k]] = f"l.initial.{v}" if ch else f"l.{v}"
        k += 1
    for v, ch in zip(vars_, changed):
        if ch:
            subst[args[k]] = f"l.{v}"
            k += 1
    if k != len(args):
        f.said.append(f"{f.crate}/{f.name}: {name} has {len(args)} arguments, {k} expected")

    def one(mm):
        return subst[mm[2]] + mm[3] if mm[2] in subst else mm[0]

    body = re.sub(r"(--[^\n]*)|(?<![.\w'-])(" + ID + r")((?:\." + ID + r")*)", lambda mm: mm[0] if mm[1] else one(mm), body)
    return f"{kind}-{new}", body


def blocks(text):
    """The top-level declarations: the comment and signature and body together."""
    lines = text.split("\n")
    out, cur = [], []
    for line in lines:
        if line.strip() == "":
            if cur:
                cur.append(line)
            continue
        if not line.startswith((" ", ")", "]", "}")) and cur:
            # a new top-level line: continues the block if it is a clause of the same name, 'unfolding' or the definition after a signature
            first = next((l for l in cur if l and not l.startswith("--")), "")
            word = re.match(r"(?:pub |abbrev |unfoldable )*(\S+)", line)[1] if not line.startswith("--") else "--"
            name = re.match(r"(?:pub |abbrev |unfoldable )*(\S+)", first)[1] if first else None
            if first and (line.startswith("unfolding") or word == name):
                cur.append(line)
                continue
            if not first:
                cur.append(line)
                continue
            out.append(cur)
            cur = []
        cur.append(line)
    if cur:
        out.append(cur)
    return ["\n".join(b).rstrip("\n") for b in out]


def convert(crate, name, data, folder, said):
    f = Function(crate, name, data, said)
    text = read(os.path.join(folder, "Proof.antt"))
    mod = f"Rattle.{crate}.proofs.{name}"
    uses, inv, ans = [], [], []
    heading = []
    places = set()
    for b in blocks(text):
        body_lines = [l for l in b.split("\n")]
        code = [l for l in body_lines if l and not l.startswith("--")]
        if not code:
            heading.append(b)
            continue
        first = code[0]
        if first.startswith("use "):
            comment = [l for l in body_lines if l.startswith("--")]
            heading += comment
            for l in code:
                if l.startswith("use ") and not re.match(r"use \S+\.(Tie|Statement)\b", l):
                    uses.append(l)
                elif not l.startswith("use "):
                    uses.append(l)
            continue
        m = re.match(r"((?:pub |abbrev |unfoldable )*)(" + ID + r") ?:\s*(.*)$", first)
        declared = m[2] if m else None
        if declared and (re.match(r"(invariant|decreases)-", declared)) and "tie." in b:
            kind = declared.split("-")[0]
            comment = "".join(l + "\n" for l in body_lines if l.startswith("--"))
            unf = [l for l in code if l.startswith("unfolding")]
            defn = "\n".join(code)[len(first) :].lstrip("\n")
            for u in unf:
                defn = defn.replace(u + "\n", "")
            try:
                new, body = invariant(f, defn, kind)
            except Exception as e:
                said.append(f"{crate}/{name}: {declared}: {e!r}")
                continue
            sep = "\n    " if body.startswith("\n") else " "
            inv.append(f"{comment}abbrev pub {new} : goal.{new}\n" + "".join(u + "\n" for u in unf) + f"{new} l = {body.lstrip() if sep == ' ' else body.lstrip()}")
            continue
        sig = re.search(r":\s*tie\.Need-(" + ID + ")", b)
        if declared and declared.endswith("-spec") or declared == name.split(".")[-1] + "_spec" or "tie.close" in b:
            continue
        if sig:
            old = sig[1]
            for there, here in (("overflow-", ""), ("nonzero-", ""), ("slice-bounds-", "part-"), ("offset-bounds-", "mul-")):
                other = re.sub(f"^{there}", here, norm(old))
                if norm(old) not in f.needs and other in f.needs:
                    old = other
            if norm(old) not in f.needs:
                said.append(f"{crate}/{name}: no need {old}")
                new, at = old, None
            else:
                new, at = f.needs[norm(old)]
            # the definition: NAME args = body
            d = re.search(r"^" + re.escape(declared) + r"((?: (?!=)" + ID + r")*)\s*=\s*(.*)$", b, re.S | re.M)
            if not d:
                said.append(f"{crate}/{name}: {declared}: its definition was not read")
                continue
            args, body = d[1].split(), d[2].rstrip()
            comment = "".join(l + "\n" for l in body_lines if l.startswith("--"))
            if SIMPLE.match(body.strip()) and not comment and body.strip() != "refl":
                continue
            unf = "".join(l + "\n" for l in code if l.startswith("unfolding"))
            aliases = {args[0]: ((at, at), [])} if args else {}
            more = "".join(f" {a}" for a in args[1:] if a != "κs")
            turned = f.term(body, aliases, new, "c")
            turned = f.record(new, turned)
            indented = "\n" in body and body[0] != "\n" and d[0][: d.start(2) - d.start()].endswith("\n")
            lead = "\n    " if re.search(r"=\s*\n\s*$", b[d.start() : d.start(2)]) else " "
            turned = turned.lstrip()
            ans.append(f"{comment}pub {new} : goal.{new}\n{unf}{new} c{more} ={lead}{turned}")
            continue
        # a helper: its records are those of places
        aliases = {}
        for mm in re.finditer(r"\((" + ID + r"(?: " + ID + r")*) : tie\.(" + ID + r")[^()]*\)", b):
            pl = f.by_norm.get(norm(mm[2]))
            if pl:
                for v in mm[1].split():
                    aliases[v] = ((pl, pl), [])
                places.add(f.new_place[pl])
            else:
                said.append(f"{crate}/{name}: no place {mm[2]}")

        def typed(mm):
            pl = f.by_norm.get(norm(mm[2]))
            return f"({mm[1]} : {f.new_place.get(pl, mm[2])})"

        b2 = re.sub(r"\((" + ID + r"(?: " + ID + r")*) : tie\.(" + ID + r")[^()]*\)", typed, b)
        if "tie." in b2:
            said.append(f"{crate}/{name}: helper {declared} cites tie")
        if aliases:
            # aliases of arguments by another name in the definition's line
            if not declared:
                declared = re.match(r"(?:pub |abbrev |unfoldable )*(" + ID + ")", first)[1]
            dd = re.search(r"^" + re.escape(declared) + r"((?: (?!=)" + ID + r")*)\s*=", b2, re.M)
            head, tail = (b2[: dd.start()], b2[dd.start() :]) if dd else ("", b2)
            flat = " ".join(re.findall(r"\((" + ID + r"(?: " + ID + r")*) : ", head)).split()
            for a, v in zip(dd[1].split() if dd else [], flat):
                if v in aliases:
                    aliases[a] = aliases[v]
            first_alias = next((v for v in flat if v in aliases), next(iter(aliases)))
            f.wants[declared] = aliases[first_alias][0][1]
            own = next((x for x in (dd[1].split() if dd else []) if x in aliases), first_alias)
            head = f.term(head, dict(aliases), "-", first_alias)
            b2 = head + f.term(tail, dict(aliases), "-", own)
        ans.append(b2)
    return f, heading, uses, inv, ans, places


def needed(uses, body):
    """The use lines of which a name stands in the body."""
    words = set(re.findall(ID, body)) | {w for m in re.findall(ID + r"(?:\." + ID + r")*", body) for w in m.split(".")}
    kept = []
    for u in uses:
        m = re.match(r"use (\S+?)\.\{([^}]*)\}$", u)
        if not m:
            kept.append(u)
            continue
        names = []
        for n in (x.strip() for x in m[2].split(",")):
            last = n.split(" as ")[-1].strip()
            parts = [p for p in last.split("◌") if p]
            if last in words or last in ("arith", "rules") and re.search(r"\b" + last + r"\b", body):
                names.append(n)
            elif "◌" in last and all(p.strip() in words or p in body for p in parts):
                names.append(n)
            elif last in ("[]",) and "[]" in body:
                names.append(n)
        if names:
            kept.append(f"use {m[1]}.{{{', '.join(names)}}}")
    return kept


def main():
    crate, listed, only = sys.argv[1], sys.argv[2], sys.argv[3:]
    data = json.loads(read(listed))
    said = []
    for folder, _, names in sorted(os.walk(f"crates/{crate}/proofs")):
        if "Proof.antt" not in names:
            continue
        name = os.path.relpath(folder, f"crates/{crate}/proofs").replace("/", ".")
        if only and name not in only:
            continue
        key = f"Rattle-{crate}-proofs.{name}.Lts"
        if key not in data:
            said.append(f"{crate}/{name}: not in {listed}")
            continue
        f, heading, uses, inv, ans, places = convert(crate, name, data[key], folder, said)
        mod = f"Rattle.{crate}.proofs.{name}"
        head = "\n".join(h for h in heading if h)
        shared = []
        cited = "\n".join(inv)
        for x in [x for x in ans if not re.search(r"^pub \S+ : goal\.", x, re.M)]:
            word = re.search(r"^(?!--)((?:pub |abbrev |unfoldable |record )*)(" + ID + ")", x, re.M)
            if word and re.search(r"(?<![\w.'-])" + re.escape(word[2]) + r"(?![\w'-])", cited):
                ans.remove(x)
                first = next(l for l in x.split("\n") if not l.startswith("--"))
                made = first if "pub " in first else re.sub(r"^(abbrev |unfoldable )?", lambda m: (m[1] or "") + "pub ", first, count=1)
                if first.startswith("record"):
                    made = "pub " + first
                    x = re.sub(r"^  (?=\w)", "  pub ", x, flags=re.M)
                inv.insert(len(shared), x.replace(first, made, 1))
                shared.append(word[2])
                cited += x
        if inv:
            body = "\n\n".join(inv)
            lines = needed(uses, body) + [f"use {mod}.Given as goal"]
            with open(os.path.join(folder, "Invariants.antt"), "w", encoding="utf-8") as o:
                o.write((head + "\n" if head else "") + "\n".join(lines) + "\n\n" + body + "\n")
        if ans:
            body = "\n\n".join(ans)
            lines = needed(uses, body) + [f"use {mod}.Goals as goal"]
            mine = [w for w in shared if re.search(r"(?<![\w.'-])" + re.escape(w) + r"(?![\w'-])", body)]
            if mine:
                lines.append(f"use {mod}.Invariants.{{{', '.join(mine)}}}")
            if places:
                lines.append(f"use {mod}.Goals.{{{', '.join(sorted(places))}}}")
            with open(os.path.join(folder, "Answers.antt"), "w", encoding="utf-8") as o:
                o.write((head + "\n" if head and not inv else "") + "\n".join(lines) + "\n\n" + body + "\n")
        os.remove(os.path.join(folder, "Proof.antt"))
        if not inv and not ans and not os.listdir(folder):
            os.rmdir(folder)
    for s in said:
        print(s)


main()
