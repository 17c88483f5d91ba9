#!/usr/bin/env python3
"""Turns a crate's proofs/F/Proof.antt of the older Rattle into Invariants.antt and Answers.antt.

usage: python3 tools/turn_proofs.py CRATE..      at the top of the repository; each crate's libraries are proved

It asks the kit for each goal's old and new name (rt check --generated DIR --old-names), and goes by them. An answer that only calls
`omega arith` or `search rules` is left out, since the check tries those. What it cannot turn it names in a line, and keeps as text:
a Proof.antt that walks the code by hand is left as it is.
"""
import json
import os
import re
import subprocess
import sys
import tempfile

WORD = r"[^\s(){}\[\];,.\"]+"
TRIVIAL = {"omega arith", "search rules", "omega (arith)", "search"}


def norm(s):
    return s.replace("-", "_")


def names_of(crate):
    out = tempfile.mkdtemp(prefix="names-")
    r = subprocess.run(["rt", "check", "--generated", out, "--old-names"], cwd=f"crates/{crate}", capture_output=True, text=True)
    try:
        return json.load(open(out + "/names.json"))
    except OSError:
        print(r.stdout[-3000:], r.stderr[-1000:])
        raise SystemExit(f"{crate}: no names")


def blocks(text):
    """Top-level pieces: runs of lines that begin at column 0, each with the comment lines above it."""
    out, cur, pend = [], [], []
    for line in text.split("\n"):
        if line.startswith("--") and not cur_open(cur):
            pend.append(line)
            continue
        if line and not line[0].isspace():
            head = re.match(rf"(?:pub |abbrev |unfoldable )*({WORD})", line).group(1)
            if cur and not line.startswith("use ") and (line.startswith(("unfolding ", ")", "}")) or head == name_of(cur)):
                cur.append(line)
                continue
            if cur:
                out.append(cur)
            cur = pend + [line]
            pend = []
        elif cur:
            cur.append(line)
    if cur:
        out.append(cur)
    return [("\n".join(b)).rstrip() for b in out]


def cur_open(cur):
    return False


def name_of(cur):
    for line in cur:
        if line and not line[0].isspace() and not line.startswith("--") and not line.startswith("unfolding "):
            m = re.match(rf"(?:pub |abbrev |unfoldable )*({WORD})", line)
            return m.group(1)
    return None


def subst(body, table):
    """Replaces free words of body by the table, with the binders of a λ respected up to the bracket that closes it."""
    out, scopes, i = [], [set()], 0
    token = re.compile(rf"λ|[(\[{{]|[)\]}}]|[;,]|\.(?!\s)|{WORD}|\s+|.", re.S)
    prev = ""
    toks = token.findall(body)
    while i < len(toks):
        t = toks[i]
        if t.startswith("λ"):
            bound, j = set(), i
            head = t[1:]
            if head:
                bound.add(head)
            j = i + 1
            depth = 0
            while j < len(toks) and not (toks[j] == "." and depth == 0):
                if toks[j] in "([{":
                    depth += 1
                elif toks[j] in ")]}":
                    depth -= 1
                elif not toks[j].isspace():
                    bound.add(toks[j])
                j += 1
            out.append("".join(toks[i:j + 1]))
            scopes[-1] = scopes[-1] | bound
            i = j + 1
            prev = "."
            prev = " "
            continue
        if t in "([{" and len(t) == 1:
            scopes.append(set(scopes[-1]))
        elif t in ")]}" and len(t) == 1 and len(scopes) > 1:
            scopes.pop()
        if t in table and t not in scopes[-1] and prev != ".":
            out.append(table[t])
        else:
            out.append(t)
        prev = t
        i += 1
    return "".join(out)


def pick(digits, fields):
    """The path of old projections through n clauses: the clause's name, and what is left of the path."""
    k = 0
    for f in fields[:-1]:
        if k < len(digits) and digits[k] == "0":
            return f, digits[k + 1:]
        if k < len(digits) and digits[k] == "1":
            k += 1
            continue
        return None, digits
    return fields[-1], digits[k:]


def tail_of(body):
    """Where the expression after the last outer `in` begins."""
    depth, at, i = 0, 0, 0
    for m in re.finditer(r"[(\[{]|[)\]}]|(?<![^\s(])in(?![^\s])|(?<![^\s(])let(?![^\s])", body):
        t = m.group(0)
        if t in "([{":
            depth += 1
        elif t in ")]}":
            depth -= 1
        elif t == "in" and depth == 0:
            at = m.end()
    return at


def halves(expr):
    """The two parts of a pair in brackets, or None."""
    e = expr.strip()
    if e.startswith("("):
        e = re.sub(r",\s*\)$", ")", e)
    if not e.startswith("("):
        return None
    depth, comma = 0, None
    for i, ch in enumerate(e):
        if ch in "([{":
            depth += 1
        elif ch in ")]}":
            depth -= 1
            if depth == 0 and i != len(e) - 1:
                return None
        elif ch == "," and depth == 1 and comma is None:
            comma = i
    if comma is None:
        return None
    return e[1:comma].strip(), e[comma + 1:-1].strip()


def as_record(body, fields, left):
    """A tuple's answer as a record of the clauses' names."""
    at = tail_of(body)
    head, tail = body[:at], body[at:]
    parts, rest = [], tail.strip()
    for _ in fields[:-1]:
        lets = tail_of(rest)
        h = halves(rest)
        if h is None:
            break
        parts.append(h[0])
        rest = h[1]
    parts.append(rest)
    if len(parts) == len(fields):
        return head + " record { " + " ".join(f"{f} = {p};" for f, p in zip(fields, parts)) + " }"
    first = parts[-1].split()[0] if parts[-1].split() else ""
    if first in ("omega", "search", "grind", "simp", "rw", "cc", "λ", "elim", "subst", "ap") or first.startswith("("):
        left.append(f"clauses {fields} of {parts[-1][:60]!r}")
        return body
    out, k = [f"{f} = {p};" for f, p in zip(fields, parts[:-1])], len(parts) - 1
    more = fields[k:]
    for i, f in enumerate(more):
        out.append(f"{f} = rest'" + ".1" * i + (".0" if i < len(more) - 1 else "") + ";")
    return head + f" let rest' = {parts[-1]} in record {{ " + " ".join(out) + " }"


class Fn:
    def __init__(self, crate, path, info):
        self.crate, self.path, self.info = crate, path, info
        self.left = []
        self.parent = {p[0]: p for p in info["places"]}

    def arms(self, place):
        out = []
        while place is not None:
            p = self.parent[place]
            if p[2][1] and p[2][1].startswith("in-"):
                out.append(p[2][1])
            place = p[1]
        return out

    def steps(self, place):
        """Old step names to new ones, on the way to a place; and the clauses of each step."""
        table, clauses = {}, {}
        order = [p[0] for p in self.info["places"]]
        while place is not None:
            p = self.parent[place]
            old, new = p[2]
            if old:
                table.setdefault(norm(old), new)
                c = self.info["clauses"][order.index(place)]
                if c:
                    clauses.setdefault(norm(old), c)
            place = p[1]
        for p in self.info["places"]:
            old, new = p[2]
            if old:
                table.setdefault(norm(old), new)
                c = self.info["clauses"][order.index(p[0])]
                if c:
                    clauses.setdefault(norm(old), c)
        return table, clauses

    def paths(self, body, place):
        table, clauses = self.steps(place)
        callee = {}
        for p in self.info["places"]:
            if p[3] and p[2][0]:
                callee.setdefault(norm(p[2][0]), self.info["params"].get(p[3]))
        pre = self.info["pre"]
        alias = {"c": ("at",)}

        def turn(m):
            head, rest = m.group(1), m.group(2)
            if head not in alias:
                return m.group(0)
            state = alias[head]
            out = head
            parts = [x for x in rest.split(".") if x]
            if all(x == "before" for x in parts):
                self.last = (head, state)
                return m.group(0)
            k = 0
            while k < len(parts):
                x = parts[k]
                if state[0] == "at":
                    if x == "before":
                        k += 1
                        continue
                    if x in ("requires", "pre"):
                        out += ".requires"
                        state = ("clauses", pre["fields"] if pre else None)
                    elif norm(x).startswith("enum_told") or (parts[k + 1:k + 3] == ["given", "1"] and self.arms(place)):
                        arms = self.arms(place)[::-1]
                        d = re.search(r"(\d*)$", x).group(1) if norm(x).startswith("enum_told") else ""
                        if d.isdigit() and int(d) <= len(arms):
                            arms = arms[int(d) - 1:]
                        elif not norm(x).startswith("enum_told"):
                            arms = arms[::-1]
                        if arms and k + 1 == len(parts):
                            out += "." + arms[0]
                            state = ("told",)
                        elif arms:
                            out += "." + arms[0] + ".is"
                            k += 2 if parts[k + 2:k + 3] == ["1"] else 1
                            state = ("done",)
                        else:
                            self.left.append("enum_told")
                            out += "." + x
                    elif norm(x) in table or (norm(x).endswith("2") and norm(x)[:-1] in table):
                        o = norm(x) if norm(x) in table else norm(x)[:-1]
                        out += "." + table[o]
                        state = ("step", o)
                    elif norm(x) == "well_formed":
                        out += ".well_formed"
                        state = ("done",)
                    elif x == "args":
                        out += ".args"
                        state = ("word",)
                    else:
                        out += "." + x
                        state = ("done",)
                elif state[0] == "step":
                    if x == "ensures":
                        out += ".ensures"
                        c = clauses.get(state[1])
                        state = ("clauses", c if isinstance(c, list) else (c["fields"] if c else None))
                    elif x == "before":
                        state = ("at",)
                        out = head
                    elif x in ("new", "last", "auto") and callee.get(state[1]):
                        out += ".auto" if x == "auto" else ".new"
                        state = ("clauses", callee[state[1]] + ["the-end"])
                    else:
                        out += "." + (x if x.startswith("not-") else norm(x))
                        state = ("done",)
                elif state[0] == "told":
                    out += ".is"
                    k += 1 if parts[k + 1:k + 2] == ["1"] else 0
                    state = ("done",)
                elif state[0] == "word":
                    out += "." + norm(x)
                    state = ("done",)
                elif state[0] == "clauses" and state[1]:
                    digits = []
                    while k < len(parts) and parts[k] in ("0", "1"):
                        digits.append(parts[k])
                        k += 1
                    f, more = pick(digits, state[1])
                    if f is None:
                        self.left.append(f"part of clauses {m.group(0)}: {state[1]}")
                        return m.group(0)
                    out += "." + f + "".join("." + d for d in more)
                    state = ("done",)
                    continue
                else:
                    out += "." + x
                    state = ("done",)
                k += 1
            self.last = (out, state)
            return out

            # aliases first, in order, since a later one may stand on an earlier
        for m in re.finditer(rf"\blet\s+({WORD})\s+=\s+({WORD})((?:\.{WORD})*)\s+in\b", body):
            if m.group(2) in alias:
                self.last = None
                turn(re.match(rf"({WORD})((?:\.{WORD})*)", m.group(2) + m.group(3)))
                if self.last:
                    alias[m.group(1)] = self.last[1] if m.group(3) else alias[m.group(2)]
        return re.sub(rf"(?<![\w.'₀-])({WORD})((?:\.{WORD})+)", turn, body)


def used(text, name):
    return re.search(rf"(?<![^\s(){{}}\[\];,.\"]){re.escape(name)}(?![^\s(){{}}\[\];,.\"])", text) is not None


def uses_op(text, op):
    mid = op.strip("◌")
    return all(used(text, p) or p in text for p in op.split("◌") if p)


def needed(use, text):
    m = re.match(r"use ([^{]+)\.\{(.*)\}\s*$", use, re.S)
    if not m:
        m2 = re.match(rf"use \S+ as ({WORD})\s*$", use)
        if m2:
            return use if used(text, m2.group(1)) else None
        last = use.split(".")[-1].strip()
        return use if used(text, last) else None
    keep = []
    for n in [x.strip() for x in m.group(2).split(",")]:
        plain = n.split(" as ")[-1]
        if ("◌" in plain and uses_op(text, plain)) or used(text, plain):
            keep.append(n)
    return f"use {m.group(1)}.{{{', '.join(keep)}}}" if keep else None


def turn(crate, fpath, info):
    folder = f"crates/{crate}/proofs/{fpath}"
    text = open(folder + "/Proof.antt", encoding="utf-8").read()
    if " as tie" not in text:
        return f"{fpath}: a walk, left"
    fn = Fn(crate, fpath, info)
    dotted = fpath.replace("/", ".")
    text = re.sub(rf"not[-_](true|false) _ \(({WORD}(?:\.{WORD})*\.(?:true|false))\)", r"\2", text)
    text = re.sub(rf"not[-_](true|false) _ ({WORD}(?:\.{WORD})*\.(?:true|false))", r"\2", text)
    text = re.sub(rf"accepted_first \(rw (\([^()]*\)|\S+) at ({WORD}(?:\.{WORD})*)\.keys2\)", r"\2.not-Accepted \1", text)
    text = re.sub(r"(?<=[\w')-])\.inv(?![\w-])", ".invariant", text)
    text = re.sub(r"(?<=[\w')-])\.good(?![\w-])", ".well_formed", text)
    text = re.sub(r"(?<=[\w')-])\.kept(?=\.[01])", ".auto", text)
    text = re.sub(r"((?:if\d*|if\d*'|loop-test)\.)taken(?![\w-])", r"\1true", text)
    text = re.sub(r"((?:if\d*|if\d*'|loop-test)\.)left(?![\w-])", r"\1false", text)
    # a function from a place back to an earlier one: what stood there can be named where one stands
    back = set()
    while True:
        m = re.search(rf"^(?:abbrev |pub )*({WORD}) : [^\n]*→[^\n]*\n\1 c = (?:\(?(?:{'|'.join(map(re.escape, back)) or '!'}) )*c(?:\.before|\))*\n", text, re.M)
        if not m or "tie." not in m.group(0).split("\n")[0]:
            break
        back.add(m.group(1))
        text = text[:m.start()] + text[m.end():]
        for _ in range(8):
            new = re.sub(rf"\({re.escape(m.group(1))} ({WORD}(?:\.before)*)\)((?:\.before)*)", lambda k: k.group(1).split(".")[0], text)
            new = re.sub(rf"(?<![^\s(){{}}\[\];,]){re.escape(m.group(1))} ({WORD}?)((?:\.before)+|(?![^\s(){{}}\[\];,.]))", lambda k: k.group(1).split(".")[0], new)
            if new == text:
                break
            text = new
    head, uses, helpers, answers, invs = [], [], [], [], []
    for b in blocks(text):
        first = [l for l in b.split("\n") if not l.startswith("--")][0]
        if first.startswith("use "):
            head += [l for l in b.split("\n") if l.startswith("--")]
            u = " ".join(l for l in b.split("\n") if not l.startswith("--"))
            if not re.search(r"\.(Statement\.\{statement\}|Tie as tie)", u):
                uses.append(u)
            continue
        if re.match(r"pub \S+[-_]spec :", first):
            continue
        if re.match(r"abbrev (invariant|decreases)-\S+ :", first):
            invs.append(b)
            continue
        m = re.match(rf"(?:pub )?({WORD}) : tie\.Need-({WORD})", first)
        if m:
            answers.append((m.group(1), m.group(2), b))
        else:
            helpers.append(b)
    # goals by position where the numbers agree, else by name
    needs, asked = info["needs"], info["asked_at"]
    place_of = {n: a[0] for (n, _), a in zip(needs, asked)} if len(needs) == len(asked) else {}
    goal = {}
    order = []
    spec = re.search(r"tie\.spec\b(.*)", text, re.S)
    given = re.findall(WORD, spec.group(1)) if spec else []
    given = [g for g in given if not re.match(r"(invariant|decreases)-", g) and g not in ("where",)]
    by_name = {norm(o): (o, n) for o, n in needs}
    if len(given) == len(needs):
        for g, (o, n) in zip(given, needs):
            goal[g] = (o, n)
    else:
        fn.left.append(f"{len(given)} answers for {len(needs)} goals")
        for a, need, _ in answers:
            k = norm(need)
            for cand in (k, k.replace("overflow_", ""), norm(a)):
                if cand in by_name:
                    goal[a] = by_name[cand]
                    break
    inv_text = []
    names = {}
    for b in invs:
        m = re.search(rf"abbrev ((invariant|decreases)-({WORD})) : [^\n]*\n(?:unfolding [^\n]*\n)?\1((?: [^\n=]*)?) =(.*)$", b, re.S)
        if not m:
            fn.left.append("invariant: " + b[:80])
            continue
        kind, loop = m.group(2), m.group(3)
        args = m.group(4).split()
        found = [(i, l) for i, l in enumerate(info["loops"]) if norm(l[0][0]) == norm(loop)]
        if not found:
            fn.left.append("loop " + loop)
            continue
        i, ((old, new), variables) = found[0]
        changed = info["changed"][i]
        want = [("l.initial." if ch else "l.") + v for v, ch in zip(variables, changed)] + ["l." + v for v, ch in zip(variables, changed) if ch]
        if len(args) != len(want):
            fn.left.append(f"{kind}-{loop}: parameters {args} for {want}")
        body = subst(m.group(5).strip(), dict(zip(args, want)))
        body = re.sub(r"(?<=\n)    ", "    ", body)
        sep = "\n    " if "\n" in m.group(5).rstrip() and m.group(5).startswith("\n") else " "
        inv_text.append(f"abbrev pub {kind}-{new} : goal.{kind}-{new}\n{kind}-{new} l ={sep}{body}")
    renamed = {a: goal[a][1] for a, _, _ in answers if a in goal}
    # a helper over a place is a let of each answer that cites it
    withs = []
    for h in list(helpers):
        hl = "\n".join(l for l in h.split("\n") if not l.startswith("--"))
        m = re.match(rf"(?:pub )?({WORD}) : \(c : tie\.[^)]*\)((?: \([^)]*\))*) →(.*?)\n((?:unfolding [^\n]*\n)?)\1 c((?: \S+)*?) =(.*)$", hl, re.S)
        if m:
            params = m.group(5).strip()
            e = (f"λ {params}. " if params else "") + m.group(6).strip()
            withs.append((m.group(1), (m.group(2).strip() + " → " if m.group(2) else "") + m.group(3).strip(), e))
            if m.group(4):
                fn.left.append(f"helper {m.group(1)} {m.group(4).strip()}")
            helpers.remove(h)

    def lets_for(body):
        want, out = set(), []
        todo = body
        while True:
            more = [w for w in withs if w[0] not in want and used(todo, w[0])]
            if not more:
                break
            for w in more:
                want.add(w[0])
                todo += " " + w[2] + " " + w[1]
        for n, t, e in withs:
            if n in want:
                out.append(f"\n    let {n} : {fn.paths(t, None)} = {fn.paths(e, None)} in")
        return out

    ans_text = []
    extra = set()
    for a, need, b in answers:
        if a not in goal:
            fn.left.append(f"no goal for {a} ({need})")
            continue
        old, new = goal[a]
        lines = b.split("\n")
        comments = [l for l in lines if l.startswith("--")]
        lines = [l for l in lines if not l.startswith("--")]
        rest = "\n".join(lines[1:])
        unf = re.match(r"unfolding [^\n]*\n", rest)
        unf = unf.group(0) if unf else ""
        rest = rest[len(unf):]
        m = re.match(rf"{re.escape(a)}\s+(\S+)((?: \S+)*?) =(.*)$", rest, re.S)
        if not m:
            fn.left.append(f"form of {a}")
            ans_text.append("-- TODO " + b.replace("\n", "\n-- "))
            continue
        body = m.group(3)
        flat = " ".join(body.split())
        if flat in TRIVIAL and not unf:
            continue
        if m.group(1) != "c":
            body = re.sub(rf"(?<![\w.']){re.escape(m.group(1))}(?=[.\s)])", "c", body)
        place = place_of.get(old)
        body = fn.paths(body, place if place in fn.parent else None)
        for h in reversed(lets_for(body)):
            body = h + body
        same = {"c"} | {m2.group(1) for m2 in re.finditer(rf"\blet\s+({WORD})\s+=\s+c(?:\.before)*\s+in\b", body)}
        for h, _, _ in withs:
            body = re.sub(rf"(?<![^\s(){{}}\[\];,]){re.escape(h)} (?:{'|'.join(map(re.escape, same))})(?:\.before)*(?![.\w'])", h, body)
            body = re.sub(rf"(?<![^\s(){{}}\[\];,])\(?{re.escape(h)} c(?:\.before)*\)?(?![.\w])" if False else rf"(?<![^\s(){{}}\[\];,]){re.escape(h)} c(?:\.before)*(?![.\w])", h, body)
        if new in info["asked"] or old in info["asked"]:
            body = as_record(body, info["asked"].get(new) or info["asked"].get(old), fn.left)
        for x, y in renamed.items():
            if used(body, x) and re.search(rf"(?<![^\s(){{}}\[\];,]){re.escape(x)} c\b", body):
                body = re.sub(rf"(?<![^\s(){{}}\[\];,]){re.escape(x)} c\b", f"{y} c", body)
        b2 = re.sub(rf"⊎_elim\s*\(λ w\.(.*)\)\s*\(λ w\.(.*)\)\s*c\.(\S+)\.branch\s*$", lambda m: (
            f"elim c.{m.group(3)}.branch [ {m.group(3).replace('if-', 'then-', 1)} w ↦{m.group(1)} | {m.group(3).replace('if-', 'else-', 1)} w ↦{m.group(2)} ]"
            .replace("w.0.taken", f"w.{m.group(3)}.true").replace("w.0.left", f"w.{m.group(3)}.false")), body, flags=re.S)
        if b2 != body:
            body = b2
            fn.left.append(f"the cases of {new}")
            extra.update(re.findall(r"(?:then|else)-[^ ]+(?= w ↦)", body))
        if re.search(r"\.taken\b|\.left\b", body):
            fn.left.append(f"look at {new}")
        rest_of = " ".join(x for x in m.group(2).split() if x != "κs")
        ans_text.append("\n".join(comments + [f"pub {new} : goal.{new}"]) + f"\n{unf}{new} c{' ' + rest_of if rest_of else ''} ={body.rstrip()}")
    note = [l for l in head if l.startswith("--")]
    inv_all = "\n\n".join(inv_text)
    # helpers that an invariant cites go with it
    with_inv, seen = [], True
    todo = inv_all
    moved = set()
    while True:
        more = [i for i, h in enumerate(helpers) if i not in moved and used(todo, name_of([l for l in h.split("\n")]) if not re.search(r"^(?:pub )?record", h, re.M) else re.search(rf"record ({WORD})", h).group(1))]
        if not more:
            break
        moved |= set(more)
        todo += "\n" + "\n".join(helpers[i] for i in more)
    inv_helpers = [helpers[i] for i in sorted(moved)]
    at = {norm(p[0]): n for p, n in zip(info["places"], info["places_by_name"])}

    def placed(h):
        if "tie." not in h:
            return h
        h = fn.paths(h, None)
        h = re.sub(rf"tie\.({WORD})(?: invariant-\S+ decreases-[^\s)]+)*", lambda m: at.get(norm(m.group(1)), m.group(1)), h)
        extra.update(n for n in at.values() if used(h, n))
        return h

    ans_helpers = [placed(h) for i, h in enumerate(helpers) if i not in moved]
    os.remove(folder + "/Proof.antt")
    if inv_text:
        body = "\n\n".join(inv_helpers + inv_text) + "\n"
        imports = [x for x in (needed(u, body) for u in uses) if x]
        body = re.sub(r"^(record|data) ", r"pub \1 ", body, flags=re.M)
        open(folder + "/Invariants.antt", "w", encoding="utf-8").write("\n".join(note + imports + [f"use Rattle.{crate}.proofs.{dotted}.Given as goal"]) + "\n\n" + body)
    if ans_text or ans_helpers:
        body = "\n\n".join(ans_helpers + ans_text) + "\n"
        imports = [x for x in (needed(u, body) for u in uses) if x]
        shared = []
        for h in inv_helpers:
            m = re.search(rf"(?:record|data) ({WORD})", h)
            n = m.group(1) if m else name_of(h.split("\n"))
            if n and used(body, n):
                shared.append(n)
        if shared:
            imports.append(f"use Rattle.{crate}.proofs.{dotted}.Invariants.{{{', '.join(shared)}}}")
        imports.append(f"use Rattle.{crate}.proofs.{dotted}.Goals as goal")
        if extra:
            imports.append(f"use Rattle.{crate}.proofs.{dotted}.Goals.{{{', '.join(sorted(extra))}}}")
        open(folder + "/Answers.antt", "w", encoding="utf-8").write("\n".join(([] if inv_text else note) + imports) + "\n\n" + body)
    return f"{fpath}: turned" + "".join("\n    left: " + x for x in fn.left)


def main():
    for crate in sys.argv[1:]:
        names = names_of(crate)
        for key, info in sorted(names.items()):
            m = re.match(rf"Rattle-{crate}-proofs\.(.+)\.Lts$", key)
            if not m:
                continue
            fpath = m.group(1).replace(".", "/")
            if os.path.isfile(f"crates/{crate}/proofs/{fpath}/Proof.antt"):
                print(f"{crate}/" + turn(crate, fpath, info))


main()
