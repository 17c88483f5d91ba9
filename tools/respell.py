#!/usr/bin/env python3
"""Brings the repository's own definitions, lemmas, fields and local names to the spelling of today's Rattle.

usage: python3 tools/respell.py        once, at the top of the repository, right after the kit's port.py

A word of specs/ or proofs/ is written in snake case (no dash and no capital within), a type in upper camel case.
A name that the kit's own libraries declare is left as it is, and so is one that Rattle makes for a proof file
(the declarations in a Proof.antt are not read). It goes by whole words, over the .antt and .rt files and the
must-fail edits of crates/; in a .rt file no function, type or variable of the code is among them. It stops,
with nothing written, where two names of one file would fall together.
"""
import os
import re
import subprocess
import sys

KIT = os.path.dirname(subprocess.run(["rt", "doc"], capture_output=True, text=True, check=True).stdout.strip())
WORD = re.compile(r"[^\s(){}\[\];,.\"`@!|&]+")
SIGNED = re.compile(r"^\s*(?:(?:pub|abbrev|unfoldable|opaque|private|instance|let|in|where)\s+)*([^\s(){}\[\];,.\"]+)\s+(?:[({][^=]*?[)}]\s*)*:(?=\s)")
BOUND = re.compile(r"(?:let|;|\bin let)\s+([^\s(){}\[\];,.\"]+)\s+(?::|=)(?=\s)")
TYPED = re.compile(r"[({]\s*((?:[^\s(){}\[\];,.:\"]+\s+)+):(?=\s)")
HEAD = re.compile(r"^\s*(?:pub\s+)?(?:record|data)\s+([^\s(){}\[\];,.\"]+)")
LAMBDA = re.compile(r"λ\s*((?:[^\s(){}\[\];,.:\"→]+\s+)*[^\s(){}\[\];,.:\"→]+)\s*\.")
# where the plain rule would make two names one: a lemma that would have its function's name gets `_lem`
BY_HAND = {n: to + "_lem" for n, to in {
    "shape-of": "shape_of", "order-of": "order_of", "start-in": "start_in", "rows_in": "rows_in", "owner_of": "owner_of", "fits_in": "fits_in",
    "high-of": "high_of", "low-of": "low_of", "rows-of": "rows_of", "updates-at": "updates_at", "row-at": "row_at",
}.items()} | {"wrongStart": "wrong_start_at"}
# types, and no lemmas on a type
TYPES = {"So-far", "Singled-from"}
# fields of two records, which may have one name; and a function of the code beside its definition, in a file that names both
APART = {"in_rows", "in_values"}


def files(root, ends):
    for folder, dirs, names in os.walk(root):
        dirs[:] = sorted(d for d in dirs if d not in ("out", ".git", "target"))
        for n in sorted(names):
            if n.endswith(ends):
                yield os.path.join(folder, n)


def read(path):
    with open(path, encoding="utf-8") as f:
        return f.read()


def code(text):
    return re.sub(r"--(?= |$).*", "", text, flags=re.M)


def declared(text):
    names = set()
    for line in code(text).split("\n"):
        for form in (SIGNED, HEAD):
            m = form.match(line)
            if m:
                names.add(m.group(1))
        names.update(m.group(1) for m in BOUND.finditer(line))
        for form in (TYPED, LAMBDA):
            for m in form.finditer(line):
                names.update(m.group(1).split())
    return names


def respelled(name):
    if name in BY_HAND:
        return BY_HAND[name]
    if re.fullmatch(r"[A-Za-z][\w'₀₁₂₃₄]*(?:-[\w'₀₁₂₃₄]+)+", name):
        if name in TYPES:
            return "".join(p[0].upper() + p[1:] for p in name.split("-"))
        name = name.replace("-", "_")
    if re.fullmatch(r"[a-z][\w'₀₁₂₃₄]*", name):
        name = re.sub(r"(?<=[a-z0-9])([A-Z])(?=[a-z0-9_'₀₁₂₃₄]|$)", lambda m: "_" + m.group(1).lower(), name)
    return name


def main():
    own = set()
    crates = "crates"
    for p in files(crates, ".antt"):
        if os.path.basename(p) != "Proof.antt":
            own |= declared(read(p))
    kit = set()
    for top in ("rattle/std", "rattle/core", "rattle/logic", "rattle/antt", "rattle/std_alloc", "rattle/io", "rattle/os", "rattle/libc"):
        for p in files(os.path.join(KIT, top), ".antt"):
            kit |= {m.group(1) for m in map(SIGNED.match, code(read(p)).split("\n")) if m}
    turn = {}
    for n in own:
        to = respelled(n)
        if to != n and (n in BY_HAND or n not in kit):
            turn[n] = to
    made = {}
    for n, to in turn.items():
        made.setdefault(to, []).append(n)
    bad = 0
    texts = {}
    for p in files(crates, (".antt", ".rt", ".edit")):
        text = read(p)
        words = set(WORD.findall(code(text)))
        for n in sorted(words & turn.keys()):
            to = turn[n]
            others = [o for o in made[to] if o != n and o in words]
            if to in APART or p.endswith((".rt", "/Proof.antt")):
                continue
            if (to in words and to not in turn) or others:
                print(f"{p}: {n} and {to if to in words else others[0]} fall together", file=sys.stderr)
                bad += 1
        texts[p] = text
    if bad:
        return 1
    count = 0
    for p, text in texts.items():
        new = WORD.sub(lambda m: turn.get(m.group(0), m.group(0)), text)
        if new != text:
            with open(p, "w", encoding="utf-8") as f:
                f.write(new)
            count += 1
    print(f"{len(turn)} names in {count} files")
    for n in sorted(turn):
        print(n, turn[n])
    return 0


if __name__ == "__main__":
    sys.exit(main())
