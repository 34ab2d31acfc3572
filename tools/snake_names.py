#!/usr/bin/env python3
"""Writes the repository's own definitions and lemmas in Rattle's spelling: words in snake case, types in camel case.

usage: snake_names.py [--check]     at the top of the repository, right after the kit's port.py

    stepAt, kind-unread, AfterCusp  ->  step_at, kind_unread, AfterCusp

It renames what the files of specs/ and proofs/ declare and where they, the clauses of src/ and the must-fail edits name it.
A name that a file takes from a library of the kit stays, and so does each name of a function of src/ and what Rattle makes of it.
--check writes nothing and lists the names that fall together, within a file, with another name in scope there.
"""
import collections
import os
import re
import sys

TOKEN = re.compile(r"\"(?:[^\"\\]|\\.)*\"|--[^\n]*|[^\s(){}.;,@\"«»\[\]\\λ]+|[.{}();,\[\]λ]|\s+|.", re.S)
DECLARED = re.compile(r"^[ \t]*(?:(?:abbrev|pub|unfoldable|private)[ \t]+)*([^\s:(){}.,;@\"]+)[ \t]*:[ \t]+(\S.*)?$", re.M)
TYPES = re.compile(r"^[ \t]*(?:pub[ \t]+)?(?:record|data)[ \t]+([^\s:(){}]+)", re.M)
IMPORT = re.compile(r"(?:^|\n)[ \t]*(?:pub[ \t]+)?(?:ghost[ \t]+)?use[ \t]+([^\s{;]+?)(?:\.\{([^}]*)\})?(?:[ \t]+as[ \t]+\S+)?[ \t]*;?(?=\n|$)")
# Where two of our names would be one: a lemma that would have its function's name gets _lem.
BY_HAND = {
    it: re.sub("-", "_", it) + "_lem"
    for it in "short-plus short-minus points-within km-within search-by filled-by slots-within layer-within whole-root nearest-root root-of next-at float-text number-text refused-by turn_by one_more is-nan".split()
}


def files(root):
    for folder, dirs, names in os.walk(os.path.join(root, "crates")):
        dirs[:] = sorted(d for d in dirs if d not in ("out", "data"))
        for name in sorted(names):
            if name.endswith((".antt", ".rt", ".edit")):
                yield os.path.join(folder, name)


def snake(name):
    if name in BY_HAND:
        return BY_HAND[name]
    if re.search(r"[^\w'-]", name) or not re.match(r"[^\W\d_]", name):
        return name
    head = name[0]
    if head.isupper() and head.isascii():
        # A type; a lemma about one keeps its dash.
        return name
    # A run of capitals is one word.
    return re.sub(r"(?<=[a-z0-9])[A-Z]+", lambda up: "_" + up[0].lower(), name).replace("-", "_").lower() if head.isascii() else name.replace("-", "_")


def own(text, is_proof):
    found = set()
    body = re.sub(r"--[^\n]*", "", text)
    for name, kind in DECLARED.findall(body):
        if is_proof and (kind or "").startswith("tie."):
            continue
        if is_proof and name.endswith(("-spec", "_spec")):
            continue
        found.add(name)
    found |= set(TYPES.findall(body))
    return {it for it in found if re.match(r"[^\W\d_]", it)}


def main(argv):
    check = "--check" in argv
    texts = {p: open(p, encoding="utf-8").read() for p in files(".")}
    declares = {p: own(t, p.endswith("/Proof.antt")) for p, t in texts.items() if p.endswith(".antt")}
    named = set().union(*(s for p, s in declares.items() if not p.endswith("/Proof.antt")))
    turned = {it: snake(it) for it in named if snake(it) != it}
    fields = set()
    for p, t in texts.items():
        if p.endswith(".antt"):
            for block in re.findall(r"^[ \t]*(?:pub )?record .*?(?=^\S|\Z)", t, re.M | re.S):
                fields |= set(re.findall(r"^[ \t]+(?:pub )?([^\s:(){}]+) :", block, re.M))
    fields &= set(turned)
    wrote = 0
    for p, t in texts.items():
        is_proof = p.endswith("/Proof.antt")
        here = declares.get(p, set())
        foreign = set()
        imported = set()
        for module, names in IMPORT.findall(t):
            words = {w.strip() for w in (names or "").split(",") if w.strip()}
            words = {w.split(" as ")[-1].strip() for w in words}
            crate = module.split(".")[1] if module.startswith("Rattle.") and "." in module else None
            if crate and os.path.isdir(os.path.join("crates", crate)):
                imported |= words
            else:
                foreign |= words
        mine = {n: snake(n) for n in here if snake(n) != n} if is_proof else {}
        table = {n: m for n, m in turned.items() if n not in foreign or n in here}
        if is_proof:
            table = {n: m for n, m in turned.items() if n in imported or n in fields} | mine
        out, before = [], ""
        for tok in TOKEN.findall(t):
            new = tok
            if tok.startswith("--"):
                new = re.sub(r"(?<![\w'-])[a-z]+[a-z0-9]*[A-Z]\w*(?![\w'-])", lambda m: turned.get(m[0], m[0]), tok)
                new = re.sub(r"`([^`\s]+)`", lambda m: f"`{turned.get(m[1], m[1])}`", new)
            elif tok in table and (p.endswith(".antt") or re.search(r"[A-Z]", tok)):
                if not is_proof or before != "." or tok in fields:
                    new = table[tok]
            elif p.endswith(".edit") and tok in turned and re.search(r"[A-Z]", tok):
                new = turned[tok]
            out.append(new)
            if not tok.isspace():
                before = tok
        text = "".join(out)
        if check:
            scope = collections.defaultdict(set)
            for n in here | imported | foreign:
                scope[table.get(n, n) if n not in foreign else n].add(n)
            for new, olds in scope.items():
                if len(olds) > 1 and any(o != new for o in olds):
                    print(f"{p}: {sorted(olds)} -> {new}")
            if p.endswith(".antt") and not is_proof:
                words = set(TOKEN.findall(re.sub(r"--[^\n]*", "", t)))
                for n in (here | imported) & set(table):
                    if table[n] in words and table[n] != n and len(scope[table[n]]) == 1:
                        print(f"{p}: {table[n]} stands there beside {n}")
        if text != t:
            wrote += 1
            if not check:
                with open(p, "w", encoding="utf-8") as f:
                    f.write(text)
    by = collections.defaultdict(set)
    for n in named:
        by[snake(n)].add(n)
    if check:
        for new, olds in sorted(by.items()):
            if len(olds) > 1:
                print(f"one name {new} of {sorted(olds)}")
    print(f"{len(turned)} names, {wrote} files", file=sys.stderr)


if __name__ == "__main__":
    main(sys.argv[1:])
