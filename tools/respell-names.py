#!/usr/bin/env python3
"""Respells the repository's own definitions, lemmas and fields: words in snake case (badName, first-either -> bad_name, first_either).

usage: tools/respell-names.py [--list]      at the top of a repository, right after the kit's port.py, once

A name is the repository's own where a file of crates/*/specs, or one of proofs/ that is no answer to a goal, declares it. Names of the
library that a file imports stay, in that file. Functions, exported names, strings, inputs and outputs are not touched: of a .rt file only
`ghost use` lines, clauses and ghost items are read. --list prints the names and where two would fall together, and writes nothing. Of two that would, as nodeAt and node-at,
the law gets `_law` after its name.
"""

import collections
import os
import re
import sys

TOKEN = re.compile(r"[^\s(){}\[\].,;:=\"@`]+")
HEAD = re.compile(r"^[ ]*(?:(?:abbrev|unfoldable|private|pub|instance|inline|irrelevant) )*([^\s(){}\[\].,;:=\"@`]+)(?: [^\s:(){}\[\].,;=\"@`]+)* : ", re.M)
USE = re.compile(r"^(?:pub )?use ([^\s{};]+?)(?:\.\{([^}]*)\}| as (\S+))?;?$", re.M)
ANSWERS = {"Proof.antt", "Answers.antt", "Invariants.antt"}


def read(p):
    with open(p, encoding="utf-8") as f:
        return f.read()


def files(ending):
    for d, ds, fs in os.walk("crates"):
        ds[:] = sorted(x for x in ds if x not in ("out", "data"))
        for f in sorted(fs):
            if f.endswith(ending):
                yield os.path.join(d, f)


def snake(n):
    n = n.replace("getD", "get_or").replace("isJust", "is_just")
    n = n.replace("-", "_")
    n = re.sub(r"([a-z0-9₀₁₂′'?])([A-Z])", lambda m: m.group(1) + "_" + m.group(2).lower(), n)
    if n[0].islower():
        n = re.sub(r"[A-Z]", lambda m: m.group(0).lower(), n)
    return n


def wants(n):
    return bool(re.match(r"^[a-z][^\s◌≡≤∷]*$", n)) and ("-" in n or re.search(r"[A-Z]", n)) and "◌" not in n and not re.search(r"[≢≡≤<>∙∷+*/%^&|]", n)


def declared(text):
    found = set()
    for m in HEAD.finditer(text):
        found.add(m.group(1))
    return found


def imports(text):
    """own and foreign names that a file imports, with the aliases of modules"""
    own, foreign, alias = set(), set(), {}
    for m in USE.finditer(text):
        path, names, as_ = m.group(1), m.group(2), m.group(3)
        mine = re.match(r"Rattle\.([a-z_0-9]+)\.(specs|proofs)", path)
        is_own = bool(mine) and os.path.isdir(os.path.join("crates", mine.group(1)))
        for n in (names or "").split(","):
            n = n.strip()
            if not n:
                continue
            n = n.split(" as ")
            (own if is_own else foreign).add(n[0])
            if len(n) > 1 and not is_own:
                foreign.add(n[1])
        if as_:
            alias[as_] = is_own
    return own, foreign, alias


def generated(path):
    return os.path.basename(path) in ANSWERS and "/proofs/" in path


def main():
    texts = {p: read(p) for p in files(".antt")}
    names = set()
    for p, t in texts.items():
        if not generated(p):
            names |= {n for n in declared(t) if wants(n)}
    every = set()
    for p, t in texts.items():
        if not generated(p):
            every |= declared(t)
    table = {}
    camel = {snake(n) for n in names if "-" not in n}
    taken = every - names
    for n in sorted(names):
        s = snake(n)
        if "-" in n and (s in camel or s in taken):
            s += "_law"
        elif "-" not in n and s in taken:
            s += "_of"
        table[n] = s
    if "--list" in sys.argv:
        back = collections.defaultdict(list)
        for n, s in sorted(table.items()):
            back[s].append(n)
        for s, ns in sorted(back.items()):
            if len(ns) > 1:
                print("together:", s, ns)

    functions = set()
    for p in files(".rt"):
        functions |= set(re.findall(r"\bfn (\w+)", read(p)))

    said = []

    def turn_antt(p, t):
        own, foreign, alias = imports(t)
        proof = generated(p)
        stay = foreign
        have = set(TOKEN.findall(re.sub(r"--.*", "", t)))
        turned = {}

        def token(m):
            n = m.group(0)
            if n not in table or n in stay:
                return n
            before = t[max(0, m.start() - 60) : m.start()]
            if proof:
                if before.endswith("."):
                    head = re.search(r"([^\s(){}\[\],;:=\"@`]+)\.$", before)
                    first = head.group(1).split(".")[0] if head else ""
                    if head and not (first in alias and alias[first]) and not re.search(r"\.(ensures|requires|invariant)(\.|$)", head.group(1)) and re.sub(r"-?[0-9]+$", "", n).replace("-", "_") in functions:
                        return n
                    if first == "tie":
                        return n
                elif n not in own:
                    return n
            elif before.endswith("."):
                head = re.search(r"([^\s(){}\[\],;:=\"@`]+)\.$", before)
                first = head.group(1).split(".")[0] if head else ""
                if first in alias and not alias[first]:
                    return n
            turned[n] = table[n]
            return table[n]

        # code and comments alike: comments name definitions too
        new = TOKEN.sub(token, t)
        for n, s in turned.items():
            if s in have and s not in turned:
                said.append(f"{p}: {n} -> {s}, which the file has")
        return new

    def turn_rt(p, t):
        lines = t.split("\n")
        own, foreign = set(), set()
        out = []
        depth = 0
        inside = False
        for l in lines:
            s = l.strip()
            if s.startswith("ghost use"):
                m = re.match(r"ghost use ([^\s{};]+?)(?:\.\{([^}]*)\}| as (\S+))?;", s)
                mine = re.match(r"Rattle\.([a-z_0-9]+)\.(specs|proofs)", m.group(1)) if m else None
                if mine and os.path.isdir(os.path.join("crates", mine.group(1))):
                    l = TOKEN.sub(lambda k: table.get(k.group(0), k.group(0)), l)
                else:
                    foreign |= {x.strip() for x in ((m.group(2) or "") if m else "").split(",")}
            elif inside or re.match(r"(requires|ensures|ghost)\b", s):
                inside = True
                l = TOKEN.sub(lambda k: table[k.group(0)] if k.group(0) in table and k.group(0) not in foreign else k.group(0), l)
                depth += s.count("{") - s.count("}")
                if depth <= 0:
                    inside, depth = False, 0
            elif s.startswith("//"):
                l = TOKEN.sub(lambda k: table[k.group(0)] if k.group(0) in table and re.search(r"[A-Z]", k.group(0)) else k.group(0), l)
            out.append(l)
        return "\n".join(out)

    changed = 0
    for p, t in texts.items():
        new = turn_antt(p, t)
        if new != t:
            changed += 1
            if "--list" not in sys.argv:
                with open(p, "w", encoding="utf-8") as f:
                    f.write(new)
    for p in files(".rt"):
        t = read(p)
        new = turn_rt(p, t)
        if new != t:
            changed += 1
            if "--list" not in sys.argv:
                with open(p, "w", encoding="utf-8") as f:
                    f.write(new)
    print("\n".join(said))
    print(f"{len(table)} names, {changed} files")


main()
