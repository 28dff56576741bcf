#!/usr/bin/env python3
# fill.py CRATE FN < answers: in crates/CRATE/proofs/FN/Answers.antt, else Proof.antt, each answer starts with a line 'NEED[ binders] = term' (further lines indented); replaces that need's clause
# (its signature stays). Lines before the first answer that start with 'use ' are added to the imports; a block between '<<<' and '>>>' is
# put before the first need; 'UNFOLD need: a b' puts an 'unfolding' line under the signature.
import os, sys, re
crate, fn = sys.argv[1], sys.argv[2]
path = next(p for p in (f"crates/{crate}/proofs/{fn}/{n}.antt" for n in ("Answers", "Proof")) if os.path.exists(p))
src = open(path).read().split("\n")
inp = sys.stdin.read().split("\n")
uses, answers, block, unf = [], {}, [], {}
cur, inblock = None, False
for l in inp:
    if l.strip() == "<<<": inblock = True; continue
    if l.strip() == ">>>": inblock = False; continue
    if inblock: block.append(l); continue
    if l.startswith("use "): uses.append(l); continue
    if l.startswith("UNFOLD "):
        k, v = l[7:].split(":"); unf[k.strip()] = "unfolding " + v.strip(); continue
    if l and not l.startswith(" "):
        cur = l.split()[0]; answers[cur] = [l]
    elif cur and l.strip(): answers[cur].append(l)
# '@thing' in an answer to a need of Proof.antt is the path into c of that thing, from proof-tools/paths.py
if any("@" in l for a in answers.values() for l in a):
    import subprocess
    for need, a in answers.items():
        if not any("@" in l for l in a): continue
        target, n = fn, need
        if fn.startswith("+"):
            for m in fn[1:].split("+"):
                if need.startswith(m.replace("_", "-") + "-"): target, n = f"{fn}:{m}", need[len(m) + 1:]
        o = subprocess.run(["python3", "proof-tools/paths.py", crate, target, n], capture_output=True, text=True, env={**os.environ, "FULL": "1"}).stdout
        table = {l.split(" .")[-1].strip(): l.strip() for l in o.split("\n")[1:] if l.strip()}
        if "args" in table: table["pre"] = table["args"][:-5] + ".pre"
        def sub(m):
            if m.group(1) not in table: print("no path to", m.group(1), "at", need, file=sys.stderr); return m.group(0)
            return table[m.group(1)]
        answers[need] = [re.sub(r"@([\w-]+)", sub, l) for l in a]
out, i = [], 0
while i < len(src):
    l = src[i]
    name = l.split()[0] if l.strip() and not l.startswith((" ", "-", "use", "abbrev", "pub")) else None  # (its signature has pub in Answers.antt)
    if name in answers and re.match(re.escape(name) + r"( \S+)* =", l):
        if name in unf:
            if out[-1].startswith("unfolding"): out.pop()
            out.append(unf[name])
        out += answers.pop(name); i += 1
        while i < len(src) and src[i].startswith("    "): i += 1
        continue
    out.append(l); i += 1
if answers: print("NOT FOUND:", list(answers), file=sys.stderr)
last = max(i for i, l in enumerate(out) if l.startswith("use "))
have = set(out)
out[last+1:last+1] = [u for u in uses if u not in have]
if block:
    last = max(i for i, l in enumerate(out) if l.startswith("use "))
    out[last+1:last+1] = [""] + block
open(path, "w").write("\n".join(out))
