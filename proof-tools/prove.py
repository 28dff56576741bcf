#!/usr/bin/env python3
# prove.py CRATE FILE: FILE has blocks '== fn' with fill answers; lines 'CHAIN unfold..' start a chain of tests. Generates once, fills all; imports from names.
import sys, re, subprocess, os
crate, f = sys.argv[1], sys.argv[2]
if not os.environ.get("KEEP"):
    subprocess.run(["proof-tools/seeds.sh", crate], capture_output=True)
env = {**os.environ, "KEEP": "1"}
IMP = {}
def add(mod, names):
    for n in names.split(): IMP[n] = mod
add("mathlib.Core.Path", "◌≡◌ refl sym ap ap₂ ◌∙◌ subst")
add("mathlib.Core.Bool", "Bool true false not true≢false")
add("mathlib.Core.List", "List [] ◌∷◌")
add("mathlib.Core.Logic", "⊎-elim")
add("Prim.Native.Nat", "ℕ suc zero ◌+◌ ◌*◌ ◌-◌ ◌≤◌ ◌<◌")
add("native.Mathlib.Omega", "arith")
add("borrow.Author.Rules", "rules")
add("borrow.Author.Tests", "ne_eqb eq-eqb lt-ltb le-ltb eqb-true eqb-false ltb-true ltb-false leb-true leb-false")
add("lib.ListN", "length get_or set length-set")
import glob
# the definitions first, then the crate's own specs, then those of the others
FIRST = ["crates/spec_tests/specs/Rules.antt", "crates/spec_tests/specs/Laws.antt", "crates/spec_rules/specs/Image.antt", "crates/spec_rules/specs/Checks.antt"]
others = [q for q in sorted(glob.glob("crates/*/specs/*.antt"), key=lambda q: q.split("/")[1] != crate) if not q.split("/")[1].startswith("spec_")]
for path in FIRST + others:
    c, m = path.split("/")[1], path.split("/")[-1][:-5]
    mod = f"Rattle.{c}.specs.{m}"
    for n in re.findall(r"^(?:unfoldable |abbrev )?pub (?:record |data )?(\S+)", open(path).read(), re.M):
        if n != "mod": IMP.setdefault(n, mod)
def chain(unf, tests):
    yes, no, tail = [], [], None
    for i, t in enumerate(tests):
        n = i + 1
        k, _, rest = t.partition(" ")
        if k == "call": e = f"sym (@{rest} .ensures) ∙ @if{n}"; yes.append(e + " .taken"); no.append(e + " .left")
        elif k == "with":
            a, b = rest.split(); e = f"sym (rw (@{a} .ensures) at (@{b} .ensures)) ∙ @if{n}"; yes.append(e + " .taken"); no.append(e + " .left")
        elif k == "ne": yes.append(f"ne_yes _ _ (λ e. @if{n} .taken (@{rest} .ensures ∙ e))"); no.append(f"ne_no _ _ (sym (@{rest} .ensures) ∙ @if{n} .left)")
        elif k == "neq": yes.append(f"ne_yes _ _ (@if{n} .taken)"); no.append(f"ne_no _ _ (@if{n} .left)")
        elif k == "eq": yes.append(f"eq_yes _ _ (@if{n} .taken)"); no.append(f"eq_no _ _ (@if{n} .left)")
        elif k == "ltf": yes.append(f"lt_yes _ _ (rw (@{rest} .ensures) at (@if{n} .taken))"); no.append(f"lt_no _ _ (rw (@{rest} .ensures) at (@if{n} .left))")
        elif k == "lt": yes.append(f"lt_yes _ _ (@if{n} .taken)"); no.append(f"lt_no _ _ (@if{n} .left)")
        elif k == "ltc": yes.append(f"lt_yes _ _ (omega arith)"); no.append(f"lt_no _ _ (omega arith)")
        elif k == "raw":
            a, b = rest.split("|||"); yes.append(a.strip().replace("@if ", f"@if{n} ")); no.append(b.strip().replace("@if ", f"@if{n} "))
        elif k == "tail": tail = rest
    out = []
    for i in range(len(yes) + 1):
        nm = "returns" if i == 0 else f"returns-{i+1}"
        t = f"or_hit _ ({yes[i]})" if i < len(yes) else tail
        if not i: out += [f"UNFOLD {nm}: {unf}", f"{nm} c = {t}"]
        else: out += [f"UNFOLD {nm}: {unf}", f"{nm} c ="] + [f"    {'(' if j else ''}or_skip ({e})" for j, e in enumerate(no[:i])] + [f"    ({t}" + ")" * i]
    return out
blocks, cur = [], None
for l in open(f).read().split("\n"):
    if l.startswith("== "): cur = (l[3:].strip(), []); blocks.append(cur)
    elif cur is not None: cur[1].append(l)
for fn, ls in blocks:
    path = next((p for p in (f"crates/{crate}/proofs/{fn}/{n}.antt" for n in ("Answers", "Proof")) if os.path.exists(p)), "")
    if not path: print("no proof file of", fn); continue
    ans, i = [], 0
    while i < len(ls):
        if ls[i].startswith("CHAIN"):
            unf = ls[i][5:].strip(); ts = []; i += 1
            while i < len(ls) and ls[i].strip(): ts.append(ls[i].strip()); i += 1
            ans += chain(unf, ts)
        else: ans.append(ls[i]); i += 1
    p = subprocess.run(["python3", "proof-tools/fill.py", crate, fn], input="\n".join(ans), text=True, capture_output=True, env=env)
    if p.stdout or p.stderr: print(fn, p.stdout, p.stderr)
    # imports
    src = open(path).read().split("\n")
    own = [l for l in src if l.startswith("use ") and (".Statement." in l or " as " in l)]
    body = [l for l in src if not l.startswith("use ") and not l.startswith("-- src/")]
    while body and not body[0].strip(): body.pop(0)
    if not body[0].startswith("-- `"): body.insert(0, f"-- `{crate}::{fn}` meets its contract. Assumes nothing.\n")
    text = "\n".join(l for l in body if not l.startswith("-- `"))
    words = set(re.findall(r"[^\s(),{};]+", text))
    mods = {}
    for n, m in IMP.items():
        hit = False
        if n.startswith("◌") and n.endswith("◌") and len(n) > 2: hit = n in words or n.strip("◌") in words
        else: hit = n in words
        if hit: mods.setdefault(m, []).append(n)
    uses = [f"use {m}." + "{" + ", ".join(ns) + "}" for m, ns in mods.items()]
    head = body[0].rstrip("\n")
    rest = "\n".join(body[1:]).lstrip("\n")
    if not os.environ.get("LONG"): own = [l for l in own if not re.search(r"Reads as|Lts as", l)]
    open(path, "w").write(head + "\n" + "\n".join(own + uses) + "\n\n" + re.sub(r"\n{3,}", "\n\n", rest).rstrip("\n") + "\n")
