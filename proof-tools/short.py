#!/usr/bin/env python3
# short.py CRATE..: in an answer without omega, cc, search, paths of 4 and more '.before's go by lets c4, c8, ..
import sys, re, glob
B = " .before"
for crate in sys.argv[1:]:
    for f in glob.glob(f"crates/{crate}/proofs/*/Proof.antt"):
        L = open(f).read().split("\n"); out = []; i = 0
        while i < len(L):
            m = re.match(r"(\S+) c( κs)? =(.*)$", L[i])
            if not m: out.append(L[i]); i += 1; continue
            j = i + 1
            while j < len(L) and L[j].startswith("    "): j += 1
            body = L[i:j]; text = "\n".join(body)
            depths = [p.count(".before") for p in re.findall(r"\bc((?: \.before)+)", text)]
            if not depths or max(depths) < 6 or re.search(r"\b(omega|cc|search|let)\b", text): out += body; i = j; continue
            used = set()
            def sub(m):
                n = m.group(1).count(".before")
                if n < 4: return m.group(0)
                k = n // 4 * 4; used.add(k)
                return f"c{k}" + B * (n - k)
            term = ([body[0].split(" =", 1)[1].strip()] if body[0].split(" =", 1)[1].strip() else []) + [l[4:] for l in body[1:]]
            term = [re.sub(r"\bc((?: \.before)+)", sub, l) for l in term]
            out.append(body[0].split(" =", 1)[0] + " =")
            prev = "c"
            for k in range(4, max(used) + 1, 4):
                out.append(f"    let c{k} = {prev}" + B * 4 + " in"); prev = f"c{k}"
            out += ["    " + l for l in term]; i = j
        open(f, "w").write("\n".join(out))
