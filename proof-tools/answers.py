#!/usr/bin/env python3
# answers.py CRATE FILE: writes proofs/FN/Answers.antt, for many functions at once, from short answers. FILE has blocks '== fn': lines 'import use
# ..', then 'goal: answer' (an answer may go on in indented lines); an answer names what is given at its goal by c.NAME. A goal without an answer is
# left to the check's tactics. The goals are those of seeds.sh, which must be up to date; `rt check --fix-imports` writes further imports.
import sys, re, os
crate, f = sys.argv[1], sys.argv[2]
blocks = re.split(r"^== ", open(f).read(), flags=re.M)[1:]
for b in blocks:
    lines = b.split("\n")
    fn = lines[0].strip()
    imports, answers, cur = [], {}, None
    for l in lines[1:]:
        if l.startswith("import "): imports.append(l[7:]); cur = None
        elif re.match(r"^[A-Za-z][^ :]*: ?", l):
            cur, rest = l.split(":", 1); answers[cur] = rest.strip()
        elif l.startswith("    ") and cur: answers[cur] += "\n" + l
        elif not l.strip(): cur = None
        else: print("?", l)
    seed = f"{os.getcwd()}.generated/{crate}/Rattle-{crate}-proofs/{fn}/AnswersOffered.antt"
    if not os.path.exists(seed):
        print("no goals", seed); continue
    out = [f"-- `{crate}::{fn}` meets its contract. Assumes nothing.", *imports, f"use Rattle.{crate}.proofs.{fn}.Goals as goal", ""]
    for n, t, given in re.findall(r"^pub (\S+) : (\S+)\n\1 (.*?) = ", open(seed).read(), re.M):
        if n in answers:
            out += [f"pub {n} : {t}", f"{n} {given} = {answers.pop(n)}", ""]
    for a in answers: print(fn, "has no goal", a)
    path = f"crates/{crate}/proofs/{fn}/Answers.antt"
    os.makedirs(os.path.dirname(path), exist_ok=True)
    open(path, "w").write("\n".join(out))
