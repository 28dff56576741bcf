#!/usr/bin/env python3
# names imported and not used, per antt file
import re,sys
for p in sys.argv[1:]:
    t=open(p).read()
    body='\n'.join(l for l in t.split('\n') if not l.startswith('use '))
    body=re.sub(r'--.*','',body)
    for m in re.finditer(r'^use ([^\n{]+)\.\{([^}]*)\}',t,re.M):
        for n in [x.strip() for x in m.group(2).split(',')]:
            if n in('arith',) and 'omega' in body: pass
            parts=[q for q in n.split('◌') if q]
            if '◌' in n:
                ok=all(q in body for q in parts)
            else:
                ok=re.search(r'(?<![^\s(){}\[\],;.λ])'+re.escape(n)+r'(?![^\s(){}\[\],;.])',body) is not None
            if not ok: print(p,m.group(1),n)
