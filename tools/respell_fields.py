#!/usr/bin/env python3
"""Brings fields and definitions of specs/ that are named with a dash to snake case, as today's Rattle spells a label; lemmas keep their dashes.

usage: respell_fields.py [--do]   at the top. A name that would fall together with another of its file is left, and printed.
"""
import re,glob,os,sys
W=r"[a-z0-9_]+(?:-[a-z0-9_]+)+"
bare=lambda n:r"(?<![\w'.-])"+re.escape(n)+r"(?![\w'-])"
specs=glob.glob('crates/*/specs/*.antt')
names={}
for p in specs:
    s=open(p).read()
    for m in re.finditer(r"^( +pub |(?:abbrev |unfoldable |pub )*)("+W+r") :",s,re.M):
        names.setdefault(m[2],[]).append((p,'field' if m[1].startswith(' ') else 'def'))
alls={p:open(p).read() for p in glob.glob('crates/*/specs/*.antt')+glob.glob('crates/*/proofs/**/*.antt',recursive=True)}
ok={};skip=[]
for n,ps in names.items():
    new=n.replace('-','_')
    clash=[p for p,_ in ps if re.search(bare(new),re.sub(r'--.*','',alls[p]))]
    if clash: skip.append((n,clash)); continue
    ok[n]=(new,ps)
print('skip',skip)
print(len(ok))
if '--do' in sys.argv:
    for p,s in alls.items():
        o=s
        for n,(new,ps) in ok.items():
            kinds={k for _,k in ps}
            if p in [q for q,_ in ps]:
                s=re.sub(r"(?<![\w'-])"+re.escape(n)+r"(?![\w'-])",new,s)
                continue
            s=re.sub(r"(?<=\.)"+re.escape(n)+r"(?![\w'-])",new,s)
            if 'def' in kinds: s=re.sub(bare(n),new,s)
            else: s=re.sub(r"((?:^ {2,}|[{;] *))"+re.escape(n)+r"(?= =[ \n])",lambda m:m[1]+new,s,flags=re.M)
        if s!=o: open(p,'w').write(s)
    for p in glob.glob('crates/*/must-fail/*.edit'):
        s=o=open(p).read()
        if 'specs/' in s:
            for n,(new,ps) in ok.items():
                s=re.sub(r"(?<![\w'-])"+re.escape(n)+r"(?![\w'-])",new,s)
        if s!=o: open(p,'w').write(s); print('edit',p)
