#!/usr/bin/env python3
"""Turns proofs of the form that the kit had up to rattle-kit-5b into the form of rattle-kit-13f: each proofs/F/Proof.antt of a crate,
which names every goal and hands the answers to `tie.spec`, becomes Invariants.antt and Answers.antt.

usage: rt check --generated NAMES --old-names      in the crate: NAMES/names.json says what each goal and step was called
       turn_proofs.py NAMES/names.json CRATE [F..]  CRATE is the crate's folder; F a function, as slices.copy_in

What the tactics find is left out. A file that is turned becomes Proof.antt.txt, to look things up in: it goes once the crate is
proved. Lines `note:` say what is left to do by hand.

What had landed was turned with an earlier form of this script, and then by hand: of the 175 functions of the 15 crates whose first run was
kept, 131 proved at once. This form has the mends that those runs led to. It was run once, on the crate `group`, and what it wrote
then was not checked.
"""
import json, os, re, shutil, sys
NAMES = json.load(open(sys.argv[1]))
CR = os.path.abspath(sys.argv[2])
crate = os.path.basename(CR)
only = sys.argv[3:]
WORD = r"[^\W\d][\w'₀-₉-]*"
norm = lambda s: s.replace('_','-')
PRE = ['overflow-','nonzero-','slice-bounds-','slice-','']
notes=[]
def decls(text):
    lines=text.split('\n'); head=[]; ds=[]; cur=None; comm=[]
    i=0
    for l in lines:
        if l.startswith('use ') :
            head.append(l); continue
        if cur is None and not ds and l.startswith('--') and not any(h.startswith('use ') for h in head):
            head.append(l); continue
        if l.startswith('--'):
            if cur: ds.append(cur); cur=None
            comm.append(l); continue
        if re.match(r"^(pub |abbrev |unfoldable )*("+WORD+r"|◌\S*)\s*:\s", l) or re.match(r"^(module|pub record|record|data|pub data|ruleset|pub ruleset)(\s|$)",l):
            if cur: ds.append(cur)
            cur=comm+[l]; comm=[]
            continue
        if cur is not None: cur.append(l)
        elif l.strip(): comm.append(l)
    if cur: ds.append(cur)
    return head, ds
def key_of(need, J):
    x=norm(need)
    table={norm(o):n for o,n in J['needs']}
    for p in PRE:
        if x.startswith(p) and x[len(p):] in table: return table[x[len(p):]]
    # any suffix
    c=[n for o,n in table.items() if x.endswith('-'+o) or x==o]
    return c[0] if len(c)==1 else None
def settled(need,J):
    return False
def steps(J):
    m={}
    for p in J['places']:
        old,new=p[2]
        if old: m.setdefault(norm(old),new)
    arms={}
    for a in J['arms']:
        if a:
            for e in a[2]:
                if len(e)==3 and e[1] and e[2] : arms[(norm(e[1]),tuple(e[2]))]=(a[0],e[0])
    return m,arms
def turn_paths(body, J, fn):
    m,arms=steps(J)
    alias={'c':''}
    # aliases of pure befores
    def split(path): return path.split('.')
    def conv(path):
        parts=path.split('.')
        root=parts[0]; rest=parts[1:]
        pre=alias.get(root)
        if pre is None: return None
        rest=[r for r in rest]
        k=0
        while k<len(rest) and rest[k]=='before': k+=1
        rest=rest[k:]
        if pre: return None
        if not rest: return 'c'
        s=norm(rest[0])
        if s not in m and s.endswith('-lem'): s=s[:-4]
        if s not in m and s.lower() in m: s=s.lower()
        for n in (2,1,3):
            key=(s,tuple(rest[1:1+n]))
            if key in arms:
                a,f=arms[key]
                return '.'.join(['c',a,f]+rest[1+n:])
        if s in ('args','requires','ranges'): return '.'.join(['c']+rest)
        if s in m:
            return '.'.join(['c',m[s]]+rest[1:])
        notes.append(f"{fn}: step {rest[0]} unknown in {path}")
        return '.'.join(['c']+rest)
    changed=True
    while changed:
        changed=False
        mm=re.search(r"let ("+WORD+r") = ("+WORD+r"(?:\.[\w'-]+)*) in\s*", body)
        pos=0
        while mm:
            v,p=mm.group(1),mm.group(2)
            root=p.split('.')[0]
            if root in alias and all(x=='before' for x in p.split('.')[1:]):
                body=body[:mm.start()]+body[mm.end():]
                if v!='c':
                    alias[v]=''
                changed=True
                break
            pos=mm.end()
            mm=re.compile(r"let ("+WORD+r") = ("+WORD+r"(?:\.[\w'-]+)*) in\s*").search(body,pos)
    def sub(mo):
        r=conv(mo.group(0))
        return r if r is not None else mo.group(0)
    names='|'.join(sorted(map(re.escape,alias),key=len,reverse=True))
    return re.sub(r"(?<![\w'.-])(?:"+names+r")(?:\.[\w'-]+)*(?![\w'-])", sub, body)
def main():
    for d,dirs,fs in os.walk(os.path.join(CR,'proofs')):
        dirs[:]=[x for x in dirs if x!='out']
        if 'Proof.antt' not in fs: continue
        F=os.path.relpath(d,os.path.join(CR,'proofs')).replace('/','.')
        if only and F not in only: continue
        k=f"Rattle-{crate}-proofs.{F}.Lts"
        J=NAMES.get(k)
        if J is None:
            print('no names for',F); continue
        text=open(os.path.join(d,'Proof.antt')).read()
        head,ds=decls(text)
        uses=[h for h in head if h.startswith('use ') and not re.search(r"\.(Statement|Tie)\b",h)]
        comment=[h for h in head if not h.startswith('use ')]
        tie=f"Rattle.{crate}.proofs.{F}"
        inv=[]; ans=[]; helpers=[]
        loops={norm(l[0][0]):(l[0][1],l[1]) for l in J['loops']}
        for i,l in enumerate(J['loops']): pass
        for dcl in ds:
            cm=[x for x in dcl if x.startswith('--')]
            code=[x for x in dcl if not x.startswith('--')]
            while code and not code[-1].strip(): code.pop()
            sig=code[0]
            m=re.match(r"^(?:pub |abbrev |unfoldable )*("+WORD+r")\s*:\s*(.*)$",sig)
            if not m: helpers.append(cm+code); continue
            name,ty=m.groups()
            if re.search(r"→ statement M|statement M",' '.join(code)) and name.replace('-','_').endswith('_spec'): continue
            mm=re.match(r"tie\.(invariant|decreases)-(\S+)$",ty.strip())
            if mm:
                kind,lp=mm.groups()
                if norm(lp) not in loops:
                    # recursion measure
                    notes.append(f"{F}: {kind}-{lp}: no loop of that name: {list(loops)}"); inv.append(cm+code); continue
                new,vars_=loops[norm(lp)]
                idx=[norm(l[0][0]) for l in J['loops']].index(norm(lp))
                chg=J['changed'][idx]
                bodyl='\n'.join(code[1:])
                eq=re.match(r"((?:unfolding[^\n]*\n)?)"+re.escape(name)+r"((?:\s+[^\s=]+)*)\s*=\s*",bodyl)
                params=eq.group(2).split()
                body=bodyl[eq.end():]
                env={}
                first=[]; 
                for v,ch in zip(vars_,chg): first.append('l.initial.'+v if ch else 'l.'+v)
                second=['l.'+v for v,ch in zip(vars_,chg) if ch]
                targets=first+second
                if len(targets)!=len(params): notes.append(f"{F}: params of {name}: {params} vs {targets}")
                for p,t in zip(params,targets): env[p]=t
                body=re.sub(r"(?<![\w'.-])"+r"("+WORD+r"(?:₀)?)"+r"(?![\w'-])",lambda q: env.get(q.group(1),q.group(1)),body)
                inv.append(cm+[f"abbrev pub {kind}-{new} : goal.{kind}-{new}"]+([eq.group(1).strip()] if eq.group(1).strip() else [])+[f"{kind}-{new} l = {body}"])
                continue
            mm=re.match(r"tie\.Need-(\S+)",ty.strip())
            if mm:
                need=mm.group(1)
                new=key_of(need,J)
                if new is None:
                    cs=[x for x in J.get('settled',[]) if norm(x)==norm(need)]
                    if len(cs)==1: new=cs[0]
                bodyl='\n'.join(code[1:])
                eq=re.match(r"((?:\s*unfolding[^\n]*\n)?)"+re.escape(name)+r"((?:\s+[^\s=]+)*)\s*=\s*",bodyl)
                if not eq: notes.append(f"{F}: cannot read {name}"); continue
                body=bodyl[eq.end():]
                plain=' '.join(body.split())
                if plain in ('search rules','omega arith','refl','tt','cc') and not eq.group(1).strip(): continue
                if new is None:
                    if not re.search(r'enum-known|enum-told|same-length|slice-aggregate|unsize|known',norm(need)): notes.append(f"{F}: no goal for {need}: {plain[:60]}")
                    continue
                body=turn_paths(body,J,F+'.'+new)
                body=re.sub(r'not-(?:true|false)\s+(?:_|c\.[\w-]+\.result)\s+(c\.if-not-[\w-]+\.(?:true|false))',r'\1',body)
                body=re.sub(r'(c\.wrapping_[\w-]+\.ensures)(?!\.)',r'\1.value',body)
                unf=eq.group(1).strip()
                ans.append(cm+[f"pub {new} : goal.{new}"]+([unf] if unf else [])+[f"{new} c = {body}" if '\n' not in body else f"{new} c =\n    {body}"])
                continue
            # helper
            t='\n'.join(code)
            if 'tie.' in t: notes.append(f"{F}: helper {name} cites tie")
            helpers.append(cm+[turn_paths(x,J,F+'.'+name) if ' c.' in x or '(c.' in x else x for x in code])
        shutil.move(os.path.join(d,'Proof.antt'),os.path.join(d,'Proof.antt.txt'))
        if inv:
            open(os.path.join(d,'Invariants.antt'),'w').write('\n'.join(comment+uses+[f"use {tie}.Given as goal",''])+'\n'+'\n\n'.join('\n'.join(x) for x in inv)+'\n')
        if ans or helpers:
            open(os.path.join(d,'Answers.antt'),'w').write('\n'.join(comment+uses+[f"use {tie}.Goals as goal",''])+'\n'+'\n\n'.join('\n'.join(x) for x in helpers+ans)+'\n')
        if not os.listdir(d): os.rmdir(d)
    for n in notes: print('note:',n)
main()
