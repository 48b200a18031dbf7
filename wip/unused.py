#!/usr/bin/env python3
"""unused.py TREE [--fix CRATE..]: definitions of specs/ and proofs/ that nothing refers to, by module and name; with --fix they go, and imports that are then unused."""
import os,re,sys,glob,collections
tree=sys.argv[1]; fix=set(sys.argv[3:]) if len(sys.argv)>2 and sys.argv[2]=='--fix' else None
os.chdir(tree)
PRE=r'(?:(?:abbrev|unfoldable|opaque|pub|instance|private) )*'
def strip(l):
    i=l.find('-- ')
    return l if i<0 else l[:i]
def leaves(lines,a,b,ind):
    """[(start,end,name,kind)] of a..b at an indentation; a module is (start,end,'',children)"""
    pad=' '*ind; out=[]; i=a
    def deeper(k): return lines[k].strip()=='' or lines[k].startswith(pad+' ')
    while i<b:
        i0=i
        while i<b and (lines[i].strip()=='' or lines[i].startswith(pad+'--')): i+=1
        if i>=b: break
        l=lines[i][ind:]
        k=i+1
        if re.match(r'(pub )?(ghost )?use |(pub )?mod ',l):
            while l.count('{')>'\n'.join(lines[i:k]).count('}'): k+=1
            out.append((i0,k,'#use',None)); i=k; continue
        while k<b and deeper(k): k+=1
        while k>i+1 and lines[k-1].strip()=='': k-=1
        if l.startswith('module '):
            h=i
            while not re.search(r'\bwhere\s*$',strip(lines[h]).rstrip()): h+=1
            out.append((i0,k,'#module',leaves(lines,h+1,k,ind+2)))
        else:
            m=re.match(PRE+r'(?:(record|data|enum) )?([^\s:(){}]+)(.*)',l)
            isdef=m and (m.group(1) or re.match(PRE+r'[^\s:(){}]+\s*(?:[({].*)?:(?!=)',l) and not l.startswith('unfolding') or re.match(r'(abbrev|unfoldable|pub)',l))
            # a clause of the name before, or an unfolding of it
            if out and out[-1][2] not in('#use','#module') and (l.startswith('unfolding') or (m and m.group(2)==out[-1][2]) or not isdef):
                p=out[-1]; out[-1]=(p[0],k,p[2],None)
            elif l.startswith('unfolding'): out.append((i0,k,'#free',None))
            else: out.append((i0,k,m.group(2) if isdef else '#free',None))
        i=k
    return out
def flat(bs):
    for x in bs:
        if x[3] is not None: yield from flat(x[3])
        else: yield x
def modules(bs):
    for x in bs:
        if x[3] is not None:
            yield x; yield from modules(x[3])
class F: pass
mods={}
def load(f):
    f.bs=leaves(f.lines,0,len(f.lines),0); f.leaf=list(flat(f.bs)); f.modb=list(modules(f.bs))
for p in glob.glob('crates/*/*/**/*.antt',recursive=True):
    parts=p.split('/'); crate=parts[1]; kind=parts[2]
    if kind not in('specs','proofs'): continue
    f=F(); f.path=p; f.crate=crate; f.mod=f'{crate}/{kind}/'+'.'.join(parts[3:])[:-5]
    f.lines=open(p).read().split('\n'); f.gen='Written by tools/walks' in '\n'.join(f.lines[:3]); load(f); mods[f.mod]=f
IMP=re.compile(r'(?:^|\n)(?:pub )?(?:ghost )?use Rattle·([a-z0-9_]+)(?:·(?:specs|proofs|src))?\.(specs|proofs)\.([A-Za-z0-9_.\-]+?)(?:\.\{([^}]*)\}| as ([^\s;]+)|;|\n|$)')
def imports(text):
    for m in IMP.finditer(text):
        c,k,mod,names,alias=m.groups()
        yield f'{c}/{k}/{mod}',([x.strip() for x in names.replace('\n',' ').split(',') if x.strip()] if names is not None else None),alias
def tokens(s):
    t=set(re.findall(r"[^\s(){}\[\];,.`]+",s))|set(re.findall(r"[^\s(){}\[\];,`]+",s))
    return t|{x.strip("'") for x in t}
docs='\n'.join(open(p).read() for p in glob.glob('docs/**/*.md',recursive=True))
cited=set(re.findall(r'`([^`\s]+)`',docs))
others=[(p,open(p).read()) for p in glob.glob('crates/*/src/*.rt')+glob.glob('tools/walks/told/**/*.py',recursive=True)+glob.glob('crates/*/must-fail/*.edit')]
def run():
    refs=collections.defaultdict(set)
    for f in mods.values():
        text='\n'.join(f.lines); names={}; alias={}
        for mod,ns,al in imports(text):
            if al: alias[al]=mod
            elif ns is not None:
                for x in ns:
                    y=x.split(' as '); names[y[-1].strip()]=(mod,y[0].strip())
        own=collections.defaultdict(list)
        for x in f.leaf:
            if not x[2].startswith('#'): own[x[2]].append(x[0])
        heads=set()
        covered=[False]*len(f.lines)
        for x in f.leaf:
            for q in range(x[0],x[1]): covered[q]=True
        spans=[(x[0],x[1],x[2]) for x in f.leaf if x[2]!='#use']
        rest=[strip(f.lines[q]) for q in range(len(f.lines)) if not covered[q]]
        texts=[('\n'.join(strip(l) for l in f.lines[a:b]),a,n) for a,b,n in spans]+[('\n'.join(rest),-1,'#rest')]
        for s,a,n in texts:
            tk=tokens(s)
            for t in tk:
                if t in own and t!=n: refs[(f.mod,t)].add((f.mod,a))
                if t in names: refs[names[t]].add((f.mod,a))
                if '.' in t:
                    al,r=t.split('.',1)
                    if al in alias: refs[(alias[al],r.split('.')[0])].add((f.mod,a))
            for u in own:
                if '_' in u and u!=n and all(q in tk for q in u.split('_') if q): refs[(f.mod,u)].add((f.mod,a))
            for u,v in names.items():
                if '_' in u and all(q in tk for q in u.split('_') if q): refs[v].add((f.mod,a))
    for p,text in others:
        for mod,ns,al in imports(text):
            if ns:
                for x in ns: refs[(mod,x.split(' as ')[0].strip())].add((p,''))
            if al:
                for t in re.findall(re.escape(al)+r'\.([^\s(){};,]+)',text): refs[(mod,t)].add((p,''))
        for m in re.finditer(r'Rattle·([a-z0-9_]+)(?:·(?:specs|proofs))?\.(specs|proofs)\.([A-Za-z0-9_.]+?)\.([a-zA-Z][^\s(){};,.]*)',text):
            refs[(f'{m.group(1)}/{m.group(2)}/{m.group(3)}',m.group(4))].add((p,''))
        if p.endswith('.py'):
            for m in re.finditer(r"[(,]\s*['\"](Rattle·[^'\"]+)['\"]\s*,\s*['\"]([^'\"]+)['\"]",text):
                mm=re.match(r'Rattle·([a-z0-9_]+)(?:·(?:specs|proofs))?\.(specs|proofs)\.(.+)',m.group(1))
                if mm:
                    for x in m.group(2).split(): refs[(f'{mm.group(1)}/{mm.group(2)}/{mm.group(3)}',x)].add((p,''))
    dead=[]
    for f in mods.values():
        if f.gen or f.mod.endswith('Proof') or '/declared/' in f.path or f.mod.endswith('/Lib') or f.mod.endswith('/Outcomes'): continue
        for x in f.leaf:
            n=x[2]
            if n.startswith('#') or n in cited: continue
            if not {r for r in refs[(f.mod,n)] if r!=(f.mod,x[0])}: dead.append((f,x[0],x[1],n))
        for x in f.modb:
            if not x[3]: dead.append((f,x[0],x[1],'#module'))
    return dead
def unused_imports(f):
    body='\n'.join(strip(l) for q,l in enumerate(f.lines) if not any(x[0]<=q<x[1] for x in f.leaf if x[2]=='#use'))
    tk=tokens(body); flatt=set(tk)
    for t in tk: flatt|=set(t.split('.'))
    new=[]
    for a,b,n,c in f.leaf:
        if n!='#use': continue
        k=0
        while f.lines[a+k].strip()=='' or f.lines[a+k].strip().startswith('--'): k+=1
        head=f.lines[a:a+k]; imp=' '.join(x.strip() for x in f.lines[a+k:b])
        if imp.startswith('pub'): continue
        m=re.match(r'use (\S+?)\.\{([^}]*)\}\s*$',imp); m2=re.match(r'use (\S+) as (\S+)\s*$',imp)
        if m:
            ns=[x.strip() for x in m.group(2).split(',') if x.strip()]
            def isused(x):
                y=x.split(' as ')[-1].strip()
                if y in flatt or (y=='[]' and '[]' in body): return True
                if '_' in y:
                    ps=[q for q in y.split('_') if q]
                    return bool(ps) and all(q in flatt or q in body for q in ps)
                return False
            keep=[x for x in ns if isused(x)]
            if keep!=ns: new.append((a,b,head+([f"use {m.group(1)}.{{{', '.join(keep)}}}"] if keep else [])))
        elif m2:
            if not re.search(r'(?<![\w·])'+re.escape(m2.group(2))+r'\.',body) and m2.group(2) not in flatt: new.append((a,b,head))
    for a,b,r in reversed(new): f.lines[a:b]=r
    if new: load(f)
    return bool(new)
if not fix:
    for f,a,b,n in run(): print(f.path,n,b-a)
else:
    total=0
    while True:
        d=[x for x in run() if x[0].crate in fix]
        byf=collections.defaultdict(list)
        for f,a,b,n in d: byf[f.mod].append((a,b,n)); total+=b-a; print('-',f.path,n,b-a)
        for m,bs in byf.items():
            f=mods[m]
            for a,b,n in sorted(bs,reverse=True): del f.lines[a:b]
            load(f)
        ch=False
        for f in mods.values():
            if f.crate in fix and not f.gen and unused_imports(f): ch=True
        if not d and not ch: break
    for f in mods.values():
        if f.crate in fix and not f.gen:
            new='\n'.join(f.lines)
            if new!=open(f.path).read(): open(f.path,'w').write(new)
    print('lines removed',total)
