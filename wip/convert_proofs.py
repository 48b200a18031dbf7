#!/usr/bin/env python3
"""Turns proofs/F/Proof.antt of the older Rattle (tie.close) into Invariants.antt and Answers.antt: most then check, the rest is mended by hand.

usage: cd crates/NAME && rt check --generated NAMES --old-names --allow-holes; wip/convert_proofs.py . NAMES/names.json [F..]

For the proofs in j.patch and room.patch, once port.py and tools/respell.py have run over them. It goes by text, and prints what it could not place.
"""
import json,os,re,sys,subprocess
crate,names=sys.argv[1],sys.argv[2]
only=set(sys.argv[3:])
J=json.load(open(names))
name=os.path.basename(os.path.abspath(crate))
W=r"[^\s(){}\[\],.;:\"`|λ]+"
plain=lambda s:s.replace('_','-')
srcwords=set()
for f in os.listdir(crate+'/src'):
    srcwords|=set(re.findall(r"[A-Za-z_][A-Za-z0-9_]*",open(f'{crate}/src/{f}').read()))
under={plain(w):w for w in srcwords if '_' in w}

def decls(text):
    """Top-level groups: lists of lines that begin at column 0."""
    out=[];cur=[]
    for l in text.split('\n'):
        if l.strip()=='' :
            if cur: out.append(cur); cur=[]
            continue
        cur.append(l)
    if cur: out.append(cur)
    # merge blocks that start with an indented line into the previous
    m=[]
    for b in out:
        if m and b[0][0] in ' ': m[-1]+=['']+b
        else: m.append(b)
    # a block whose head is 'module' keeps going through its indented lines
    return m

def stepmap(of):
    m={}
    amb={}
    for old,parent,(a,b),callee,_ in [(p[0],p[1],p[2],p[3],p[4]) for p in of['places']]:
        if not a: continue
        k=plain(a)
        amb.setdefault(k,[]).append(b)
    for k,v in amb.items():
        m[k]=v[0]
    return m,{k:v for k,v in amb.items() if len(set(v))>1}

PLACES=set()
KEEP=False
DEPTH=0
def place(n):
    PLACES.add(n)
    return n

def conv_names(s,of,smap,extra=frozenset()):
    s0=s
    # drop `.before` chains
    s=re.sub(r"(?<=[\w₀-₉'])(?:\.before)+\b(?=\.)",'',s)
    s=re.sub(r"(?<=[\w₀-₉'])(?:\.before)+\b(?![-.])",'.before'*DEPTH if KEEP else '',s)
    argvars=set(re.findall(r"let ("+W+r") = "+W+r"(?:\."+W+r")*\.(?:args|new|initial|fn|loop[\w-]*) in",s0))|extra
    arms={}
    for p,a in zip(of['places'],of['arms']):
        if a:
            for f,o,path in a[2]:
                if path: arms.setdefault((plain(o),plain(path[-1])),[]).append((a[0],f))
    named={}
    variants=[]
    for p0,a in zip(of['places'],of['arms']):
        if a:
            if re.match(r'in-(?!default)',a[0]): variants.append(a[0][3:])
            for f,o,path in a[2]:
                if path: named.setdefault((plain(o),'.'.join(path)),set()).add((a[0],f))
    for (o,path),v in named.items():
        if len(v)==1:
            arm,f=next(iter(v))
            s=re.sub(r"(?<=\.)"+re.sub('[-_]','[-_]',re.escape(o).replace('\\-','-'))+r"\."+re.escape(path)+r"(?![\w'-])",lambda _:arm+'.'+f,s)
    vs=sorted(set(variants))
    if len(vs)==1 and any(a and a[0]=='in_default' for a in of['arms']):
        s=re.sub(r"\.match\.keys\d+",'.in_default.not-'+vs[0],s)
    for (o,q),v in arms.items():
        if len(set(v))==1:
            s=re.sub(r"\."+re.escape(o)+r"\."+re.escape(q)+r"(?![\w'-])",lambda _:'.'+v[0][0]+'.'+v[0][1],s)
    ctx={'c'}|set(re.findall(r"let ("+W+r") = c(?:\.before)* in",s0))|set(re.findall(r"\(("+W+r") : tie\.",s0))|set(re.findall(r"("+W+r") : tie\.",s0))
    def seg(mo):
        w=mo.group(1)
        k=plain(w)
        prev=mo.string[:mo.start()]
        # previous segment
        pm=re.search(r"("+W+r")$",prev)
        p=pm.group(1) if pm else ''
        nested=bool(pm) and pm.start()>0 and prev[pm.start()-1]=='.'
        # position: segment directly after a variable (c, s, ..) is a step
        if p in ('args','new','initial','fn','old','ranges','auto') or p.startswith('loop') or p in argvars:
            if k in under: return '.'+under[k]
            return mo.group(0)
        if nested or (p and p not in ctx and smap.get(k,'').rstrip('0123456789').endswith('-')):
            if k in under and w not in antt_fields: return '.'+under[k]
            return mo.group(0)
        if k in smap: return '.'+smap[k]
        if k.lower() in smap and not p: return '.'+smap[k.lower()]
        if k.lower() in smap and k!=k.lower() : return '.'+smap[k.lower()]
        # field of a step's
        if k in under and w not in antt_fields: return '.'+under[k]
        return mo.group(0)
    s=re.sub(r"\.("+W+r")",seg,s)
    s=re.sub(r"ap not \(sym ("+W+r"(?:\."+W+r")*)\) ∙ ("+W+r"\.if-not-"+W+r"\.(?:true|false))",r"ap not (sym \1 ∙ \2)",s)
    s=re.sub(r"\((?:not_[tf]|not-true|not-false) _ ("+W+r"\.if-not-"+W+r"\.(?:true|false))\)",r"\1",s)
    for p,cl in zip(of['places'],of['clauses']):
        if cl and cl.get('fields') and len(cl['fields'])==1:
            s=re.sub(r"\."+re.escape(p[2][1])+r"\.ensures(?![\w.-])",lambda _:'.'+p[2][1]+'.ensures.'+cl['fields'][0],s)
    for p0 in of['places']:
        ps=of['params'].get(p0[3]) if p0[3] else None
        if ps:
            def field(m,ps=ps):
                n=m.group(2).count('.1')
                return m.group(1)+'.'+ps[n] if n<len(ps) else m.group(0)
            s=re.sub(r"(\."+re.escape(p0[2][1])+r"\.(?:new|auto))((?:\.1)*)\.0(?![\w'-])",field,s)
    for a in ('well-formed','type-inv','yielded-by','len-below'):
        s=re.sub(r"(?<=\.)"+a+r"(?![\w-])",a.replace('-','_'),s)
    pl={}
    for p,q in zip(of['places'],of['places_by_name']): pl.setdefault(plain(p[0]),q)
    s=re.sub(r"(?<![\w.'-])tie\.("+W+r")",lambda m:place(pl.get(plain(m.group(1)),m.group(1))),s)
    return s

antt_fields=set()
for d,_,fs in os.walk('crates' if os.path.isdir('crates') else os.path.join(crate,'..')):
    if '/out' in d: continue
    for f in fs:
        if f.endswith('.antt'):
            for m in re.finditer(r"^\s+(?:pub )?("+W+r")\s*:(?!=)",open(os.path.join(d,f)).read(),re.M):
                antt_fields.add(m.group(1))

SRC='\n'.join(open(f'{crate}/src/{f}').read() for f in sorted(os.listdir(crate+'/src')))
def params_of(path):
    fn=path.split('.')[-1]
    m=re.search(r"\bfn "+re.escape(fn)+r"(?:<[^>]*>)?\(([^)]*)\)",SRC)
    if not m: return []
    return [re.sub(r"^(&?mut |&)*","",a.strip().split(':')[0].strip()) for a in m.group(1).split(',') if a.strip()]

def convert(path,of):
    d=f"{crate}/proofs/{path.replace('.','/')}"
    p=d+'/Proof.antt'
    if not os.path.exists(p): return
    t=open(p).read()
    if 'tie.close' not in t: print('by hand:',p); return
    global KEEP,DEPTH
    kp=re.findall(r'tie\.((?:Start|After|In|At|Then|Else)\S*?)(?=[\s)])',t)
    KEEP=bool(kp)
    parent={}
    for p0 in of['places']: parent.setdefault(p0[0],p0[1])
    def depth(place):
        n=1
        target=plain(kp[0])
        while place is not None and plain(place)!=target:
            n+=1; place=parent.get(place)
        return n if place is not None else 0
    at_of={}
    for (a0,b0),(po,pn) in zip(of['needs'],of['asked_at']): at_of.setdefault(b0,po)
    smap,amb=stepmap(of)
    needs={plain(a):b for a,b in of['needs']}
    for a,b in of['needs']:
        needs.setdefault(plain(b),b)
        for pre in ('overflow','nonzero','slice-bounds','bounds','offset-bounds'):
            needs.setdefault(pre+'-'+plain(a),b)
    head=[];uses=[];body=[]
    for b in decls(t):
        rest=[]
        for l in b:
            if l.startswith('use '): uses.append(l)
            elif l.startswith('--') and not body: head.append(l)
            else: rest.append(l)
        if rest: body.append(rest)
    amap={}
    for a,b in of['args']:
        amap[plain(a.split()[-1])]=b.split()[-1]
    if amap:
        body=[re.sub(r"\.("+W+r")",lambda m: amap.get('.'+plain(m.group(1)),m.group(0)),'\n'.join(b)).split('\n') for b in body]
    uses=[u for u in uses if not re.search(r"\.(Statement|Tie|Met|Reads|Kinds|Code)\b",u)]
    lts=[u for u in uses if re.search(r"\.Lts\b",u)]
    answers=[];inv=[];ren={}
    olds=[]
    for b in body:
        m=re.search(r"^(?:abbrev )?(?:pub )?("+W+r") : tie\.Need[-.](\S+)",'\n'.join(b))
        if m: olds.append((m.group(1),plain(m.group(2))))
    newlist=[b0 for a0,b0 in of['needs']]
    hit=[needs.get(o) for n0,o in olds]
    seen=set()
    for i,h in enumerate(hit):
        if h in seen: hit[i]=None
        seen.add(h)
    i=0
    while i<len(hit):
        if hit[i] is None:
            j=i
            while j<len(hit) and hit[j] is None: j+=1
            lo=newlist.index(hit[i-1])+1 if i>0 else 0
            hi=newlist.index(hit[j]) if j<len(hit) else len(newlist)
            free=[x for x in newlist[lo:hi] if x not in hit]
            if len(free)==j-i: hit[i:j]=free
            i=j
        else: i+=1
    found={n0:h for (n0,o),h in zip(olds,hit) if h}
    hasinv=False
    for b in body:
        j='\n'.join(b)
        sig=re.match(r"(abbrev )?(pub )?("+W+r") : (.*)",j)
        if re.search(r"tie\.close",j): continue
        m=re.search(r"^(?:abbrev )?(?:pub )?("+W+r") : tie\.Need[-.](\S+)",j)
        if m:
            old=plain(m.group(2))
            new=found.get(m.group(1))
            if new is None:
                print(f'{path}: no goal for {old}'); new=m.group(2)
            ren[m.group(1)]=new
            answers.append((new,m.group(1),b)); continue
        m=re.search(r"^(?:abbrev )?(?:pub )?("+W+r") : tie\.((?:invariant|decreases)\S*)",j)
        if m:
            inv.append((m.group(2),m.group(1),b)); continue
        answers.append((None,None,b))
    PLACES.clear()
    out=list(head)
    out+=uses+['@PLACES@']+[f"use Rattle.{name}.proofs.{path}.Goals as goal",'']
    for new,nm,b in answers:
        if new is None:
            out+=conv_names('\n'.join(b),of,smap).split('\n')+['']; continue
        lines=[]
        sigdone=False
        skip=False
        for l in b:
            if not sigdone and re.match(r"(abbrev )?(pub )?"+re.escape(nm)+r" :",l):
                lines.append(f"pub {new} : goal.{new}"); sigdone=True; skip=True; continue
            if skip and l.startswith(' ') : continue   # rest of the signature
            skip=False
            l=re.sub(r"^"+re.escape(nm)+r"(?= )",lambda _:new,l)
            l=re.sub(r"^("+re.escape(new)+r" c) κs\b",r"\1",l)
            lines.append(l)
        if KEEP: DEPTH=depth(at_of.get(new))
        lines=lines[:1]+conv_names('\n'.join(lines[1:]),of,smap).split('\n')
        # other answers cited
        for a,bn in ren.items():
            if a!=bn:
                lines=[lines[0]]+[re.sub(r"(?<![\w.'-])"+re.escape(a)+r"(?![\w'-])",lambda _:bn,l) if not l.startswith(new) else l for l in lines[1:]]
        out+=lines+['']
    text='\n'.join(out).rstrip()+'\n'
    text=text.replace('@PLACES@\n',f"use Rattle.{name}.proofs.{path}.Goals.{{{', '.join(sorted(PLACES))}}}\n" if PLACES else '')
    if inv:
        iv=[head[0] if head else '']+uses+[f"use Rattle.{name}.proofs.{path}.Given as goal",'']
        loops=of.get('loops',[])
        for tag,nm,b in inv:
            iv+=invariant(tag,nm,b,of,smap,path)+['']
        open(d+'/Invariants.antt','w').write('\n'.join(iv).rstrip()+'\n')
    open(d+'/Answers.antt','w').write(text)
    os.remove(p)
    if amb: print(f'{path}: ambiguous {amb}')
    if lts: print(f'{path}: Lts cited')

def invariant(tag,nm,b,of,smap,path):
    j='\n'.join(b)
    kind='invariant' if tag.startswith('invariant') else 'decreases'
    loops=of['loops']
    suffix=plain(tag[len(kind):].lstrip('-'))
    idx=None
    for i,lp in enumerate(loops):
        if plain(lp[0][0])==suffix: idx=i
    if idx is None:
        print(path,'no loop for',tag,[lp[0] for lp in loops]); idx=0
    (o,n),vs=loops[idx][0],loops[idx][1]
    ch=of['changed'][idx]
    new=f"{kind}-{n}"
    m=re.search(r"^"+re.escape(nm)+r"((?: \S+)*) =",j,re.M)
    params=m.group(1).split()
    want=['l.initial.'+v if c else 'l.'+v for v,c in zip(vs,ch)]+['l.'+v for v,c in zip(vs,ch) if c]
    if len(want)!=len(params): print(path,'PARAMS',params,'for',want)
    sub=dict(zip(params,want))
    head=[l for l in b if l.startswith('unfolding')]
    body=conv_names(j[m.end():],of,smap)
    binders=set()
    for mm in re.finditer(r"λ ([^.]*)\.",body): binders|=set(mm.group(1).split())
    for mm in re.finditer(r"\(([^():]+) :",body): binders|=set(mm.group(1).split())
    lets=[p for p in params if p in binders and p in sub]
    for p in params:
        if p in lets: continue
        body=re.sub(r"(?<![\w.'₀-₉-])"+re.escape(p)+r"(?![\w'₀-₉-])",lambda _:sub.get(p,p),body)
    if lets:
        body='\n    '+'\n    '.join(f"let {p} = {sub[p]} in" for p in lets)+body
    return [f"abbrev pub {new} : goal.{new}"]+head+[f"{new} l ="+body]

for key,of in J.items():
    m=re.match(r"Rattle-"+name+r"-proofs\.(.*)\.Lts$",key)
    if not m: continue
    path=m.group(1)
    if only and path not in only: continue
    convert(path,of)
