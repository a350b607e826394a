#!/usr/bin/env python3
"""Turns each crates/NAME/proofs/F/Proof.antt that closed a tie into Invariants.antt and Answers.antt, with today's names of goals and of what is known there.

usage: answers.py NAMES CRATE..    at the top of the repository, after port.py and spelling.py; NAMES/CRATE/names.json is what
       `rattle check --generated NAMES/CRATE --old-names` wrote of the crate. It proves nothing: the check decides. A proof that walks the code is left as it is."""
import json,re,sys,os,glob
SUB='₀₁₂₃₄₅₆₇₈₉'
IDC=r"A-Za-z0-9_'\u2080-\u2089λ𝓤𝓛α-ω"
def norm(s): return s.replace('-','_')
PATH=re.compile(r"(?<![\w'.\u2080-\u2089-])([A-Za-z_][\w'\u2080-\u2089]*(?:-[A-Za-z0-9_'\u2080-\u2089]+)*)((?:\.[A-Za-z0-9_][\w'\u2080-\u2089]*(?:-[A-Za-z0-9_][\w'\u2080-\u2089]*)*)+|)")
class Conv:
    def __init__(s,crate,rel,entry,text):
        s.crate,s.rel,s.e,s.text=crate,rel,entry,text
        s.warn=[]
        s.places={p[0]:p for p in entry['places']}
        s.order=[p[0] for p in entry['places']]
        s.arms=dict(zip(s.order,entry['arms']))
        s.typed=dict(zip(s.order,entry['typed']))
        s.typed.update()
    def find_place(s,name):
        for p in s.order:
            if norm(p)==norm(name): return p
        return None
    def chain(s,place):
        out=[]
        while place is not None:
            out.append(place); place=s.places[place][1] if place in s.places else None
        return out
    def resolve(s,place,fields,goalplace):
        i=0
        ch=s.chain(goalplace)
        at=ch.index(place) if place in ch else 0
        while i<len(fields) and fields[i]=='before': i+=1
        rest=fields[i:]
        depth=min(at+i,len(ch)-1)
        if not rest: return ch[depth],None
        f=norm(rest[0])
        hits=[k for k,p in enumerate(ch) if s.places[p][2][0] and norm(s.places[p][2][0])==f]
        if not hits: hits=[k for k,p in enumerate(ch) if s.places[p][2][1] and norm(s.places[p][2][1])==f]
        if hits: depth=min(hits,key=lambda k: abs(k-depth))
        elif f in ('args','requires','ranges','lifetimes','well_formed','start'): depth=len(ch)-1
        place=ch[depth]
        p=s.places[place]
        f=rest[0]
        old,new=p[2]
        if old and (norm(f)==norm(old) or norm(f)==norm(new)):
            arm=s.arms.get(place)
            m=re.match(r'(shared_|mut_)?slice_known|^(mut_)?array_known|uint_known|known',old)
            if len(rest)>=2 and rest[1]=='given':
                for tp in (goalplace,place):
                    for var,st in s.typed.get(tp,[]):
                        if norm(st)==norm(old): return None,['c','type_inv',var]+rest[2:]
            if arm:
                step,_,lst=arm
                best=None
                for nf,ost,how in lst:
                    if norm(ost)==norm(old) and rest[1:1+len(how)]==how and (best is None or len(how)>len(best[1])):
                        best=(nf,how)
                if best and best[1]: return None,['c',step,best[0]]+rest[1+len(best[1]):]
                # fields of the step itself
                return None,['c',step]+rest[1:]
            lab=dict((norm(a),b) for a,b in p[4])
            tail=rest[1:]
            if tail and norm(tail[0]) in lab: tail=[lab[norm(tail[0])]]+tail[1:]
            return None,['c',new]+tail
        return None,['c']+rest
    def body(s,text,goalplace,var='c'):
        alias={var:goalplace}
        out=[];pos=0
        letre=re.compile(r"let ([\w'\u2080-\u2089]+)(?: : tie\.[\w'-]+)? = ([A-Za-z_][\w'\u2080-\u2089]*(?:\.before)*) in")
        while True:
            m=PATH.search(text,pos)
            if not m: out.append(text[pos:]);break
            # a let that names a place
            ml=None
            if m.group(1)=='let' and not m.group(2):
                ml=letre.match(text,m.start())
                if ml:
                    head=ml.group(2).split('.')
                    if head[0] in alias:
                        pl,r=s.resolve(alias[head[0]],head[1:],goalplace)
                        if r is None and pl:
                            out.append(text[pos:m.start()])
                            alias[ml.group(1)]=pl
                            pos=ml.end()
                            # drop the blank after it
                            mm=re.compile(r'[ ]*\n?[ ]*').match(text,pos)
                            if '\n' in mm.group(0):
                                pos=mm.end()
                            else: pos=mm.end()
                            continue
            out.append(text[pos:m.start()])
            h=m.group(1)
            if h in alias:
                fs=[x for x in m.group(2).split('.') if x]
                pl,r=s.resolve(alias[h],fs,goalplace)
                if r is None:
                    out.append('c' if pl else m.group(0))
                    if pl and pl!=goalplace: s.warn.append(f'place {pl} passed whole')
                else: out.append('.'.join(r))
            else: out.append(m.group(0))
            pos=m.end()
        return ''.join(out)
    def run(s):
        lines=s.text.split('\n')
        items=[];cur=[]
        for l in lines:
            if l and not l[0].isspace() and cur:
                items.append(cur);cur=[]
            cur.append(l)
        if cur: items.append(cur)
        items=['\n'.join(i).rstrip() for i in items]
        uses=[];comments=[];decls=[] # decl: [comments, sig, [items]]
        pend=[];head=[]
        names={}
        for it in items:
            if not it.strip(): continue
            if it.startswith('--'): pend.append(it); continue
            if it.startswith('use '):
                if not decls and pend: head+=pend; pend=[]
                uses.append(it);continue
            m=re.match(r"(?:abbrev |unfoldable )?(?:pub )?([^\s:{(]+) :",it)
            if m and not it.startswith('unfolding'):
                d={'c':pend,'sig':it,'name':m.group(1),'items':[],'abbrev':it.startswith('abbrev')}
                pend=[];decls.append(d);names[m.group(1)]=d;continue
            if it.startswith('module '):
                s.warn.append('module block'); decls.append({'c':pend,'sig':it,'name':'','items':[],'abbrev':False});pend=[];continue
            if decls: decls[-1]['items']+=pend+[it];pend=[]
            else: s.warn.append('stray '+it[:40])
        stmt=[u for u in uses if re.search(r'\.Statement\.|\.Tie as tie|\.Tie\.',u)]
        uses=[u for u in uses if u not in stmt]
        needs={};
        for i,(o,n) in enumerate(s.e['needs']):
            needs.setdefault(norm(o),i); 
        for i,(o,n) in enumerate(s.e['needs']): needs.setdefault(norm(n),i)
        loops={norm(l[0][0]):i for i,l in enumerate(s.e['loops'])}
        inv=[];ans=[];helpers=[]
        trivial=re.compile(r'^(search rules|omega arith)$')
        for d in decls:
            t=d['sig'].split(':',1)[1].strip() if ':' in d['sig'] else ''
            t=re.sub(r'\s+',' ',t)
            mi=re.match(r'tie\.(invariant|decreases)-([\w-]+)$',t)
            mn=re.match(r'tie\.Need-([^\s]+)',t)
            if t.startswith('tie.statement') or (d['name'].replace('-','_').endswith('_spec') and 'statement' in t): continue
            if mi:
                k=loops.get(norm(mi.group(2)))
                if k is None: s.warn.append('no loop '+t); helpers.append(d); continue
                (o,new),vs=s.e['loops'][k]
                ch=s.e['changed'][k]
                params=[f'l.initial.{v}' if c else f'l.{v}' for v,c in zip(vs,ch)]+[f'l.{v}' for v,c in zip(vs,ch) if c]
                nm=f'{mi.group(1)}-{new}'
                res=[]
                for it in d['items']:
                    if it.startswith(d['name']+' ') or it.startswith(d['name']+'\n'):
                        lhs,rhs=it.split('=',1)
                        args=lhs.split()[1:]
                        if len(args)!=len(params): s.warn.append(f'{d["name"]}: {len(args)} args for {len(params)}')
                        sub=dict(zip(args,params))
                        # binders that hide
                        for b in re.findall(r"λ ([^.]*)\.|\(([\w'\u2080-\u2089 ]+) : ",rhs):
                            for w in re.findall(r"[\w'\u2080-\u2089]+",b[0]+' '+b[1]):
                                if w in sub: s.warn.append(f'{d["name"]}: a binder hides {w}')
                        rhs=re.sub(r"(?<![\w'.\u2080-\u2089-])([A-Za-z][\w'\u2080-\u2089]*)(?![\w'\u2080-\u2089]|-[A-Za-z])",lambda m: sub.get(m.group(1),m.group(1)),rhs)
                        res.append(f'{nm} l ={rhs}')
                    else: res.append(it)
                inv.append('\n'.join(d['c']+[f'abbrev pub {nm} : goal.{nm}']+res))
                continue
            if mn:
                w=norm(mn.group(1))
                k=needs.get(w)
                if k is None: k=needs.get(re.sub('^overflow_','',w))
                if k is None: k=needs.get(re.sub('^slice_bounds_','part_',w))
                if k is None: k=needs.get(re.sub('^offset_bounds_','mul_',w))
                if k is None: k=needs.get(re.sub('^nonzero_','',w))
                if k is None:
                    s.warn.append('no goal '+mn.group(1)); 
                    ans.append('\n'.join(d['c']+['-- LEFT: no goal of today has this name']+['-- '+x for x in (d['sig']+'\n'+'\n'.join(d['items'])).split('\n')]));continue
                new=s.e['needs'][k][1]; place=s.e['asked_at'][k][0]
                res=[]
                triv=False
                for it in d['items']:
                    if it.startswith(d['name']+' ') or it.startswith(d['name']+'\n'):
                        lhs,rhs=it.split('=',1)
                        args=lhs.split()[1:]
                        if args[:1]==['t']: s.warn.append('measure t')
                        rhs=s.body(rhs,place,'c')
                        if trivial.match(rhs.strip()): triv=True
                        args=[a for a in args if a!='κs']
                        res.append(f"{new} {' '.join(args)} ={rhs}")
                    else: res.append(it)
                if triv: continue
                ans.append((k,'\n'.join(d['c']+[f'pub {new} : goal.{new}']+res)))
                continue
            helpers.append(d)
        for d in helpers:
            txt='\n'.join(d['c']+[d['sig']]+d['items'])
            if 'tie.' in txt: s.warn.append('helper speaks of a place: '+d['name'])
        invnames=[re.search(r'pub ([\w-]+) :',x).group(1) for x in inv]
        a=[x for x in ans]
        return head,uses,inv,helpers,a
    def write(s,folder):
        head,uses,inv,helpers,ans=s.run()
        mod='Rattle.'+s.crate+'.proofs.'+s.rel.replace('/','.')
        hl='\n'.join(head)
        used=lambda u,t: True
        def prune(us,t):
            out=[]
            for u in us:
                m=re.match(r'use ([^\s]+)\.\{(.*)\}$',u.replace('\n',' '))
                if not m: out.append(u);continue
                ns=[n.strip() for n in m.group(2).split(',')]
                keep=[]
                for n in ns:
                    k=n.split(' as ')[-1]
                    parts=[x for x in k.split('◌') if x]
                    if not parts or all(x in t for x in parts): keep.append(n)
                if keep: out.append(f"use {m.group(1)}.{{{', '.join(keep)}}}")
            return out
        made=[]
        ht='\n\n'.join('\n'.join(d['c']+[d['sig']]+d['items']) for d in helpers if d['sig'])
        if inv:
            body='\n\n'.join(inv)
            hi=''
            # helpers that an invariant cites
            hs=[d for d in helpers if re.search(r"(?<![\w'-])"+re.escape(d['name'])+r"(?![\w'-])",body)] if helpers else []
            hb='\n\n'.join('\n'.join(d['c']+[d['sig'].replace('abbrev ','abbrev pub ',1) if d['sig'].startswith('abbrev ') and 'pub' not in d['sig'] else ('pub '+d['sig'] if not d['sig'].startswith(('pub','abbrev')) else d['sig'])]+d['items']) for d in hs)
            t=(hb+'\n\n' if hb else '')+body
            us=prune(uses,t)
            us.append(f'use {mod}.Given as goal')
            made.append('Invariants.antt')
            open(folder+'/Invariants.antt','w').write((hl+'\n' if hl else '')+'\n'.join(us)+'\n\n'+t+'\n')
            if hs:
                uses.append(f"use {mod}.Invariants.{{{', '.join(d['name'] for d in hs)}}}")
                helpers=[d for d in helpers if d not in hs]
                ht='\n\n'.join('\n'.join(d['c']+[d['sig']]+d['items']) for d in helpers)
        order=sorted([x for x in ans if isinstance(x,tuple)])
        parts=([ht] if ht else [])+[x[1] for x in order]+[x for x in ans if not isinstance(x,tuple)]
        if order or (ht and False) or any(not isinstance(x,tuple) for x in ans):
            t='\n\n'.join(parts)
            us=prune(uses,t)
            us.append(f'use {mod}.Goals as goal')
            made.append('Answers.antt')
            open(folder+'/Answers.antt','w').write((hl+'\n' if hl else '')+'\n'.join(us)+'\n\n'+t+'\n')
        os.remove(folder+'/Proof.antt')
        return s.warn
def main():
    names, *crates = sys.argv[1:]
    for crate in crates:
        d=json.load(open(f'{names}/{crate}/names.json'))
        n=0
        for f in sorted(glob.glob(f'crates/{crate}/proofs/**/Proof.antt',recursive=True)):
            rel=os.path.dirname(f)[len(f'crates/{crate}/proofs/'):]
            t=open(f).read()
            if 'tie.close' not in t: print(f'{crate}/{rel}: by hand'); continue
            key=f"Rattle-{crate}-proofs.{rel.replace('/','.')}.Lts"
            if key not in d: print(f'{crate}/{rel}: no names'); continue
            c=Conv(crate,rel,d[key],t)
            try:
                w=c.write(os.path.dirname(f))
            except Exception as ex:
                import traceback; traceback.print_exc(); print(f'{crate}/{rel}: FAILED {ex}'); continue
            n+=1
            for x in w: print(f'{crate}/{rel}: {x}')
        print(f'{crate}: {n} turned')
if __name__=='__main__': main()
