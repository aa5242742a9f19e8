#!/usr/bin/env python3
# Which wrong edits of a crate may share a check, by the logs of checks that were run (LOGS: a target/must-fail), and with `write` puts them into one.
# Usage: merge_edits.py REPOSITORY LOGS [write]. Two share a check if each has a declaration that is refused for itself and that the other leaves alone.
import re,glob,os,sys
repo,logs=sys.argv[1:3]; write=len(sys.argv)>3
times={}
def errors(log):
    own=[]; waits=set()
    for m in re.finditer(r'^\S*?/(src|specs|proofs)/(\S+?)\.antt:\d+:\d+: error: `([^`]*)`: (.*)$',log,re.M):
        f=m[2]; f=f[:-6] if f.endswith('/Proof') else (m[1]+'/'+f)
        k=(f,m[3])
        if 'was not admitted (' in m[4]: waits.add(k)
        elif k not in own: own.append(k)
    calls={m[1].replace('::','/') for m in re.finditer(r'^fn \w+::(\S+): not proved; it calls ',log,re.M)}
    return own,waits-set(own),calls
HEAD=re.compile(r'^# ([a-z0-9_]+), ([^ :]+) ([^ :]+): (.*)$')
def parse(path):
    progs=[]; cur=None; f=old=None; words=[]
    for l in open(path).read().split('\n'):
        h=HEAD.match(l)
        if h: cur=dict(label=h[1],proof=h[2],decl=h[3],words=h[4],pairs=[]); progs.append(cur)
        elif l.startswith('#'): words.append(l[1:].strip())
        elif l.startswith('file: '): f=l[6:]
        elif l.startswith('old: '): old=l[5:]
        elif l.startswith('new:'):
            n=l[5:] if l.startswith('new: ') else l[4:]
            if cur is None: cur=dict(label=os.path.basename(path)[:-5],proof=None,decl=None,words=None,pairs=[]); progs.append(cur)
            cur['pairs'].append((f,old,n))
    if len(progs)==1 and progs[0]['words'] is None: progs[0]['words']=' '.join(words)
    return progs
class U: pass
total=0
for d in sorted(glob.glob(repo+'/crates/*/must-fail')):
    c=d.split('/')[-2]; us=[]
    for p in sorted(glob.glob(d+'/*.edit')):
        l=os.path.basename(p)[:-5]; lp=f'{logs}/{c}/{l}/.log'
        if not os.path.exists(lp): continue
        u=U(); u.path=p; u.progs=parse(p); u.own,u.waits,u.calls=errors(open(lp,errors='replace').read())
        us.append(u)
    if len(us)<2: continue
    def decls(u):
        """candidate declarations of each program of the unit"""
        if len(u.progs)==1 and u.progs[0]['decl'] is None: return [[k for k in u.own]]
        return [[(q['proof'],q['decl'])] for q in u.progs]
    def clash(k,v):
        if k in v.own or k in v.waits: return True
        if k[1].endswith('-spec') and (k[0] in {o[0] for o in v.own} or k[0] in v.calls): return True
        return False
    def texts_ok(u,v):
        for a in u.progs:
            for b in v.progs:
                for (f,o,n) in a['pairs']:
                    for (f2,o2,n2) in b['pairs']:
                        if f==f2 and (o in o2 or o2 in o or o in n2 or o2 in n): return False
        return True
    def ok(group):
        for u in group:
            for cand in decls(u):
                if not any(all(not clash(k,v) for v in group if v is not u) for k in cand): return False
        return all(texts_ok(u,v) for i,u in enumerate(group) for v in group[i+1:])
    groups=[]
    for u in sorted(us,key=lambda u:-len(u.own)):
        for g in groups:
            if ok(g+[u]): g.append(u); break
        else: groups.append([u])
    if len(groups)<len(us):
        print(c,len(us),'->',len(groups),[[os.path.basename(u.path)[:-5] for u in g] for g in groups if len(g)>1]); total+=len(us)-len(groups)
        if write:
            for g in groups:
                if len(g)==1: continue
                progs=[]
                for u in g:
                    for q,cand in zip(u.progs,decls(u)):
                        k=next(k for k in cand if all(not clash(k,v) for v in g if v is not u))
                        q['proof'],q['decl']=k; progs.append(q)
                names=sorted(os.path.basename(u.path) for u in g if re.match(r'(programs|definitions)_',os.path.basename(u.path)))
                used={os.path.basename(u.path) for u in us}
                name=names[0] if names else next(f'programs_{i}.edit' for i in range(1,20) if f'programs_{i}.edit' not in used)
                out='# Wrong programs, each refused at its own proof.\n'; at=None
                for q in sorted(progs,key=lambda q:q['pairs'][0][0]):
                    out+=f"# {q['label']}, {q['proof']} {q['decl']}: {q['words']}\n"
                    for (f,o,n) in q['pairs']:
                        if f!=at: out+=f'file: {f}\n'; at=f
                        out+=f'old: {o}\nnew: {n}\n'
                for u in g: os.remove(u.path)
                open(f'{d}/{name}','w').write(out)
print(total,'checks fewer')
