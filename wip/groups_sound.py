#!/usr/bin/env python3
# Says which shared edits name a declaration that another program of the same edit refuses or makes wait, by the logs of each by itself.
# Usage: groups_sound.py REPOSITORY LOGS
import re,glob,sys,os
repo,logs=sys.argv[1:3]; n=0
def errors(log):
    own=set(); waits=set()
    for m in re.finditer(r'^\S*?/(src|specs|proofs)/(\S+?):\d+:\d+: error: `([^`]*)`: (.*)$',log,re.M):
        k=(m[2].replace('/Proof.antt',''),m[3]); (waits if 'was not admitted (' in m[4] else own).add(k)
    calls={m[1].replace('::','/') for m in re.finditer(r'^fn \w+::(\S+): not proved; it calls ',log,re.M)}
    return own,waits,calls
for p in sorted(glob.glob(repo+'/crates/*/must-fail/*.edit')):
    c=p.split('/')[-3]; heads=re.findall(r'^# ([a-z0-9_]+), (\S+) (\S+): ',open(p).read(),re.M)
    if not heads: continue
    E={}
    for l,pr,d in heads:
        lp=f'{logs}/{c}/{l}/.log'
        E[l]=errors(open(lp,errors='replace').read()) if os.path.exists(lp) else None
        if E[l] is None: print('no log',c,l)
        elif (pr,d) not in E[l][0]: print('NOT REFUSED ALONE',c,l,pr,d)
    for l,pr,d in heads:
        n+=1
        for m,qr,e in heads:
            if m==l or E[m] is None: continue
            own,waits,calls=E[m]
            if (pr,d) in own: print('SHARED',c,os.path.basename(p),l,'and',m,pr,d)
            elif d.endswith('-spec') and (qr==pr or pr in calls): print('WAITS',c,os.path.basename(p),l,'for',m,pr,d)
            elif (pr,d) in waits: print('WAITS',c,os.path.basename(p),l,'for',m,pr,d)
print(n,'programs')
