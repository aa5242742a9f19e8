#!/usr/bin/env python3
# Writes the proofs of crates/refusals anew from the lines of its specs/Refusals.antt (which is edited by hand, as is src/lib.rt).
# Usage: refusal_words.py REPOSITORY
import re,sys
c=sys.argv[1]+'/crates/refusals/'
spec=open(c+'specs/Refusals.antt').read()
lines=re.findall(r'^    if eqb k (\d+) then (ascii ".*") else$',spec,re.M)
n=len(lines)
letters='abcdefghijklmnopqrstuvwxyz'
# Words
p=c+'proofs/Words.antt'; t=open(p).read()
v=letters[:n]
head=t[:t.index('reason-most k = ')]
out=head+'reason-most k = at '+' '.join(f'(eqb k {k})' for k,_ in lines)+'\n  where\n'
out+='    at : ('+' '.join(v)+' : Bool) → length (\n'
for l,(k,w) in zip(v,lines): out+=f'        if {l} then {w} else\n'
out+='        ascii "refused") ≤ 60\n'
for i in range(n+1):
    out+='    at '+' '.join(['false']*i+(['true']+list(v[i+1:]) if i<n else []))+' = omega arith\n'
open(p,'w').write(out)
# put_reason
p=c+'proofs/put_reason/Proof.antt'; t=open(p).read()
out=t[:t.index('returns : tie.Need-returns\n')]
def name(i): return 'returns' if i==1 else f'returns-{i}'
def put(i): return 'put' if i==1 else f'put{i}'
for i in range(1,n+1):
    out+=f'{name(i)} : tie.Need-{name(i)}\nunfolding refusalOf\n{name(i)} c = rw (c .before .before .before .before .before .match .keys{i}) (c .before .before .{put(i)} .ensures)\n\n'
i=n+1
out+=f'{name(i)} : tie.Need-{name(i)}\nunfolding refusalOf\n{name(i)} c =\n    let {put(i)} = c .before .before in\n    let m5 = {put(i)} .before .before .before in\n    let s = m5 .before .before in\n'
rw=', '.join(f'ne-eqb (s .args .number) {k} (m5 .match .rest '+'.0 '*(n-1-j)+'.1)' for j,(k,_) in enumerate(lines))
out+=f'    rw ({rw}) ({put(i)} .{put(i)} .ensures)\n\n'
out+='pub put-reason-spec : {M : Type 1} → statement M\nput-reason-spec =\n    tie.close\n    (tie.spec\n    '
out+=' '.join(['(λ c. search needs) (λ c κs. search needs)']*(n+1))+' '+' '.join(f'(λ c. search needs) {name(i)}' for i in range(1,n+2))+')\n'
open(p,'w').write(out)
