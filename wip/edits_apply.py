#!/usr/bin/env python3
# Says which edits of a repository do not apply: an old text must stand once in its file when its turn comes. Usage: edits_apply.py REPOSITORY
import glob,sys
n=0
for p in sorted(glob.glob(sys.argv[1]+'/crates/*/must-fail/*.edit')):
    c='/'.join(p.split('/')[:-2]); files={}; f=old=None
    for l in open(p).read().split('\n'):
        if l.startswith('file: '): f=l[6:]
        elif l.startswith('old: '): old=l[5:]
        elif l.startswith('new:'):
            new=l[5:] if l.startswith('new: ') else l[4:]; n+=1
            t=files.setdefault(f,open(c+'/'+f).read())
            if t.count(old)!=1: print('BAD',p,old,t.count(old))
            files[f]=t.replace(old,new)
print(n,'replacements')
