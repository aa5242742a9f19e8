#!/usr/bin/env python3
# Tries single wrong edits, over the rlibs of the last `rt check` (rt must-fail NAME also tries those of all crates below). Usage:
# one_edit.py REPOSITORY LOGS CRATE/EDIT..    (LOGS/CRATE/EDIT/.log has what was said, as tests/wrong_programs and merge_edits.py want it)
import sys,os,shutil,subprocess,tempfile,time,platform
root,logs=sys.argv[1:3]; kit=os.path.dirname(os.path.dirname(os.path.realpath(shutil.which('rt')))); own=f'{kit}/on/{platform.machine()}'
deps={}
for l in open(root+'/crates.txt'):
    l=l.split('#')[0].strip()
    if ':' in l: n,d=l.split(':',1); deps[n.strip()]=d.split()
room=tempfile.mkdtemp()
for ce in sys.argv[3:]:
    c,e=ce.split('/')
    d=f'{room}/{c}'; shutil.rmtree(d,ignore_errors=True); shutil.copytree(f'{root}/crates/{c}',d)
    f=old=None; files={}
    for l in open(f'{root}/crates/{c}/must-fail/{e}.edit').read().split('\n'):
        if l.startswith('file: '): f=l[6:]
        elif l.startswith('old: '): old=l[5:]
        elif l.startswith('new:'):
            new=l[5:] if l.startswith('new: ') else l[4:]
            t=files.setdefault(f,open(d+'/'+f).read()); assert t.count(old)==1,(ce,old,t.count(old)); files[f]=t.replace(old,new)
    for f,t in files.items(): open(d+'/'+f,'w').write(t)
    main='main.rt' if os.path.exists(d+'/src/main.rt') else 'lib.rt'
    w=[own+'/bin/rattle','check','--crate-name',c,f'{d}/src/{main}','--extern',f'std={own}/rlib/std.rlib']
    for x in deps[c]:
        w+=['--extern',f'{x}={root}/target/rlib/{x}.rlib' if os.path.isdir(f'{root}/crates/{x}') else f'{x}={own}/rlib/{x}.rlib']
    w+=['-L',f'dependency={root}/target/rlib','-L',f'dependency={own}/rlib','--antt-project',kit+'/logic/antt-project.json','--logic-built',own+'/logic-built']
    t0=time.time(); r=subprocess.run(w,capture_output=True,text=True)
    o=f'{logs}/{c}/{e}'; os.makedirs(o,exist_ok=True); open(o+'/.log','w').write(r.stdout+r.stderr)
    print(ce,'status',r.returncode,'%.0f s'%(time.time()-t0),flush=True)
    for l in (r.stdout+r.stderr).split('\n'):
        if ': error: ' in l: print('   ',l.replace(d,'')[:230],flush=True)
shutil.rmtree(room)
