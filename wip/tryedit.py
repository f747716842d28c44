import sys,subprocess,re,shutil,os
crate,edit=sys.argv[1],sys.argv[2]
root='$WORK/mf/crates/'+crate+'/'
lines=open(root+'must-fail/'+edit).read().split('\n')
f=None; saved={}; old=None; n=0
only=[int(x) for x in sys.argv[3:]] if len(sys.argv)>3 else None
for l in lines:
    if l.startswith('file: '): f=root+l[6:]
    elif l.startswith('old: '): old=l[5:]
    elif l.startswith('new: '):
        n+=1
        if only and n not in only: continue
        t=open(f).read()
        if f not in saved: saved[f]=t
        assert t.count(old)==1,(old,t.count(old))
        open(f,'w').write(t.replace(old,l[5:]))
r=subprocess.run('cd $WORK/mf && RT_CUT=0 RT_JOBS=1 rt dev '+crate,shell=True,capture_output=True,text=True)
out=r.stdout+r.stderr
errs=[x for x in out.split('\n') if ': error' in x]
print(edit,only,'errors',len(errs)); 
for e in errs[:4]: print('   ',e[:260])
for f,t in saved.items(): open(f,'w').write(t)
