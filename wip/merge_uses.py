import re,sys
rank=['Prim.','mathlib.','native.','lib.','borrow.','Rattle·bits','Rattle·description','Rattle·rules','Rattle·writing','Rattle·writer·specs','Rattle·writer·proofs']
for f in sys.argv[1:]:
    L=open(f).read().split('\n')
    idx=[i for i,l in enumerate(L) if l.startswith('use ')]
    if not idx: continue
    a,b=idx[0],idx[-1]
    if any(not l.startswith('use ') for l in L[a:b+1]): print('gap',f); continue
    mods={};order=[];plain=[]
    for l in L[a:b+1]:
        m=re.match(r'use (.*)\.\{(.*)\}$',l)
        if m:
            if m.group(1) not in mods: mods[m.group(1)]=[];order.append(m.group(1))
            for n in [x.strip() for x in m.group(2).split(',')]:
                if n not in mods[m.group(1)]: mods[m.group(1)].append(n)
        else: plain.append(l); order.append(l)
    def key(x):
        s=x[4:] if x.startswith('use ') else x
        for i,r in enumerate(rank):
            if s.startswith(r): 
                own=1 if ('.Statement' in s or s.endswith(' as tie')) else 0
                return (i,own)
        return (len(rank),0)
    order=sorted(order,key=key)
    out=[x if x.startswith('use ') else 'use %s.{%s}'%(x,', '.join(mods[x])) for x in order]
    L[a:b+1]=out
    open(f,'w').write('\n'.join(L))
