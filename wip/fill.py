import re
def again(f,reps,uses='',extra='',head=None,inv=None,mu=None):
    path=f+'/Proof.antt'; t=open(path).read()
    if head: t=t.replace('-- \n','-- '+head+'\n',1)
    if uses:
        i=t.index('use Rattle·writer·proofs.proofs.'+f.replace('/','.'))
        t=t[:i]+uses+t[i:]
    if inv: t=re.sub(r'(?m)^(Inv-loop .* =) \?$',lambda m:m.group(1)+inv,t)
    if mu: t=re.sub(r'(?m)^(μ-loop .* =) \?$',lambda m:m.group(1)+mu,t)
    for k,v in reps.items():
        m=re.search(r'(?m)^(unfolding .*\n)?'+re.escape(k)+r' c( κs)? =(.*\n)((    .*|)\n)*?(?=\n|\Z)',t)
        if not m: print('no',f,k); continue
        body=v; unf=''
        if v.startswith('unfolding '):
            unf,body=v.split('\n',1); unf+='\n'
        t=t[:m.start()]+unf+k+' c'+(m.group(2) or '')+' ='+(' ' if not body.startswith('\n') else '')+body+'\n'+t[m.end():]
    t=re.sub(r'(?m)^use .*\.Reads as reads\n|^use .*\.Lts as lts\n','',t)
    if extra:
        m=re.search(r'(?m)^(abbrev )?[a-zI][\w-]* : tie\.',t)
        t=t[:m.start()]+extra+'\n'+t[m.start():]
    open(path,'w').write(t)
