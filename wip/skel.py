import sys,re,os
log=open('$WORK/dev.log').read().split('\n')
want=sys.argv[1:]
i=0
while i<len(log):
    m=re.match(r"help: write (/\S*/proofs/(\S+)/Proof.antt) with these lines",log[i])
    if m:
        j=i+1; body=[]
        while j<len(log) and log[j].startswith('    '):
            body.append(log[j][4:]); j+=1
        if (m.group(2) in want):
            os.makedirs(os.path.dirname(m.group(1)),exist_ok=True)
            if os.path.exists(m.group(1)): print('exists',m.group(1))
            else:
                b=[l for l in body if not re.match(r'-- src/',l)]
                open(m.group(1),'w').write('-- \n'+'\n'.join(b)+'\n'); print('wrote',m.group(1))
        i=j
    else: i+=1
